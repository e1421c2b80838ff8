"""Backups beside a running switch: what `ship` writes is brought back by `follow`, with each bulletin that had been acknowledged
before the call; a plain copy of the three files opens to a front of the journal while nothing is compacted; and a copy whose files
belong to two moments, around compactions, is told by `show`, or is a front too. The commands of docs/OPERATING.md for a backup, for
a circuit's file behind a loss of power and for `migrate check` do what it says, as they stand there, also a second time.

    --break copy    the copy by `ship` lacks its second half, also in the last backup"""
import os
import re
import shutil
import socket
import subprocess
import threading
import time

from gate import TOP, Folder, feed
from loopback import Neighbour, directory, frame, free_ports

BULLETINS, ROUNDS, SECONDS = 300, 6, 60
HEADING = b'SMVG01 TVSV 280000'


def accepted(report):
    """How many bulletins were accepted, by a report."""
    return int(report.split(b'\n')[0].split()[1])


def copied(folder, to, order):
    """A plain copy of the files, in this order."""
    for name in (*order, 'directory.toml'):
        shutil.copyfile(folder.path(name), os.path.join(to, name))


def test_backups_beside_a_running_switch(folder, program, broken, tmp_path):
    ports = free_ports(4)
    folder.write('directory.toml', directory('AB', 'B', ports))
    folder.wants('init', folder.run('init'), (0, b'', ''))
    frames = [frame((number + 1) % 1000, HEADING, b'%04d=' % number + b'x' * 200) for number in range(BULLETINS)]
    may_end = threading.Event()

    def sends(_neighbour, to):
        for one in frames:
            if not may_end.is_set():
                to.sendall(one)
                time.sleep(0.005)
        may_end.wait(SECONDS)
        to.shutdown(socket.SHUT_WR)

    def listens(_neighbour, to):
        may_end.wait(SECONDS)
        to.shutdown(socket.SHUT_WR)
    neighbours = [Neighbour(*ports[:2], sends, SECONDS), Neighbour(*ports[2:], listens, SECONDS)]
    with open(folder.path('receipts'), 'wb') as receipts:
        process = folder.starts('serve', stdout=receipts)
    for one in neighbours:
        one.start()
    worth = []
    for number in range(ROUNDS):
        time.sleep(0.1)
        acknowledged = folder.read('receipts').count(b'\n')
        status, shipped, line = folder.run('ship')
        folder.wants('ship', (status, line), (0, ''))
        back = Folder(program, str(tmp_path / f'shipped.{number}'), folder.read('directory.toml'))
        back.run('init')
        if broken == 'copy':
            shipped = shipped[:len(shipped) // 2]
        folder.wants('follow', back.run('follow', capture=shipped), (0, b'', ''))
        status, report, _ = back.run('show')
        folder.wants('each acknowledged bulletin is in the copy', status == 0 and accepted(report) >= acknowledged, True)
        worth.append(acknowledged)
        plain = Folder(program, str(tmp_path / f'plain.{number}'))
        acknowledged = folder.read('receipts').count(b'\n')
        copied(folder, plain.at, ['journal.2', 'journal.0', 'journal.1'])
        status, report, line = plain.run('show')
        folder.wants('a plain copy opens', (status, line), (0, ''))
        folder.wants('each acknowledged bulletin is in the plain copy', status == 0 and accepted(report) >= acknowledged, True)
    may_end.set()
    folder.wants('the end of serve', process.wait(SECONDS), 0)
    folder.wants('backups were taken beside a switch that had work', worth[-1] > 0, True)
    again = b''.join(feed(0, one) for one in frames)
    _, said, _ = back.run('replay', capture=again + b'E\n')
    known = sum(line.startswith(b'DUP 0 ') for line in said.splitlines())
    folder.wants('what the last copy knows once more', known >= worth[-1], True)


def test_a_copy_around_a_compaction_is_told_or_is_a_front(folder, tmp_path, program):
    folder.write('directory.toml', directory('AB', 'B', [0, 0, 0, 0]))
    folder.run('init')
    for number in range(3):
        frames = [frame(k + 1, HEADING, b'%d %d=' % (number, k)) for k in range(20)]
        folder.run('replay', capture=b''.join(feed(0, one) for one in frames) + b'D 01\nE\n')
        before = folder.journal()
        folder.wants('compact', folder.run('compact'), (0, b'', ''))
        after = folder.journal()
        # Each of the three files is of the one moment or of the other.
        for which in range(8):
            mixed = [(after if which >> place & 1 else before)[place] for place in range(3)]
            other = Folder(program, str(tmp_path / f'{number}.{which}'), folder.read('directory.toml'))
            other.lay(mixed)
            status, report, line = other.run('show')
            told = status == 5 and line.startswith(('journal: none', 'journal: file'))
            folder.wants(f'files of two moments ({which:03b})', told or (status == 0 and accepted(report) <= 20 * (number + 1)), True)


def commands(begin, more=1):
    """The lines of code of docs/OPERATING.md from the one on that begins so."""
    with open(os.path.join(TOP, 'docs/OPERATING.md'), encoding='utf-8') as file:
        page = file.read()
    [found] = re.findall(rf'^ +{re.escape(begin)}.*(?:\n    .*){{{more - 1}}}$', page, re.M)
    return '\n'.join(line.strip() for line in found.split('\n'))


def pasted(folder, program, text):
    """How a shell ends into which this is pasted in the folder, with the program by its name."""
    named = folder.path('named')
    os.makedirs(named, exist_ok=True)
    if not os.path.lexists(os.path.join(named, 'gts_switch')):
        os.symlink(program, os.path.join(named, 'gts_switch'))
    done = subprocess.run(['bash', '-c', text], cwd=folder.at, env={**os.environ, 'PATH': f'{named}:{os.environ["PATH"]}'},
                          stdin=subprocess.DEVNULL, capture_output=True, timeout=SECONDS)
    return done.returncode, done.stdout


def test_the_pages_backup_stays_where_the_next_one_fails(folder, program, broken, tmp_path):
    somewhere = Folder('', str(tmp_path / 'somewhere'))
    first, *back = [line.replace('/somewhere', somewhere.at) for line in commands('gts_switch ship >/somewhere', 3).split('\n')]
    folder.write('directory.toml', directory('AB', 'B', [0, 0, 0, 0]))
    folder.run('init')
    folder.run('replay', capture=b''.join(feed(0, frame(k + 1, HEADING, b'%d=' % k)) for k in range(20)) + b'E\n')
    folder.wants('the backup', pasted(folder, program, first), (0, b''))
    kept = somewhere.read('backup.gts')
    folder.wants('what it is', kept, folder.run('ship')[1])
    # The next one breaks off in its middle, as on a full disk.
    with open(tmp_path / 'half', 'w') as file:
        file.write(f'#!/bin/sh\nhead -c 30 {folder.path("journal.0")}\nexit 7\n')
    os.chmod(tmp_path / 'half', 0o755)
    os.remove(folder.path('named/gts_switch'))
    folder.wants('a backup that fails', pasted(folder, str(tmp_path / 'half'), first)[0] == 0, False)
    os.remove(folder.path('named/gts_switch'))
    folder.wants('the last one behind it', somewhere.read('backup.gts'), kept)
    if broken == 'copy':
        somewhere.write('backup.gts', kept[:len(kept) // 2])
    folder.wants('what comes back', pasted(folder, program, '\n'.join(back)), (0, folder.run('show')[1]))


def test_the_pages_cut_of_a_circuits_file_is_of_that_circuit(folder, program):
    """Also of a second one, and of one that ends with a whole frame."""
    text = commands('mkdir -p cut', 2)
    folder.write('directory.toml', directory('ABCD', 'BCD', [0] * 8))
    streams = {number: b''.join(frame(k + 1, HEADING, b'%d %d=' % (number, k)) for k in range(10 * number)) for number in (1, 2, 3)}
    for number, whole in streams.items():
        folder.write(f'circuit.{number:02}.out', whole + (frame(999, HEADING, b'not whole=')[:-5] if number < 3 else b''))
    for number, whole in streams.items():
        pasted(folder, program, text.replace('NN', f'{number:02}'))
        folder.wants(f'the whole frames of circuit {number}', folder.frames(number), whole)
    before = folder.frames(1)
    pasted(folder, program, text.replace('NN', '07'))
    folder.wants('where there is no such file', (folder.frames(1), folder.frames(7)), (before, b''))


def test_the_pages_migrate_check_may_be_called_again(folder, program):
    text = commands('mkdir -p try', 2)
    folder.write('directory.toml', directory('AB', 'B', [0, 0, 0, 0]))
    folder.write('new.toml', 'window = 7\n' + directory('AB', 'B', [0, 0, 0, 0]))
    folder.run('init')
    before = folder.journal()
    for when in ('once', 'again'):
        status, said = pasted(folder, program, text.replace('NEW', 'new.toml'))
        folder.wants(f'what would change, {when}', (status, said.endswith(b'end\n')), (0, True))
    folder.wants('the journal behind it', folder.journal(), before)
