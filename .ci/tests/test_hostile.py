"""Gives the built program a journal that was cut or changed by one byte, at each of its places, and a capture that was cut at
each place, and compares what `show` and `replay` answer with a plain reading of docs/FORMATS.md: the fault and its place, or
the report and the frames of the front that is left. So with `migrate`, `migrate drop` and `migrate check`, also of a journal of
version 1: what they answer to such a journal, and what each byte of the files is behind them, under directories that take over from
the journal's; and of what `migrate` writes each front and each byte changed.

    --break byte    once the program is given another journal than the one that is read"""
import itertools
import tempfile
from concurrent.futures import ThreadPoolExecutor

import pytest
from gate import IN_MEMORY, SIDE_BY_SIDE, Folder
from journal import EOL, Directory, Journal, TakingOver, Wrong, frame_of, older, places_of, resealed

DIRECTORY = Directory('TVSV', window=3, limit=600, names=['ALPHA', 'B', 'C'], peers=['AAAA', 'BBBB', 'CCCC'],
                      rules=[('S***** ****', [1, 2]), ('W***** ****', [1])], levels=[('W*', 1)])
CIRCUITS = range(len(DIRECTORY.names))
# What `migrate` is tried with: rules, levels and kept draws that are fewer, and a circuit more; other digits and a greater window; a
# circuit that is closed, on which something may wait; and a limit under which there is no room for all.
FEWER = Directory('TVSV', window=2, limit=900, names=['ALPHA', 'B', 'C', 'D'], peers=['AAAA', 'BBBB', 'CCCC', 'DDDD'],
                  rules=[('S***** ****', [1, 3])], kept=1)
DIGITS = Directory('TVSV', window=9, limit=900, names=DIRECTORY.names, peers=DIRECTORY.peers, rules=DIRECTORY.rules, five=[1])
CLOSED = Directory('TVSV', window=3, limit=900, names=DIRECTORY.names, peers=DIRECTORY.peers, rules=[('S***** ****', [1])], closed=[2])
NO_ROOM = Directory('TVSV', window=3, limit=240, names=DIRECTORY.names, peers=DIRECTORY.peers, rules=DIRECTORY.rules)
TAKING_OVER = {'fewer': FEWER, 'digits': DIGITS, 'closed': CLOSED, 'no room': NO_ROOM}
# Each byte is changed by these: all its bits, and its lowest one; what may be a gate to an open one and to none; and a byte of
# a record, with the seals made anew, to some more.
CHANGES = [lambda byte: byte ^ 0xFF, lambda byte: byte ^ 1]
GATES = [lambda _: 0x4F, lambda _: 0]
SEALED_CHANGES = [*CHANGES, lambda byte: byte ^ 2, lambda byte: byte ^ 3, lambda _: 0]


class Runs(Folder):
    """Runs of the program in a folder, and what was wrong with them."""

    def __init__(self, program, at):
        super().__init__(program, at, DIRECTORY.text())
        self.falsifies = False
        self.turn = itertools.cycle(TAKING_OVER)

    def lay(self, files):
        super().lay(files)
        for circuit in CIRCUITS:
            self.write(f'circuit.{circuit:02}.out', b'')
        # What stands in the file isn't what is read, where that must be seen.
        if self.falsifies and len(files[0]) > 100:
            self.write('journal.0', files[0][:60] + bytes([files[0][60] ^ 1]) + files[0][61:])
            self.falsifies = False

    def all_frames(self):
        return [self.frames(circuit) for circuit in CIRCUITS]

    def migrates(self, what, files):
        """What `migrate` answers to these files, and `migrate drop` where a circuit is closed: where the journal opens, under each
        directory, or under the next one in turn where it is of version 1. Under the one in turn also what `migrate check` answers."""
        opens = TakingOver(DIRECTORY, FEWER, files).status == 0
        in_turn = next(self.turn) if opens else 'fewer'
        self.write('directory.old.toml', DIRECTORY.text())
        for name in TAKING_OVER if opens and not what.startswith('version 1') else [in_turn]:
            new = TAKING_OVER[name]
            want = TakingOver(DIRECTORY, new, files)
            self.write('directory.toml', new.text())
            self.lay(files)
            if name == in_turn:
                self.checks(f'{what}, {name}', want, opens)
            self.takes_over(f'{what}, {name}', want, ['migrate'])
            if new.closed and opens:
                self.lay(files)
                self.takes_over(f'{what}, {name}', TakingOver(DIRECTORY, new, files, drops=True), ['migrate', 'drop'])
        self.write('directory.toml', DIRECTORY.text())

    def checks(self, what, want, opens):
        """What `migrate check` answers, behind which the files are as they were."""
        files = self.journal()
        answer = (0, want.report, '') if opens else (want.status, b'', want.line)
        self.wants(f'{what}, migrate check', self.run('migrate', 'check'), answer)
        self.wants(f'{what}, the files behind a migrate check', self.journal(), files)

    def takes_over(self, what, want, words):
        """What `migrate` answers, and what the files are behind it."""
        self.wants(f'{what}, {" ".join(words)}', self.run(*words), (want.status, want.said if 'drop' in words else b'', want.line))
        self.wants(f'{what}, the files behind {" ".join(words)}', self.journal(), want.files)
        if want.status == 0:
            report = Journal(want.new, want.files).report()
            self.wants(f'{what}, show behind {" ".join(words)}', self.run('show'), (0, report, ''))

    def shows(self, what, directory, files):
        """What `show` answers to these files under a directory."""
        self.write('directory.toml', directory.text())
        self.lay(files)
        try:
            self.wants(f'{what}, show', self.run('show'), (0, Journal(directory, files).report(), ''))
        except Wrong as wrong:
            self.wants(f'{what}, show', self.run('show'), (5, b'', str(wrong)))

    def compare(self, what, files):
        """What the commands answer to these files."""
        self.migrates(what, files)
        self.lay(files)
        try:
            journal = Journal(DIRECTORY, files)
            state = journal.state
            self.wants(f'{what}, show', self.run('show'), (0, journal.report(), ''))
            self.wants(f'{what}, the journal behind it', self.read('journal.0'), files[0])
            self.wants(f'{what}, replay', self.run('replay'), (0, b'', ''))
            self.wants(f'{what}, its frames', self.all_frames(), [state.drained(circuit) for circuit in CIRCUITS])
        except Wrong as wrong:
            for word in ('show', 'replay'):
                self.wants(f'{what}, {word}', self.run(word), (5, b'', str(wrong)))
            self.wants(f'{what}, its frames', self.all_frames(), [b''] * len(CIRCUITS))
            self.wants(f'{what}, the journal behind it', self.read('journal.0'), files[0])


def steps():
    """Four bulletins, one of them in two forms, and three takes: the capture of the run whose journal is broken."""
    bodies = [(0, b'AN', b'SMVG01 TVSV 280000' + EOL + b'NIL=' + EOL + b'\x03'),
              (0, b'BI', b'WSVG01 TVSV 280600' + EOL + b'STORM' + EOL + b'\x03')]
    text = b''
    for number, (circuit, kind, body) in enumerate(bodies):
        frame = frame_of(kind, number + 1, body)
        text += b'F %02d %06d\n' % (circuit, len(frame)) + frame
    late = frame_of(b'AN', 1, b'SMVG01 TVSV 280000 RRA' + EOL + b'A' + EOL + b'\x03')
    return text + b'T 01\nT 02\nF 02 %06d\n' % len(late) + late + b'T 01\nE\n'


def cut_capture(runs, whole, length, empty, receipts):
    """A proper front of the capture ends at its length, and what was said before is a front of what the whole says."""
    runs.lay([empty, b'', b''])
    runs.write('capture.gts', whole[:length])
    status, said, line = runs.run('replay')
    runs.wants(f'a capture of {length} bytes', (status, line), (4, f'capture: bad at {length}'))
    runs.wants(f'a capture of {length} bytes says a front', receipts.startswith(said), True)


def older_journals(journal):
    """Names and files of journals of version 1 that were broken: each front, and each byte changed, which no seal tells; the same of
    one that begins with a checkpoint. Most of them open."""
    compacted = TakingOver(DIRECTORY, DIRECTORY, [journal, b'', b'']).files[1]
    for front, file in (('version 1', older(journal)), ('version 1 with a checkpoint', older(compacted))):
        for length in range(len(file) + 1):
            yield f'{front}, {length} bytes', [file[:length], b'', b'']
        for place, byte in enumerate(file):
            changes = CHANGES + (GATES if byte in b'OC' else [])
            for other in sorted({change(byte) for change in changes} - {byte}):
                yield f'{front}, byte {place} changed to {other:02x}', [file[:place] + bytes([other]) + file[place + 1:], b'', b'']


def falsified_journals(journal):
    """Names and files of the journals in which one byte of a record was changed and the seals made anew."""
    records = list(places_of(Journal(DIRECTORY, [journal, b'', b'']).records, 1))
    for place in (place for begin, size in records for place in range(begin, begin + size)):
        for other in sorted({change(journal[place]) for change in SEALED_CHANGES} - {journal[place]}):
            changed = journal[:place] + bytes([other]) + journal[place + 1:]
            yield f'byte {place} changed to {other:02x} under new seals', [resealed(changed, records), b'', b'']


def broken_journals(journal):
    """Names and files of the journals that were broken: each front, each byte changed, and each selector, of which only one
    that begins with 01 selects file 1."""
    for length in range(len(journal) + 1):
        yield f'a journal of {length} bytes', [journal[:length], b'', b'']
    for place, byte in enumerate(journal):
        changes = CHANGES + (GATES if byte in b'OC' else [])
        for other in sorted({change(byte) for change in changes} - {byte}):
            changed = journal[:place] + bytes([other]) + journal[place + 1:]
            yield f'byte {place} changed to {other:02x}', [changed, b'', b'']
    for selector in (b'', b'\x00', b'\x01', b'\x02', b'\x01\x00', b'\x00\x01', b'\xff'):
        yield f'selector {selector.hex()}', [journal, b'', selector]
        yield f'selector {selector.hex()} and file 1', [b'X', journal, selector]


def taken_over_journals(journal):
    """Names, directories and files: what a `migrate` was stopped in, each front of its new file beside the old one, under the old
    directory; and each byte of the new file changed, where that is selected, under the new directory."""
    files = [journal, b'', b'']
    new = TakingOver(DIRECTORY, FEWER, files).files[1]
    for length in range(len(new) + 1):
        yield f'a migrate stopped at byte {length}', DIRECTORY, [journal, new[:length], b'']
        yield f'the first {length} bytes of what a migrate wrote', FEWER, [journal, new[:length], b'\x01']
    for place, byte in enumerate(new):
        for other in sorted({change(byte) for change in CHANGES} - {byte}):
            changed = new[:place] + bytes([other]) + new[place + 1:]
            yield f'byte {place} of what a migrate wrote changed to {other:02x}', FEWER, [journal, changed, b'\x01']


def whole_run(runs):
    """An empty journal, the journal behind the whole capture, and the receipts of that."""
    runs.wants('init', runs.run('init'), (0, b'', ''))
    empty = runs.read('journal.0')
    runs.write('capture.gts', steps())
    status, receipts, line = runs.run('replay')
    runs.wants('the whole run', (status, receipts.count(b'ACC'), line), (0, 3, ''))
    return empty, runs.read('journal.0'), receipts


def share(runs, number, each, empty, journal, receipts):
    """Every case whose number, divided by the number of folders, leaves this one."""
    whole = steps()
    for length in range(number, len(whole), SIDE_BY_SIDE * each):
        cut_capture(runs, whole, length, empty, receipts)
    runs.write('capture.gts', b'D 00\nD 01\nD 02\nE\n')
    for what, files in [*broken_journals(journal), *falsified_journals(journal), *older_journals(journal)][number::SIDE_BY_SIDE * each]:
        runs.compare(what, files)
    for what, directory, files in [*taken_over_journals(journal)][number::SIDE_BY_SIDE * each]:
        runs.shows(what, directory, files)
        runs.migrates(what, files)


@pytest.fixture
def all_runs(program, broken):
    """A folder for each run that goes on beside others."""
    with tempfile.TemporaryDirectory(dir=IN_MEMORY) as top:
        runs = [Runs(program, tempfile.mkdtemp(dir=top)) for _ in range(SIDE_BY_SIDE)]
        runs[-1].falsifies = broken == 'byte'
        yield runs


def test_what_is_broken_is_answered_as_a_plain_reading_does(all_runs, each):
    empty, journal, receipts = whole_run(all_runs[0])
    with ThreadPoolExecutor(SIDE_BY_SIDE) as pool:
        shares = [pool.submit(share, runs, number, each, empty, journal, receipts) for number, runs in enumerate(all_runs)]
        for one in shares:
            one.result()
    faults = [fault for runs in all_runs for fault in runs.faults]
    print(f'hostile: {sum(runs.count for runs in all_runs)} runs, a journal of {len(journal)} bytes')
    assert not faults, '\n'.join(faults[:20])
