"""Runs the built program with one allocation refused, each of a run in turn: `init`, a replay, a replay with repetitions,
`compact`, `migrate`, also of a journal of version 1, `migrate drop`, `migrate check` and `serve`. Each time the program ends as if
nothing had been refused, or tells of it; and then the journal opens, what is left is done, and each number has one text. It needs gcc
for the library that refuses.

    --break refused    the library refuses nothing"""
import os
import random
import re
import socket
import subprocess
import sys
import tempfile
import threading
import time
from collections import Counter
from concurrent.futures import ThreadPoolExecutor

import pytest
from gate import IN_MEMORY, SIDE_BY_SIDE, TOP, feed
from journal import older
from loopback import HOST, body_of, directory, frame, messages_of, number_of

MOST_SECONDS = 180
# After so many seconds a run of `serve` is told to stand still.
STANDS_STILL = 10
HEADING = b'SMVG01 TVSV 280000'
FIRST, SECOND, THIRD = (frame(number, HEADING, text) for number, text in ((1, b'NIL='), (2, b'NIM='), (3, b'NIN=')))
REQUEST = frame(1, b'BMRR01 TVSV 281030', b'BBBB|SQN 002-003=')
# The exits that may tell of a refused allocation: no memory, or a device that found none.
NO_MEMORY, DISK_FAULT, OUTPUT_FAULT, INPUT_FAULT, LINE_FAULT = 11, 6, 7, 8, 10
DEVICES = {DISK_FAULT, OUTPUT_FAULT, INPUT_FAULT}
# How long a neighbour waits for a frame before it ends its stream.
SECONDS_OF_WAITING = 0.5


# Ports below those that the system gives to whoever connects. Each is given once, since folders run side by side.
PORTS = random.sample(range(10000, 32000), 22000)


def quiet_ports(count):
    """Ports on which nobody listens now."""
    held = []
    while len(held) < count:
        try:
            held.append(socket.create_server((HOST, PORTS.pop())))
        except OSError:
            pass
    ports = [one.getsockname()[1] for one in held]
    for one in held:
        one.close()
    return ports


def listener(port):
    """Listens on a port, as soon as no program that is just begun holds it any more."""
    until = time.monotonic() + 5
    while True:
        try:
            return socket.create_server((HOST, port))
        except OSError:
            if time.monotonic() > until:
                raise
            time.sleep(0.01)


class Folder:
    """A folder in which the program runs, over a directory; `laid` are the journal files that each run begins with."""

    def __init__(self, program, top, library, text):
        self.program = program
        self.at = tempfile.mkdtemp(dir=top)
        self.library = library
        self.write('directory.toml', text.encode())
        self.laid = {}

    def path(self, name):
        return os.path.join(self.at, name)

    def write(self, name, text):
        with open(self.path(name), 'wb') as file:
            file.write(text)

    def read(self, name):
        try:
            with open(self.path(name), 'rb') as file:
                return file.read()
        except FileNotFoundError:
            return b''

    def begin(self, *words, capture=b'', refused=0, counts=None):
        """The program, begun with these words over this capture, with this allocation refused."""
        self.write('capture.gts', capture)
        settings = {'LD_PRELOAD': self.library, 'REFUSED_ALLOCATION': str(refused)}
        if counts:
            settings['COUNTED_ALLOCATIONS'] = self.path(counts)
        return subprocess.Popen([self.program, *words], cwd=self.at, env={**os.environ, **settings}, stdout=subprocess.PIPE,
                                stderr=subprocess.PIPE)

    def run(self, *words, **given):
        """The exit of the program, what it said, and its line of a fault."""
        program = self.begin(*words, **given)
        said, line = program.communicate(timeout=MOST_SECONDS)
        return program.returncode, said, line

    def keeps(self):
        self.laid = {name: self.read(name) for name in ('journal.0', 'journal.1', 'journal.2')}

    def lay(self):
        """The journal files from before, and no frame."""
        for name in os.listdir(self.at):
            if name.startswith('circuit.'):
                os.remove(self.path(name))
        for name, text in self.laid.items():
            self.write(name, text)

    def sent(self, circuit):
        return self.read(f'circuit.{circuit:02}.out')


class Case:
    """A run whose allocations are refused in turn. `ends` are the exits that may tell of it."""
    name, ends = '', {NO_MEMORY} | DEVICES
    text = directory(['A', 'B'], ['A', 'B'], [4001, 4002, 4003, 4004])

    def prepare(self, folder):
        """Makes the journal that each run begins with."""
        folder.run('init')
        folder.keeps()

    def refused(self, folder, number, counts=None):
        """The exit and the line of the run with this allocation refused."""
        status, _, line = folder.run(*self.words, capture=self.capture, refused=number, counts=counts)
        return status, line

    def rest(self, folder):
        """What is wrong with what comes behind that run: the journal is shown, and the same comes once more."""
        before = folder.sent(1)
        faults = [] if folder.run('show')[0] == 0 else ['the journal does not open']
        status, _, line = folder.run('replay', capture=self.capture)
        if status != 0:
            faults.append(f'then replay: {line.decode().strip()}')
        return faults + self.wrong(folder, before + folder.sent(1)[len(before):])

    def wrong(self, folder, stream):
        """What is wrong with all that was sent on the second circuit, and with the journal behind it."""
        texts = {}
        for message in messages_of(stream)[0]:
            texts.setdefault(number_of(message), set()).add(body_of(message))
        wanted = {number + 1: {body_of(one[10:])} for number, one in enumerate(self.bulletins)}
        faults = [] if texts == wanted else [f'numbers and texts: {texts}']
        shown = folder.run('show')[1].decode()
        if not re.search(rf'^accepted {len(self.bulletins)}\n.*\n.* draws {len(self.bulletins)} waiting 0 ', shown):
            faults.append(f'then show: {shown}')
        return faults


class Replay(Case):
    name, words = 'replay', ['replay']
    bulletins = [FIRST]
    capture = feed(0, FIRST) + b'T 01\nE\n'


class Repetition(Case):
    name, words = 'replay with repetitions', ['replay']
    bulletins = [FIRST, SECOND, THIRD]
    capture = b''.join(feed(0, one) for one in bulletins) + b'D 01\n' + 2 * (feed(1, REQUEST) + b'T 01\nT 01\n') + b'E\n'


class Compaction(Case):
    name, words = 'compact', ['compact']
    bulletins = [FIRST]
    capture = feed(0, FIRST) + b'T 01\nE\n'

    def prepare(self, folder):
        folder.run('init')
        folder.run('replay', capture=self.capture)
        folder.keeps()


class Migration(Case):
    """A journal in which one bulletin was drawn and one waits is taken over under a directory with a circuit more and a smaller
    window, whose rule no longer names the circuit on which it waits. Where `migrate` has told of want of memory, the journal is as
    it was, and the next one takes it over."""
    name, words = 'migrate', ['migrate']
    bulletins = [FIRST, SECOND]
    capture = b'D 01\nE\n'
    new = directory(['A', 'B', 'C'], ['C'], [4001, 4002, 4003, 4004, 4005, 4006]).replace('centre', 'window = 10\ncentre', 1)

    def prepare(self, folder):
        folder.run('init')
        folder.run('replay', capture=feed(0, FIRST) + b'T 01\n' + feed(0, SECOND) + b'E\n')
        folder.keeps()
        folder.write('directory.old.toml', self.text.encode())
        folder.write('directory.toml', self.new.encode())

    def refused(self, folder, number, counts=None):
        folder.status, folder.said, line = folder.run(*self.words, capture=self.capture, refused=number, counts=counts)
        return folder.status, line

    def rest(self, folder):
        faults = []
        if folder.status == NO_MEMORY and any(folder.read(name) != text for name, text in folder.laid.items()):
            faults.append('the journal is not as it was')
        if not faults and folder.run('show')[0] != 0:
            faults = self.once_more(folder)
        return faults + super().rest(folder)

    def once_more(self, folder):
        status, _, line = folder.run(*self.words)
        return [f'then {self.name}: {line.decode().strip()}'] if status != 0 else []


class OlderMigration(Migration):
    """The same of a journal of version 1."""
    name = 'migrate of version 1'

    def prepare(self, folder):
        super().prepare(folder)
        folder.laid['journal.0'] = older(folder.laid['journal.0'])


class Dropping(Migration):
    """The circuit is closed on which a bulletin waits, which is dropped. Its receipt is said whenever the journal was taken over."""
    name, words = 'migrate drop', ['migrate', 'drop']
    new = directory(['A', 'B'], ['A'], [4001, 4002, 4003, 4004]).replace('name = "B"', 'name = "B"\nclosed = true', 1)
    receipt = b'DRP 1 1 ' + HEADING + b'\n'

    def rest(self, folder):
        faults = [] if folder.said == self.receipt or folder.status != 0 else [f'it said {folder.said}']
        return faults + super().rest(folder)

    def once_more(self, folder):
        _, said, _ = folder.run(*self.words)
        return [] if said == self.receipt else [f'then {self.name} said {said}']

    def wrong(self, folder, stream):
        shown = folder.run('show')[1].decode()
        fits = stream == b'' and re.search(r'^accepted 2\n.*\n.* draws 1 waiting 0 ', shown)
        return [] if fits else [f'then show: {shown}, and sent was {stream}']


class Checking(Migration):
    """What would change is told, or nothing is; and nothing is written. Then the journal is taken over."""
    name, words = 'migrate check', ['migrate', 'check']
    changes = b'rule out ****** **** to A B\nrule in ****** **** to C\ncircuit 02 C added\nend\n'

    def rest(self, folder):
        faults = [] if folder.said == (self.changes if folder.status == 0 else b'') else [f'it said {folder.said}']
        if any(folder.read(name) != text for name, text in folder.laid.items()):
            faults.append('the journal is not as it was')
        return faults + super().rest(folder)

    def once_more(self, folder):
        _, said, _ = folder.run(*self.words)
        faults = [] if said == self.changes else [f'then {self.name} said {said}']
        return faults + ([] if folder.run('migrate')[0] == 0 else ['then migrate failed'])


class Init(Case):
    name, words = 'init', ['init']
    bulletins = [FIRST]
    capture = feed(0, FIRST) + b'T 01\nE\n'

    def prepare(self, folder):
        for name in ('journal.0', 'journal.1', 'journal.2'):
            folder.write(name, b'')
        folder.keeps()

    def rest(self, folder):
        folder.run('init')
        return super().rest(folder)


class Serve(Case):
    """Three circuits, each with its neighbour; what comes on the first two goes to the third, whose first frame the neighbour of
    the first waits for."""
    name, words = 'serve', ['serve']
    ends = {NO_MEMORY, LINE_FAULT} | DEVICES
    bulletins = [FIRST, SECOND]

    def prepare(self, folder):
        folder.ports = quiet_ports(6)
        folder.write('directory.toml', directory(['A', 'B', 'C'], ['C'], folder.ports).encode())
        super().prepare(folder)

    def serve(self, folder, **given):
        """The exit and the line of a run, and what its third circuit sent."""
        listeners = [listener(folder.ports[2 * place + 1]) for place in range(3)]
        program = folder.begin('serve', **given)
        got = bytearray()
        has_frame = threading.Event()

        def speak(circuit, of, waits):
            while program.poll() is None:
                try:
                    with socket.create_connection((HOST, folder.ports[2 * circuit])) as to:
                        if waits:
                            has_frame.wait(SECONDS_OF_WAITING)
                        to.sendall(of)
                        to.shutdown(socket.SHUT_WR)
                        to.recv(1)
                    return
                except OSError:
                    time.sleep(0.001)

        def hear(circuit):
            listeners[circuit].settimeout(0.01)
            while program.poll() is None:
                try:
                    with listeners[circuit].accept()[0] as connection:
                        while piece := connection.recv(1 << 16):
                            if circuit == 2:
                                got.extend(piece)
                                if len(got) >= len(SECOND):
                                    has_frame.set()
                    return
                except OSError:
                    pass

        pieces = [(FIRST, True), (SECOND, False), (b'', False)]
        threads = [threading.Thread(target=speak, args=(circuit, *of)) for circuit, of in enumerate(pieces)]
        threads += [threading.Thread(target=hear, args=(circuit,)) for circuit in range(3)]
        for one in threads:
            one.start()
        try:
            _, line = program.communicate(timeout=STANDS_STILL)
        except subprocess.TimeoutExpired:
            program.kill()
            _, line = program.communicate()
        has_frame.set()
        for one in threads:
            one.join()
        for one in listeners:
            one.close()
        return program.returncode, line, bytes(got)

    def refused(self, folder, number, counts=None):
        status, line, folder.got = self.serve(folder, refused=number, counts=counts)
        return status, line

    def rest(self, folder):
        faults = [] if folder.run('show')[0] == 0 else ['the journal does not open']
        status, line, got = self.serve(folder)
        if status != 0:
            faults.append(f'then serve: {line.decode().strip()}')
        return faults + self.wrong(folder, folder.got, got)

    def wrong(self, folder, *streams):
        texts = {}
        for message in (message for stream in streams for message in messages_of(stream)[0]):
            texts.setdefault(number_of(message), set()).add(body_of(message))
        wanted = {body_of(one[10:]) for one in self.bulletins}
        fits = sorted(texts) == [1, 2] and all(len(found) == 1 for found in texts.values()) and set.union(*texts.values()) == wanted
        return [] if fits else [f'numbers and texts: {texts}']


def share(case, folder, numbers):
    """The exits of the runs in which these allocations were refused, and what was wrong."""
    exits, faults = Counter(), []
    for number in numbers:
        folder.lay()
        status, line = case.refused(folder, number)
        exits[status] += 1
        if status != 0 and status not in case.ends:
            faults.append(f'{case.name}, allocation {number}: exit {status}, {line.decode().strip()!r}')
        faults += [f'{case.name}, allocation {number}: {fault}' for fault in case.rest(folder)]
    return exits, faults


def tried(case, program, top, library):
    """The same over all allocations of a case, side by side, and how many there are."""
    folders = [Folder(program, top, library, case.text) for _ in range(SIDE_BY_SIDE)]
    for folder in folders:
        case.prepare(folder)
    folders[0].lay()
    status, line = case.refused(folders[0], 0, counts='count')
    count = int.from_bytes(folders[0].read('count'), sys.byteorder)
    faults = [] if status == 0 else [f'{case.name} with nothing refused: exit {status}, {line.decode().strip()!r}']
    exits = Counter()
    with ThreadPoolExecutor(SIDE_BY_SIDE) as pool:
        shares = [pool.submit(share, case, folder, range(1 + place, count + 1, SIDE_BY_SIDE)) for place, folder in enumerate(folders)]
        for one in shares:
            exits += one.result()[0]
            faults += one.result()[1]
    if exits[NO_MEMORY] == 0:
        faults.append(f'{case.name}: no refused allocation was told of')
    return count, exits, faults


@pytest.fixture(scope='module')
def library(tmp_path_factory, broken):
    """The library that refuses an allocation; where the tests are to fail, it is one that refuses none."""
    made = str(tmp_path_factory.mktemp('library') / 'refusing.so')
    source = os.path.join(TOP, '.ci/refusing.c')
    other_name = ['-DREFUSED_ALLOCATION="NO_SUCH_SETTING"'] if broken == 'refused' else []
    subprocess.run(['gcc', '-O1', '-shared', '-fPIC', *other_name, '-o', made, source], check=True)
    return made


KINDS = [Init, Replay, Repetition, Compaction, Migration, OlderMigration, Dropping, Checking, Serve]


@pytest.mark.parametrize('kind', KINDS, ids=lambda kind: kind.name.replace(' ', '_'))
def test_each_allocation_of_a_run_is_refused(kind, program, library):
    with tempfile.TemporaryDirectory(dir=IN_MEMORY) as top:
        count, exits, faults = tried(kind(), program, top, library)
    ends = ', '.join(f'exit {status} {times} times' for status, times in sorted(exits.items()))
    print(f'memory: {kind.name}: {count} allocations, {ends}')
    assert not faults, '\n'.join(faults[:20])
