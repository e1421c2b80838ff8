"""Makes the disk images that a loss of power may leave in a run of the built program, from the calls that the program made, by the
sentences of docs/DEFINITIONS.md ("The disk"). Each image must open to what the journal had come to at some moment of the run, and
hold all that was said before it, and of each circuit no more than `repeat` draws beyond. What stands behind one gate is there whole
or not at all: between two changes of what the journal has come to something is said. A plain reading of docs/FORMATS.md judges every
image, and the program opens each that is new, or each Nth of these with `--each N`.

    --break sync     one sync is left out, so that what is said behind it may be lost
    --break say      one receipt is taken as said two changes of the journal earlier
    --break half     a gate between the records of a batch is opened behind the batch's own
    --break frame    one frame is taken as not said, so that more draws of its circuit are not said than may be gathered"""
import os
import re
import subprocess
import tempfile

import pytest
from gate import IN_MEMORY, TOP, Folder, feed
from journal import CLOSED, EOL, OPEN, SEAL, Directory, Journal, State, Wrong, frame_of, size_of_record

SHIM = os.path.join(TOP, '.ci/watching.c')
DIRECTORY = Directory('TVSV', window=6, limit=60000, names=['A', 'B', 'C'], peers=['AAAA', 'BBBB', 'CCCC'],
                      rules=[('S***** ****', [1, 2]), ('W***** ****', [1])], levels=[('W*', 1)], kept=4)
FILES = ('journal.0', 'journal.1', 'journal.2')
SECTOR = 512
# How many images are made at each moment, how many random runs there are, and how many steps each has.
IMAGES, RUNS, STEPS = 12, 3, 40
LONGEST_TAIL = 80
# Ten circuits that get all, whose rows have so many draws repeated, with so many bulletins, and so many images at each moment. Where
# fifty are repeated some batches are full, and there are few moments.
READERS, REPEATS = 10, ((1, 12, IMAGES), (50, 60, 3 * IMAGES))
CALL = re.compile(rb'(\w+) (\S+) (-?\d+) (\d+)\n')


def of_ten(repeat):
    """A directory of ten circuits that get all that comes on another one."""
    names = 'ABCDEFGHIJK'[:1 + READERS]
    return Directory('TVSV', window=20, limit=200000, names=names, peers=[name * 4 for name in names],
                     rules=[('****** ****', list(range(1, 1 + READERS)))], kept=60, repeat=repeat)


def bulletin(number):
    letter = 'W' if number % 5 == 0 else 'S'
    body = b'%sMVG01 TVSV 28%02d00' % (letter.encode(), number % 24) + EOL + b'BULLETIN %03d=' % number + b'x' * (37 * number % 700) + EOL + b'\x03'
    return frame_of(b'AN', number % 1000, body)


def request(number, first, last):
    body = b'BMRR01 TVSV 281030' + EOL + b'BBBB' + EOL + b'SQN %03d-%03d=' % (first, last) + EOL + b'\x03'
    return frame_of(b'AN', number % 1000, body)


def planned():
    """Accepted bulletins, draws, a request, compactions, and a drain."""
    steps = [feed(0, bulletin(number)) for number in range(1, 5)] + [b'T 01\n', b'T 02\n', b'T 01\n']
    steps += [feed(1, request(1, 1, 2)), b'T 01\n', b'C\n', feed(0, bulletin(5)), b'T 01\n', b'C\n', feed(2, bulletin(6))]
    return steps + [b'D 01\n', b'C\n', b'D 02\n']


def in_batches(count):
    """So many bulletins, each of which is drawn ten times, with a request and a compaction between."""
    takes = [b'T %02d\n' % reader for reader in range(1, 1 + READERS)]
    steps = [step for number in range(1, 1 + count) for step in (feed(0, bulletin(number)), *takes)]
    middle = len(steps) // 2
    return [*steps[:middle], feed(1, request(1, 1, 3)), *takes, b'C\n', *steps[middle:], *takes]


def of_chance(chance):
    """Steps of all kinds in any order."""
    number, steps = 10, []
    for _ in range(STEPS):
        kind = chance.random()
        number += 1
        if kind < 0.45:
            steps.append(feed(chance.randrange(3), bulletin(number)))
        elif kind < 0.8:
            steps.append(b'%s %02d\n' % (chance.choice((b'T', b'T', b'D')), chance.randrange(3)))
        elif kind < 0.9:
            steps.append(feed(1, request(number, 1, chance.randrange(1, 9))))
        else:
            steps.append(b'C\n')
    return steps


class Call:
    """A change of a file, or a sync of it."""

    def __init__(self, kind, name, place, written):
        self.kind, self.name, self.place, self.written = kind, name, place, written


def calls_of(log):
    """The calls that were kept, in their order."""
    calls, at = [], 0
    while at < len(log):
        found = CALL.match(log, at)
        count = int(found[4])
        calls.append(Call(found[1].decode(), found[2].decode(), int(found[3]), log[found.end():found.end() + count]))
        at = found.end() + count
    return calls


class File:
    """A file as a disk may have it: what was synced, what a read gives, and which places were touched since, each up to the next.
    `open_end` is the place from which on all is touched, if any."""

    def __init__(self, text=b''):
        self.synced, self.now = text, text
        self.touched, self.open_end = [], None

    def touch_from(self, place):
        self.open_end = place if self.open_end is None else min(place, self.open_end)

    def does(self, call):
        if call.kind == 'sync':
            self.synced, self.touched, self.open_end = self.now, [], None
        elif call.kind == 'cut':
            self.touch_from(min(call.place, len(self.now)))
            self.now = self.now[:call.place].ljust(call.place, b'\0')
        else:
            end = call.place + len(call.written)
            self.now = self.now[:call.place].ljust(call.place, b'\0') + call.written + self.now[end:]
            self.touched.append((call.place, end))
            if end > len(self.synced):
                self.touch_from(min(call.place, len(self.synced)))

    def is_touched(self):
        return bool(self.touched) or self.open_end is not None

    def pieces(self, chance, size):
        """The touched places below a size, in pieces that reach the disk apart."""
        spans = [(start, min(end, size)) for start, end in self.touched if start < size]
        if self.open_end is not None and self.open_end < size:
            spans.append((self.open_end, size))
        for start, end in spans:
            edges = {start, end, *range(start - start % SECTOR + SECTOR, end, SECTOR)}
            edges |= {chance.randrange(start, end + 1) for _ in range(chance.randrange(3))}
            ordered = sorted(edges)
            yield from zip(ordered, ordered[1:])

    def image(self, chance):
        """What a crash may leave of it."""
        size = len(self.synced)
        if self.open_end is not None:
            size = chance.choice([len(self.synced), len(self.now), chance.randrange(self.open_end, max(len(self.now), self.open_end) + 1),
                                  len(self.now) + chance.randrange(LONGEST_TAIL)])
        text = bytearray(self.synced[:size].ljust(size, b'\0'))
        for start, end in self.pieces(chance, size):
            kind = chance.choice(('old', 'new', 'new', 'zeros', 'any'))
            new = {'new': self.now[start:end], 'zeros': b'', 'any': chance.randbytes(end - start)}.get(kind)
            if new is not None:
                text[start:end] = new[:end - start].ljust(end - start, b'\0')
        return bytes(text)

    def whole(self):
        """All that was done so far is on the disk."""
        return self.now


def key_of(state):
    """What a state is, as later answers need it."""
    directory = state.directory
    kept = [drawn[-directory.kept:] for drawn in state.drawn]
    recent = range(max(0, state.accepted - directory.window), state.accepted)
    needed = sorted({*recent, *(position for places in kept + state.waiting for position in places)})
    bodies = tuple((position, state.bulletins[position].circuit, state.bulletins[position].body) for position in needed)
    return (state.accepted, tuple(map(state.draws, range(len(directory.names)))), tuple(map(tuple, kept)),
            tuple(map(tuple, state.waiting)), bodies)


class Said:
    """What was said: how many bulletins were acknowledged, and the last draw of each circuit that went out. It begins with all that
    a run begins with."""

    def __init__(self, state):
        self.accepted, self.draws = state.accepted, [state.draws(circuit) for circuit in range(len(state.directory.names))]

    def hears(self, call):
        if call.name == '-':
            for line in call.written.decode().splitlines():
                if line.startswith('ACC '):
                    self.accepted = max(self.accepted, int(line.split()[2]) + 1)
        elif call.name.startswith('circuit.'):
            circuit = int(call.name.split('.')[1])
            self.draws[circuit] = max(self.draws[circuit], int(call.written[14:17]))

    def is_in(self, state):
        return state.accepted >= self.accepted and all(state.draws(circuit) >= draws for circuit, draws in enumerate(self.draws))

    def most_beyond(self, state):
        """How many draws of one circuit are in a state that were not said."""
        return max(state.draws(circuit) - draws for circuit, draws in enumerate(self.draws))


class Run:
    """The calls of a run, and the images that a loss of power may leave in it, so many at each moment."""

    def __init__(self, what, start, calls, folder, chance, each, count):
        self.what, self.start, self.calls, self.folder, self.chance, self.each = what, start, calls, folder, chance, each
        self.known = {}
        self.images, self.count = 0, count

    def came_to(self):
        """What the journal had come to between the calls of the run. Between two of these something was said."""
        files = dict(zip(FILES, map(File, self.start)))
        last = key_of(self.read([files[name].whole() for name in FILES]))
        found, silent = {last}, False
        for at, call in enumerate(self.calls):
            if call.name not in FILES:
                silent = False
                continue
            files[call.name].does(call)
            if call.kind == 'sync':
                now = key_of(self.read([files[name].whole() for name in FILES]))
                if now != last and silent:
                    self.folder.faults.append(f'{self.what}: what was said behind call {at} came to the journal in two parts')
                silent = silent or now != last
                last = now
                found.add(now)
        return found

    def read(self, image):
        """What an image opens to by a plain reading; the program is asked once for each."""
        if tuple(image) not in self.known:
            journal = Journal(self.folder.directory, image)
            self.known[tuple(image)] = journal.state
            if len(self.known) % self.each == 0:
                self.folder.lay(image)
                self.folder.wants(f'{self.what}: an image, show', self.folder.run('show'), (0, journal.report(), ''))
        return self.known[tuple(image)]

    def opens(self, at, image, said, moments):
        self.images += 1
        try:
            state = self.read(image)
        except Wrong as wrong:
            self.folder.faults.append(f'{self.what}: an image at call {at} does not open: {wrong}')
            return
        if key_of(state) not in moments:
            self.folder.faults.append(f'{self.what}: an image at call {at} opens to nothing that was: accepted {state.accepted}')
        if not said.is_in(state):
            self.folder.faults.append(f'{self.what}: an image at call {at} lacks what was said: accepted {state.accepted}')
        beyond = said.most_beyond(state)
        if beyond > self.folder.directory.repeat:
            self.folder.faults.append(f'{self.what}: an image at call {at} has {beyond} draws of a circuit that were not said')

    def goes(self):
        """All images, at each moment between two calls and inside the one behind it."""
        moments = self.came_to()
        files, said = dict(zip(FILES, map(File, self.start))), Said(self.read(self.start))
        for at, call in enumerate(self.calls):
            if call.name not in FILES:
                said.hears(call)
                continue
            if call.kind != 'sync':
                files[call.name].does(call)
            if any(files[name].is_touched() for name in FILES):
                self.opens(at, [files[name].whole() for name in FILES], said, moments)
                for _ in range(self.count):
                    self.opens(at, [files[name].image(self.chance) for name in FILES], said, moments)
            if call.kind == 'sync':
                files[call.name].does(call)


def without_a_sync(calls):
    """The calls with one sync less: the one in front of the last receipt."""
    last = max(at for at, call in enumerate(calls) if call.name == '-')
    sync = max(at for at in range(last) if calls[at].kind == 'sync')
    return calls[:sync] + calls[sync + 1:]


def said_early(calls):
    """The calls with the last receipt said two changes of the journal earlier."""
    last = max(at for at, call in enumerate(calls) if call.name == '-')
    changes = [at for at in range(last) if calls[at].name in FILES and calls[at].kind == 'write']
    return calls[:changes[-2]] + [calls[last]] + calls[changes[-2]:last] + calls[last + 1:]


def in_halves(calls):
    """The calls with a gate between the records of the last batch of several that is opened behind the batch's own."""
    for at in range(len(calls) - 1, 1, -1):
        block, sync, gate = calls[at - 2:at + 1]
        if gate.written == bytes([OPEN]) and sync.kind == 'sync' and gate.place + 1 == block.place:
            inner = size_of_record(block.written) + SEAL
            if inner < len(block.written) - 1:
                first = block.written[:inner] + bytes([CLOSED]) + block.written[inner + 1:]
                late = Call('write', block.name, block.place + inner, bytes([OPEN]))
                return [*calls[:at - 2], Call('write', block.name, block.place, first), sync, gate, calls[at + 1], late, sync,
                        *calls[at + 2:]]
    raise AssertionError('there is no batch of several records')


def without_a_frame(calls):
    """The calls without the last frame but one of the circuit that got most."""
    frames = {}
    for at, call in enumerate(calls):
        if call.name.startswith('circuit.'):
            frames.setdefault(call.name, []).append(at)
    left_out = max(frames.values(), key=len)[-2]
    return calls[:left_out] + calls[left_out + 1:]


BREAKS = {'sync': without_a_sync, 'say': said_early, 'half': in_halves, 'frame': without_a_frame}


@pytest.fixture
def shim():
    with tempfile.TemporaryDirectory() as room:
        made = os.path.join(room, 'watching.so')
        subprocess.run(['gcc', '-shared', '-fPIC', '-O1', '-o', made, SHIM, '-ldl'], check=True)
        yield made


class Watched(Folder):
    """A folder in which the changes that the program makes are kept."""

    def __init__(self, program, at, directory):
        super().__init__(program, at, directory.text())
        self.directory = directory

    def begins_with(self, directory):
        """A new journal under this directory."""
        self.remove(*os.listdir(self.at))
        self.directory = directory
        self.write('directory.toml', directory.text())
        self.wants('init', self.run('init'), (0, b'', ''))

    def changes(self, shim, words, capture):
        log = self.at + '.bytes'
        self.write('capture.gts', capture)
        given = {**os.environ, 'LD_PRELOAD': shim, 'WATCHED_BYTES': log}
        self.wants('its end', self.run(*words, env=given)[::2], (0, ''))
        with open(log, 'rb') as file:
            calls = calls_of(file.read())
        os.remove(log)
        return [call for call in calls if call.name in (*FILES, '-') or call.name.startswith('circuit.') and call.kind == 'write']


@pytest.fixture
def watched(program):
    with tempfile.TemporaryDirectory(dir=IN_MEMORY) as room:
        folder = Watched(program, os.path.join(room, 'folder'), DIRECTORY)
        yield folder
        assert not folder.faults, '\n'.join(folder.faults[:20])


def images_of(what, folder, shim, words, steps, chance, each, broken=None, count=IMAGES):
    """A run behind what stands in the folder, and all its images. How many they were."""
    start = folder.journal()
    calls = folder.changes(shim, words, b''.join(steps) + b'E\n')
    after = folder.journal()
    calls = BREAKS.get(broken, lambda calls: calls)(calls)
    run = Run(what, start, calls, folder, chance, each, count)
    run.goes()
    folder.lay(after)
    print(f'images: {what}: {len(calls)} calls, {run.images} images, {len(run.known)} of them different')
    return run.images


def test_each_image_of_a_run_opens_to_a_moment_of_it(watched, shim, chance, each, broken):
    watched.run('init')
    images_of('a planned run', watched, shim, ('replay',), planned(), chance, each, broken)
    images_of('the run behind it', watched, shim, ('replay',), [feed(0, bulletin(9)), b'T 01\n', b'C\n'], chance, each)


def test_each_image_of_a_run_of_chance_opens_to_a_moment_of_it(watched, shim, chance, each):
    watched.run('init')
    for number in range(RUNS):
        images_of(f'run {number}', watched, shim, ('replay',), of_chance(chance), chance, each)


def test_each_image_of_a_compaction_opens_to_what_was(watched, shim, chance, each):
    watched.run('init')
    watched.run('replay', capture=b''.join(planned()) + b'E\n')
    images_of('compact', watched, shim, ('compact',), [], chance, each)
    images_of('count', watched, shim, ('count',), [feed(0, bulletin(30)), b'T 01\n'], chance, each)


@pytest.mark.parametrize(('repeat', 'bulletins', 'count'), REPEATS)
def test_each_image_of_batches_opens_to_a_moment_of_them(watched, shim, chance, each, broken, repeat, bulletins, count):
    watched.begins_with(of_ten(repeat))
    images_of(f'batches with repeat {repeat}', watched, shim, ('replay',), in_batches(bulletins), chance, each, broken, count)
