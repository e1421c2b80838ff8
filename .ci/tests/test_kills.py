"""The built program is killed at some thirty places of a run of some hundred bulletins, in which the journal is compacted now and
then, and in the command `compact` between the runs. Each time its journal is opened again with the rest of the capture. Every
bulletin has been sent then, under one number, and no number carries two. Behind each kill the journal has all that was said, and
beyond it no more than may be gathered: of each circuit `repeat` draws. What was accepted beyond the receipts is a duplicate in the
next run, and each circuit's frames begin there with its last `repeat` draws. So with one circuit and with ten.

    --break journal    once the journal is put back as it was some bulletins before
    --break draws      what one circuit gets from some kill on is forgotten, so that more draws were not said than may be gathered"""
import re
import subprocess
import time

import pytest

import gate
from gate import feed
from loopback import EOL, messages_of

# How many bulletins come where one circuit gets them, and where ten do.
BULLETINS, FEWER = 990, 900
KILLS = 30
# So many of these kills, and of those in `compact`, are to be in the middle.
LEAST = KILLS // 3
# How many seconds a kill waits at most once the receipts are there.
LONGEST_PAUSE = 0.001
# So many pieces may be held behind one gate.
PIECES = 256
NAMES = 'ABCDEFGHIJK'


def directory(readers, repeat):
    """A sender, and so many readers that get all."""
    rows = [f'[[circuit]]\nname = "{name}"\npeer = "{name * 4}"\nkept = 1000\nrepeat = {repeat}\n' for name in NAMES[:1 + readers]]
    names = ', '.join(f'"{name}"' for name in NAMES[1:1 + readers])
    return 'centre = "TVSV"\n' + ''.join(rows) + f'[[rule]]\nheading = "****** ****"\nto = [{names}]\n'


def body(i):
    """The body of a bulletin, from its heading to ETX."""
    return b'SMVG01 TVSV 280000' + EOL + b'BULLETIN %03d=' % i + EOL + b'\x03'


def capture(start, count, readers):
    """The rest of the capture, from a bulletin on: behind every third bulletin a take, or with several readers a drain of each; a
    compaction behind every seventh; at the end all that waits."""
    drains = b''.join(b'D %02d\n' % reader for reader in range(1, 1 + readers))
    steps = b''
    for i in range(start, count):
        message = b'\x01' + EOL + b'%03d' % (i % 1000) + EOL + body(i)
        steps += feed(0, b'%08dAN' % len(message) + message)
        steps += (drains if readers > 1 else b'T 01\n') if i % 3 == 2 else b''
        steps += b'C\n' if i % 7 == 6 else b''
    return steps + drains + b'E\n'


class Circuit:
    """What came out on a circuit: the text of each number, and the number of each text."""

    def __init__(self):
        self.numbers, self.bodies = {}, {}

    def last(self):
        return max(map(int, self.numbers), default=0)


class Day:
    """The run of all bulletins, killed again and again. `accepted` and `draws` are what the journal has since the last kill."""

    def __init__(self, folder, chance, broken, readers, repeat):
        self.folder, self.chance, self.broken, self.repeat = folder, chance, broken, repeat
        self.count = BULLETINS if readers == 1 else FEWER
        self.circuits = {circuit: Circuit() for circuit in range(1, 1 + readers)}
        self.done = self.kills = self.cut_off = 0
        self.accepted, self.draws = 0, dict.fromkeys(self.circuits, 0)
        # How long `compact` takes, as far as it is known.
        self.seconds = 0.03
        self.older = None

    def replay(self, kill_after):
        """Replays the rest of the capture, and kills the program once its receipts have so many bytes, if it is to be killed.
        Gives the receipts that were said whole, the frames of each circuit, and whether it was killed."""
        folder = self.folder
        folder.remove(*(f'circuit.{circuit:02}.out' for circuit in self.circuits))
        folder.write('capture.gts', capture(self.done, self.count, len(self.circuits)))
        with open(folder.path('receipts'), 'wb') as receipts:
            program = folder.starts('replay', stdout=receipts)
        until = time.monotonic() + gate.SECONDS
        while kill_after is not None and program.poll() is None and time.monotonic() < until:
            if len(folder.read('receipts')) >= kill_after:
                time.sleep(self.chance.random() * LONGEST_PAUSE)
                program.kill()
                break
        status = program.wait(gate.SECONDS)
        folder.wants('a replay ends with 0 or is killed', status in (0, -9), True)
        frames = {circuit: messages_of(folder.frames(circuit))[0] for circuit in self.circuits}
        return folder.read('receipts').split(b'\n')[:-1], frames, status == -9

    def compact(self):
        """Compacts the journal, and kills the program at some moment of the time that it takes."""
        begun = time.monotonic()
        program = self.folder.starts('compact', stdout=subprocess.DEVNULL)
        try:
            status = program.wait(self.chance.random() * self.seconds)
            self.seconds = time.monotonic() - begun
        except subprocess.TimeoutExpired:
            program.kill()
            status = program.wait(gate.SECONDS)
        self.folder.wants('compact ends with 0 or is killed', status in (0, -9), True)
        self.cut_off += status == -9

    def note(self, receipts, frames):
        """What a run said, of a journal that stood at `accepted` and `draws`."""
        for i, line in enumerate(receipts, self.done):
            # What was accepted in the moment of a kill is a duplicate at the next beginning.
            fits = line.startswith(b'DUP 0 ' if i < self.accepted else b'ACC 0 ')
            self.folder.wants(f'the receipt {line} of bulletin {i} fits, {self.accepted} of which are there', fits, True)
        self.done += len(receipts)
        for number, circuit in self.circuits.items():
            if frames[number]:
                first = max(1, self.draws[number] - self.repeat + 1)
                self.folder.wants(f'where a run begins behind {self.draws[number]} draws', int(frames[number][0][4:7]), first)
            if self.broken == 'draws' and self.kills >= LEAST and number == 1:
                continue
            for message in frames[number]:
                place, text = message[4:7], message[10:]
                self.folder.wants(f'the text of number {place}', circuit.numbers.setdefault(place, text), text)
                self.folder.wants('the number of a text', circuit.bodies.setdefault(text, place), place)

    def looks(self):
        """What the journal has: all that was said, and beyond it no more than may be gathered."""
        report = self.folder.run('show')[1].decode()
        self.accepted = int(re.match(r'accepted (\d+)\n', report)[1])
        beyond = self.accepted - self.done
        self.folder.wants(f'{beyond} were accepted beyond the receipts, which may be', 0 <= beyond <= PIECES, True)
        for number, circuit in self.circuits.items():
            self.draws[number] = int(re.search(rf'circuit {number:02} \S+ draws (\d+) ', report)[1])
            beyond = self.draws[number] - circuit.last()
            self.folder.wants(f'{beyond} draws of circuit {number} were not said, which may be', 0 <= beyond <= self.repeat, True)

    def run(self):
        self.folder.write('directory.toml', directory(len(self.circuits), self.repeat))
        self.folder.wants('init', self.folder.run('init'), (0, b'', ''))
        killed, puts_back = True, self.broken == 'journal'
        while killed:
            step = self.chance.randrange(1, 6) * 31 if self.kills < KILLS else None
            receipts, frames, killed = self.replay(step)
            self.note(receipts, frames)
            self.kills += killed
            self.compact()
            if puts_back and self.kills == LEAST // 2:
                self.older = self.older or self.folder.journal()
            if puts_back and self.kills == LEAST and self.older:
                self.folder.lay(self.older)
                self.older, puts_back = None, False
            self.looks()


@pytest.mark.parametrize(('readers', 'repeat'), ((1, 1), (1, 3), (10, 1), (10, 50)))
def test_each_bulletin_is_sent_once_whenever_the_program_is_killed(folder, chance, broken, readers, repeat):
    day = Day(folder, chance, broken, readers, repeat)
    day.run()
    while day.cut_off < LEAST and folder.count < 20 * KILLS:
        day.compact()
    folder.wants('a whole replay behind all', day.replay(None)[0], [])
    for number, circuit in day.circuits.items():
        lost = [i for i in range(day.count) if body(i) not in circuit.bodies]
        folder.wants(f'bulletins that were not sent on circuit {number}', lost, [])
    folder.wants('bulletins that were acknowledged', day.done, day.count)
    folder.wants(f'{LEAST} kills in the middle of a replay at least, of {day.kills}', day.kills >= LEAST, True)
    folder.wants(f'{LEAST} kills in the middle of `compact` at least, of {day.cut_off}', day.cut_off >= LEAST, True)
    print(f'kills: {readers} circuits, repeat {repeat}: {day.kills} in a replay and {day.cut_off} in `compact`, {day.done} bulletins '
          'acknowledged')
