"""The switch of a hub in a folder of its own: it is started, stopped and killed, and asked what it stands at."""
import mmap
import os
import re
import resource
import shutil
import signal
import struct
import subprocess
import time

from hub.reference import Lost
from network import Standby

SECONDS = 600
# While the switch compacts its journal a ship beside it may find it damaged; only what comes again is wrong.
SHIPS = 4
CONNECTIONS = 1_000
DISK_FAULT = 6
# What the unit sets.
AS_THE_UNIT = {'MALLOC_ARENA_MAX': '1'}
# Where the disk is full, there is room for so many bytes more.
ROOM = 20_000
# Of the journal (docs/FORMATS.md): where the first gate is, an open one, the kinds of records, and the bytes of a seal.
FIRST_GATE, OPEN_GATE, CHECKPOINT, DRAW, SEAL = 40, 0x4F, ord('C'), ord('D'), 32
WORD, LONG = struct.Struct('>I'), struct.Struct('>Q')


def serves_always(program):
    """Whether a program knows a service without an end, which makes room in its journal by itself."""
    return b'serve always' in subprocess.run([program, '--help'], capture_output=True, timeout=SECONDS).stdout


def read_checkpoint(file, at, since, bodies, draws):
    """Reads the checkpoint at a place; gives the place behind it, and how many bulletins were accepted that it tells of."""
    circuits, bulletins, place, accepted = WORD.unpack_from(file, at + 4)[0], WORD.unpack_from(file, at + 16)[0], at + 20, 0
    for _ in range(bulletins):
        position, length = LONG.unpack_from(file, place)[0], WORD.unpack_from(file, place + 12)[0]
        accepted = max(accepted, position + 1)
        if position >= since:
            bodies[position] = file[place + 8], file[place + 16:place + 16 + length]
        place += 16 + length
    for circuit in range(circuits):
        draws[circuit] = LONG.unpack_from(file, place)[0]
        waiting, kept = WORD.unpack_from(file, place + 8)[0], WORD.unpack_from(file, place + 12)[0]
        place += 16 + 8 * (waiting + kept)
    return place, accepted


def read_journal(file, since):
    """How many bulletins a journal has accepted, the circuit and the body of each from position `since` on, and the draws of each
    circuit."""
    accepted, bodies, draws, last = 0, {}, {}, {}
    at, size = FIRST_GATE, len(file)
    while at < size and file[at] == OPEN_GATE:
        kind = file[at + 1]
        if kind == DRAW:
            last[file[at + 2]] = at
            at += 24 + SEAL
        elif kind == CHECKPOINT:
            at, accepted = read_checkpoint(file, at + 1, since, bodies, draws)
            at += SEAL
        else:
            length, position = WORD.unpack_from(file, at + 13)[0], LONG.unpack_from(file, at + 5)[0]
            accepted = position + 1
            if position >= since:
                bodies[position] = file[at + 2], file[at + 17:at + 17 + length]
            at += 17 + length + SEAL
    draws.update((circuit, LONG.unpack_from(file, place + 16)[0] + 1) for circuit, place in last.items())
    return accepted, bodies, draws


class Following:
    """A standby follows beside what goes on: what the station ships goes to a file, and the standby takes that in."""

    def __init__(self, program, station, standby):
        self.program, self.station, self.standby = program, station, standby
        self.path, self.tries = os.path.join(standby, 'capture.gts'), 0
        self.ships()

    def ships(self):
        self.word, self.tries = 'ship', self.tries + 1
        with open(self.path, 'wb') as out:
            self.process = self.begins('ship', self.station, out)

    def begins(self, word, folder, out):
        return subprocess.Popen([self.program, word], cwd=folder, stdin=subprocess.DEVNULL, stdout=out, stderr=subprocess.PIPE)

    def goes_on(self, wants):
        """Whether the standby has followed."""
        return self.process.poll() is not None and self.has_ended(wants)

    def has_ended(self, wants):
        """One of the two has ended: the other one begins, if it is to come yet."""
        said = self.process.communicate(timeout=SECONDS)[1].decode().strip()
        if self.word == 'ship' and self.process.returncode != 0 and self.tries < SHIPS:
            self.ships()
            return False
        wants(self.word, (self.process.returncode, said), (0, ''))
        if self.word == 'follow':
            os.remove(self.path)
            return True
        self.word, self.process = 'follow', self.begins('follow', self.standby, subprocess.DEVNULL)
        return False

    def ends(self, wants):
        """Waits until it has followed."""
        while not self.has_ended(wants):
            pass


class Station:
    """The built switch of a hub. `is_always` is whether it knows a service without an end; `power`, where there is one, counts its
    syncs, and makes a kill a loss of power."""

    def __init__(self, program, folder, directory, power=None):
        self.program, self.top, self.folder, self.power = program, folder, os.path.join(folder, 'station'), power
        self.process = None
        self.run, self.said, self.said_in_part = 0, None, b''
        self.selected, self.compactions, self.taken_back = 0, 0, 0
        # How long a command may take.
        self.seconds = SECONDS
        self.standby, self.following = None, None
        self.is_always = serves_always(program)
        os.makedirs(self.folder)
        self.writes(directory)
        self.wants('init', self.call('init'), (0, b'', ''))

    def wants(self, what, got, want):
        if got != want:
            raise Lost(f'{what}: got {got!r:.300}, wanted {want!r:.300}')

    def path(self, name):
        return os.path.join(self.folder, name)

    def writes(self, directory, name='directory.toml'):
        with open(self.path(name), 'wb') as file:
            file.write(directory.text())

    def call(self, *words):
        done = subprocess.run([self.program, *words], cwd=self.folder, stdin=subprocess.DEVNULL, capture_output=True,
                              timeout=SECONDS)
        return done.returncode, done.stdout, done.stderr.decode().partition('\n')[0].removeprefix('gts_switch: ')

    # Starts and ends.

    def start(self, compacts=True):
        """As the unit does: compact, then serve. Gives the seconds that the first took."""
        begun = time.monotonic()
        if compacts:
            self.wants('compact', self.call('compact'), (0, b'', ''))
            self.compactions += 1
        took = time.monotonic() - begun
        self.run += 1
        words = [self.program, 'serve', 'always' if self.is_always else str(CONNECTIONS)]
        settings = {**(self.power.settings() if self.power else os.environ), **AS_THE_UNIT}
        with open(self.receipts_path(), 'wb') as out, open(self.receipts_path() + '.faults', 'wb') as err:
            # So a write over the limit of a file fails, and is no signal.
            self.process = subprocess.Popen(words, cwd=self.folder, stdin=subprocess.DEVNULL, stdout=out, stderr=err, env=settings,
                                            restore_signals=False)
        if self.said is not None:
            self.said.close()
            os.remove(self.said.name)
        self.said, self.said_in_part = open(self.receipts_path(), 'rb'), b''
        self.selected = self.selects()
        return took

    def receipts_path(self):
        return os.path.join(self.top, f'receipts.{self.run}')

    def ends(self, number):
        """Ends the switch by a signal; it must have run until then. A kill is a loss of power: what wasn't synced is gone. A standby
        that follows has all that was shipped before."""
        self.has_followed()
        self.wants(f'it runs until it is ended; it said {self.says()!r}', self.process.poll(), None)
        self.process.send_signal(number)
        self.process.wait(SECONDS)
        if self.power and number == signal.SIGKILL:
            self.taken_back += self.power.takes_back(self.folder)

    def stop(self):
        """Ends the process, and that of a standby that follows, and no other."""
        for process in (self.process, self.following and self.following.process):
            if process is not None and process.poll() is None:
                process.kill()
                process.wait()

    def says(self):
        with open(self.receipts_path() + '.faults', 'rb') as file:
            return file.read().decode(errors='replace')

    def fills_the_disk(self):
        """From now on there is room for few bytes more."""
        limit = os.path.getsize(self.path(f'journal.{self.selects()}')) + ROOM
        resource.prlimit(self.process.pid, resource.RLIMIT_FSIZE, (limit, limit))

    # What it says.

    def receipts(self):
        """The whole lines of receipts since the last look."""
        *lines, self.said_in_part = (self.said_in_part + self.said.read()).split(b'\n')
        return [line.decode() for line in lines]

    def report(self):
        """How many were accepted, and for each circuit its draws and how many wait, by `show` of the stopped switch."""
        status, out, line = self.call('show')
        self.wants('show', (status, line), (0, ''))
        rows = re.findall(r'^circuit \d\d \S+ draws (\d+) waiting (\d+) ', out.decode(), re.M)
        return int(re.search(rb'^accepted (\d+)$', out, re.M)[1]), [(int(draws), int(waiting)) for draws, waiting in rows]

    def reads(self, since):
        """What the journal of the stopped switch says, by a plain reading: how many bulletins it has accepted, the circuit and the body
        of each from position `since` on, and how many draws each circuit had. So it costs less than `show`."""
        with open(self.path(f'journal.{self.selects()}'), 'rb') as opened:
            with mmap.mmap(opened.fileno(), 0, access=mmap.ACCESS_READ) as file:
                return read_journal(file, since)

    # The directory, and the standby.

    def migrates(self, directory):
        os.replace(self.path('directory.toml'), self.path('directory.old.toml'))
        self.writes(directory)
        self.wants('migrate', self.call('migrate'), (0, b'', ''))
        self.standby = None

    def follows(self):
        """The standby begins to follow, beside the running switch or behind its end. Under a new directory it begins anew."""
        self.has_followed()
        if self.standby is None:
            shutil.rmtree(self.folder + '.standby', ignore_errors=True)
            self.standby = Standby(self)
        self.following = Following(self.program, self.folder, self.standby.folder)

    def has_followed(self):
        """Waits until the standby has followed, where it does."""
        if self.following is not None:
            self.following.ends(self.wants)
            self.following = None

    def looks_at_the_standby(self):
        """The standby goes on following, if it can without a wait."""
        if self.following is not None and self.following.goes_on(self.wants):
            self.following = None

    def is_taken_over(self):
        """The standby goes on with what it followed; the station's folder is gone."""
        self.follows()
        self.has_followed()
        old = self.folder
        self.standby.takes_over()
        self.standby = None
        shutil.rmtree(old)

    # What it takes.

    def selects(self):
        """Which of its files is selected."""
        try:
            with open(self.path('journal.2'), 'rb') as file:
                return 1 if file.read(1) == b'\x01' else 0
        except FileNotFoundError:
            return 0

    def is_compacted(self):
        """Whether the running switch has compacted its journal since the last look."""
        before, self.selected = self.selected, self.selects()
        self.compactions += self.selected != before
        return self.selected != before

    def journal_bytes(self):
        return sum(os.path.getsize(self.path(name)) for name in ('journal.0', 'journal.1', 'journal.2')
                   if os.path.exists(self.path(name)))

    def memory(self):
        """How many kibibytes of memory it has in use now, without those that it shares: in them stands what `power` keeps."""
        try:
            with open(f'/proc/{self.process.pid}/status') as file:
                return sum(int(line.split()[1]) for line in file if line.startswith(('RssAnon:', 'RssFile:')))
        except (FileNotFoundError, ProcessLookupError):
            return 0

    def all_syncs(self):
        """How many syncs there were, where they are counted."""
        return self.power.syncs() if self.power else 0
