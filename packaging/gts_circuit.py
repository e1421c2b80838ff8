"""What a program needs to be the neighbour of a circuit, beside the running switch: the circuit's row in the directory file, frames and
messages, the port `input` with the receipt of each message that was sent there, the port `output`, which numbers came there and which
are missing, and a database of what has to outlive a crash. docs/NEIGHBOURS.md of the sources says how they go together. Nothing of the
switch is called: all goes over its ports, its directory file and its receipts."""
from __future__ import annotations

import errno
import fcntl
import hashlib
import os
import re
import select
import socket
import sqlite3
import sys
import time
import tomllib
from collections import deque
from collections.abc import Callable, Iterable, Iterator
from dataclasses import dataclass, field
from typing import Any

EOL = b'\r\r\n'
SOH, ETX = b'\x01', b'\x03'
LONGEST_MESSAGE = 500_000
LONGEST_ENTRY = LONGEST_MESSAGE - 11
HEAD = 10
FRAME_HEAD = re.compile(rb'\d{8}(AN|BI|FX)')
NUMBER = re.compile(rb'\x01\r\r\n(\d{5}|\d{3}) ?\r\r\n')
# The heading of a bulletin: TTAAii CCCC, day, hour and minute, and perhaps a BBB group.
HEADING = re.compile(rb'([A-Z]{4}\d\d [A-Z]{4} \d{6})( [A-Z]{3})?')
USUAL_LEVEL = 3
# So many messages, and bytes, may wait for their receipts; one message may always.
MOST_UNANSWERED, MOST_BYTES = 256, 8 << 20
PIECE = 1 << 16
# Between two tries to connect, in seconds; and how long one may take.
PAUSE, CALL = 0.5, 2.0
# Where another caller waits on `output`, a connection on which nothing comes for so many seconds is given up.
SILENT = 10.0
# Each connection begins with a request for so many numbers that no draw can have, and one more each time: its receipt tells where
# the receipts of this connection begin. A request for what is really missing is for fewer.
LEAST_MARK, MARKS = 10_000, 50_000
MOST_ASKED = 1_000
# What is missing is asked for so often, so many seconds apart; behind an opening, or the end of a connection, it is asked for so many
# numbers behind the last one, where nothing has come for a while.
ASKED_TIMES, ASKED_AGAIN = 4, 15.0
AHEAD, QUIET = 100, 2.0
NEVER = (0, -ASKED_AGAIN)
# So many frames in a row, all behind the greatest number and new, and the numbers have begun anew.
BEGUN_ANEW = 8
# How many frames beside the kept ones are known again.
BEYOND = 2_000
DIGEST = 16
# A line of the same kind is told once in so many seconds.
TOLD_EVERY = 60.0


class Fault(Exception):
    """Something that an operator has to mend. It ends the program."""


class Teller:
    """Says lines on standard error, those of one kind at most once a minute."""

    def __init__(self, name: str) -> None:
        self.name, self.told = name, {}  # type: str, dict[str, float]

    def say(self, line: str) -> None:
        print(f'{self.name}: {line}', file=sys.stderr, flush=True)

    def seldom(self, kind: str, line: str) -> None:
        now = time.monotonic()
        if now - self.told.get(kind, -TOLD_EVERY) >= TOLD_EVERY:
            self.told[kind] = now
            self.say(line)

    def is_over(self, kind: str, line: str) -> None:
        """Says that what was told of this kind holds no more, where it was told."""
        if self.told.pop(kind, None) is not None:
            self.say(line)


class Circuit:
    """A circuit as its row in the directory file says it, with its number. The neighbour calls from `host`, and listens there."""

    def __init__(self, path: str, name: str) -> None:
        try:
            with open(path, 'rb') as file:
                text = file.read()
            directory = tomllib.loads(text.decode())
        except (OSError, ValueError) as error:
            raise Fault(f'{path}: {error}') from error
        self.path, self.name = path, name
        self.mark = hashlib.sha256(text).digest()
        rows = directory.get('circuit', [])
        found = [number for number, row in enumerate(rows) if row.get('name') == name]
        if not found:
            raise Fault(f'{path} has no circuit {name}')
        row = rows[found[0]]
        self.number, self.centre, self.peer = found[0], str(directory['centre']), str(row['peer'])
        self.digits, self.kept = int(row.get('digits', 3)), int(row.get('kept', 1_000))
        host = str(row.get('host', '127.0.0.1'))
        self.input = (str(directory.get('address', '127.0.0.1')), int(row.get('input', 0)))
        self.output, self.source = (host, int(row.get('output', 0))), (host, 0)
        self.levels = [(str(level['tt']), int(level['level'])) for level in directory.get('level', [])]
        if not self.input[1] or not self.output[1] or row.get('closed', False):
            raise Fault(f'{path}: circuit {name} has no ports, or is closed')

    def is_changed(self) -> bool:
        """Whether the directory file has other bytes now. Where it isn't there it is being changed."""
        try:
            with open(self.path, 'rb') as file:
                return hashlib.sha256(file.read()).digest() != self.mark
        except FileNotFoundError:
            return False

    def level(self, heading: bytes) -> int:
        """The level of a heading, as the switch has it."""
        letters = heading[:2].decode('ascii', 'replace')
        fits = (level for pattern, level in self.levels if all(want in ('*', have) for want, have in zip(pattern, letters)))
        return next(fits, USUAL_LEVEL)


# Messages.

def frame_of(kind: bytes, message: bytes) -> bytes:
    return b'%08d' % len(message) + kind + message


def message_of(number: bytes, body: bytes) -> bytes:
    """The message with a number and a body, which is heading, line end and text."""
    return SOH + EOL + number + EOL + body + EOL + ETX


def body_of(message: bytes) -> bytes:
    """Heading, line end and text of a message that the switch wrote; nothing where it isn't one."""
    found = NUMBER.match(message)
    return message[found.end():-len(EOL) - 1] if found else b''


def heading_of(message: bytes) -> bytes:
    """The heading of a message, with its BBB group; nothing where it has none."""
    found = NUMBER.match(message)
    heading = HEADING.match(message, found.end()) if found else None
    return heading[0] if heading else b''


class Frames:
    """The frames of a stream. Bytes that no stream of frames has end it."""

    def __init__(self) -> None:
        self.held = bytearray()

    def add(self, piece: bytes) -> Iterator[tuple[bytes, bytes]]:
        """The type and the message of each frame that is whole now. At most one frame that isn't is held."""
        self.held += piece
        at = 0
        while len(self.held) - at >= HEAD:
            head = bytes(self.held[at:at + HEAD])
            found, size = FRAME_HEAD.fullmatch(head), int(head[:8]) if head[:8].isdigit() else -1
            if found is None or size == 1 or not 0 <= size <= LONGEST_MESSAGE:
                raise ValueError(f'no frame begins with {head!r}')
            if len(self.held) - at < HEAD + size:
                break
            if size:
                yield found[1], bytes(self.held[at + HEAD:at + HEAD + size])
            at += HEAD + size
        del self.held[:at]


# What has to outlive a crash.

class State:
    """A database in a file: named values, and what programs keep in tables of their own. `commit` brings all to the disk."""

    def __init__(self, path: str, tables: str) -> None:
        try:
            self.at = sqlite3.connect(path, isolation_level=None)
            self.at.execute('PRAGMA journal_mode = WAL')
            self.at.execute('PRAGMA synchronous = FULL')
            self.at.executescript('CREATE TABLE IF NOT EXISTS value (key TEXT PRIMARY KEY, value) WITHOUT ROWID;'
                                  'CREATE TABLE IF NOT EXISTS came (value INTEGER, digest BLOB, PRIMARY KEY (value, digest))'
                                  f' WITHOUT ROWID; {tables}')
        except sqlite3.DatabaseError as error:
            raise Fault(f'{path}: {error}') from error

    def get(self, key: str, otherwise: Any = None) -> Any:
        found = self.at.execute('SELECT value FROM value WHERE key = ?', (key,)).fetchone()
        return otherwise if found is None else found[0]

    def put(self, key: str, value: Any) -> None:
        self.at.execute('INSERT INTO value VALUES (?, ?) ON CONFLICT (key) DO UPDATE SET value = excluded.value', (key, value))

    def change(self, work: Callable[[], None]) -> None:
        """What this work changes is on the disk behind this call, all or nothing. A disk without room is an `OSError`."""
        try:
            self.at.execute('BEGIN IMMEDIATE')
            work()
            self.at.execute('COMMIT')
        except sqlite3.Error as error:
            if self.at.in_transaction:
                self.at.execute('ROLLBACK')
            raise OSError(errno.EIO, f'the database: {error}') from error

    def mark(self) -> int:
        """The count of numbers that the next connection begins with a request for: another one each time."""
        count = int(self.get('connections', 0)) + 1
        self.change(lambda: self.put('connections', count))
        return LEAST_MARK + count % MARKS


class Alone:
    """A folder in which one program works at a time."""

    def __init__(self, folder: str) -> None:
        self.lock = os.open(os.path.join(folder, 'lock'), os.O_RDWR | os.O_CREAT | os.O_CLOEXEC, 0o640)
        try:
            fcntl.flock(self.lock, fcntl.LOCK_EX | fcntl.LOCK_NB)
        except BlockingIOError as error:
            raise Fault(f'{folder}: another one is at work here') from error


def sync_folder(path: str) -> None:
    folder = os.open(path, os.O_RDONLY | os.O_DIRECTORY)
    try:
        os.fsync(folder)
    finally:
        os.close(folder)


# The way into the switch.

class Receipts:
    """The receipts of one circuit, in order, as the switch appends them to a file. What it said before this began is passed over. Another
    source of receipts has a method `news` that gives the same."""

    def __init__(self, path: str, circuit: int) -> None:
        self.path, self.circuit = path, str(circuit).encode()
        self.file: int | None = None
        self.at, self.rest, self.is_cut = 0, b'', False
        self.opens(from_its_end=True)

    def opens(self, from_its_end: bool = False) -> None:
        try:
            self.file = os.open(self.path, os.O_RDONLY | os.O_CLOEXEC)
        except FileNotFoundError:
            return
        self.at, self.rest, self.is_cut = 0, b'', False
        if from_its_end:
            # A line of which the front was written before is no line.
            self.at = os.fstat(self.file).st_size
            self.is_cut = self.at > 0 and os.pread(self.file, 1, self.at - 1) != b'\n'

    def news(self) -> list[list[bytes]]:
        """The words of each whole line about this circuit since the last call, and those of a line `START`, which stands between two
        runs of the switch. Where another file has its name, that is read behind the end of this one."""
        if self.file is None:
            self.opens()
            if self.file is None:
                return []
        text = os.pread(self.file, 16 * PIECE, self.at)
        if not text:
            self.looks_for_another()
            return []
        self.at += len(text)
        *lines, self.rest = (self.rest + text).split(b'\n')
        self.rest = self.rest[-PIECE:]
        if lines and self.is_cut:
            del lines[0]
            self.is_cut = False
        words = (line.split() for line in lines)
        return [row for row in words if row[:1] == [b'START'] or
                (len(row) > 1 and row[1] == self.circuit and row[0] in (b'ACC', b'DUP', b'ASK', b'REF', b'LOS'))]

    def looks_for_another(self) -> None:
        assert self.file is not None
        try:
            there = os.stat(self.path)
        except FileNotFoundError:
            return
        if not os.path.samestat(there, os.fstat(self.file)):
            os.close(self.file)
            self.file = None
        elif there.st_size < self.at:
            self.at, self.rest = 0, b''


@dataclass
class Message:
    """A message on its way into the switch. `tag` is the caller's; `receipt` has the words of its receipt."""
    kind: bytes
    message: bytes
    tag: Any = None
    receipt: list[bytes] = field(default_factory=list)


class Input:
    """The line into the switch: what is put goes out in order, and comes back with its receipt, in that order. What has none when the line
    breaks is sent again on the next one; there it may be a duplicate."""

    def __init__(self, circuit: Circuit, receipts: Any, next_mark: Callable[[], int], teller: Teller) -> None:
        self.circuit, self.receipts, self.next_mark, self.teller = circuit, receipts, next_mark, teller
        self.waiting: deque[Message] = deque()
        self.unanswered: deque[Message] = deque()
        self.answered: list[Message] = []
        self.bytes = 0
        self.socket: socket.socket | None = None
        self.out = b''
        # The receipt that says that the next ones are of this connection, until it has come.
        self.awaited: list[bytes] | None = None
        self.calls_at = self.moved_at = 0.0

    def has_room(self) -> bool:
        count = len(self.waiting) + len(self.unanswered)
        return count == 0 or (count < MOST_UNANSWERED and self.bytes < MOST_BYTES)

    def is_busy(self) -> bool:
        """Whether something waits for the line or for a receipt."""
        return self.socket is not None and bool(self.waiting or self.unanswered or self.awaited)

    def put(self, message: Message) -> None:
        self.waiting.append(message)
        self.bytes += len(message.message)

    def request(self, text: bytes) -> Message:
        """A request for repetition."""
        now = time.strftime('%d%H%M', time.gmtime()).encode()
        body = b'BMRR01 %s %s' % (self.circuit.centre.encode(), now) + EOL + self.circuit.peer.encode() + EOL + b'SQN ' + text + b'='
        return Message(b'AN', message_of(b'0' * self.circuit.digits, body))

    def begins(self) -> None:
        """Connects, and sends the mark in front. What has no receipt yet goes once more."""
        if self.circuit.is_changed():
            raise Fault('the directory file has changed: this program begins anew')
        try:
            mark = self.next_mark()
            self.socket = socket.create_connection(self.circuit.input, CALL, self.circuit.source)
        except OSError as error:
            self.teller.seldom('input', f'the switch is not to be reached on port {self.circuit.input[1]}: {error.strerror or error}')
            return
        self.socket.setsockopt(socket.IPPROTO_TCP, socket.TCP_NODELAY, 1)
        self.socket.setblocking(False)
        self.teller.is_over('input', f'the switch is reached on port {self.circuit.input[1]}')
        self.awaited = [b'ASK', str(self.circuit.number).encode(), b'0', str(mark).encode()]
        self.waiting.extendleft(reversed(self.unanswered))
        self.unanswered.clear()
        request = self.request(absent(mark, self.circuit.digits))
        self.out = frame_of(request.kind, request.message)
        self.moved_at = time.monotonic()

    def ends(self) -> None:
        """The line is broken. What the switch had said before that counts."""
        if self.socket is not None:
            self.socket.close()
            self.socket, self.out = None, b''
            self.calls_at = time.monotonic() + PAUSE

    def hears(self) -> None:
        """Takes receipts: each is that of the first message that has none."""
        for words in self.receipts.news():
            if self.awaited is not None:
                # What comes before the mark's receipt is of an earlier connection.
                self.awaited = None if words == self.awaited else self.awaited
            elif not self.takes(words):
                self.awaited = [b'']
                self.ends()
                return

    def takes(self, words: list[bytes]) -> bool:
        """Whether this receipt is that of the first message that has none."""
        if words[0] == b'START':
            return False
        message = self.unanswered[0] if self.unanswered else None
        told = b' '.join(words[4:]) if words[0] == b'ACC' else None
        if message is None or words[0] == b'LOS' or (told is not None and told != heading_of(message.message)):
            self.teller.say(f'the receipt {b" ".join(words).decode("ascii", "replace")} is not that of the next message: the line begins anew')
            return False
        self.unanswered.popleft()
        self.bytes -= len(message.message)
        self.moved_at = time.monotonic()
        message.receipt = words
        self.answered.append(message)
        return True

    def sends(self) -> None:
        """Hands over as much as the line takes."""
        while self.socket is not None:
            while self.waiting and len(self.out) < PIECE:
                message = self.waiting.popleft()
                self.unanswered.append(message)
                self.out += frame_of(message.kind, message.message)
            if not self.out:
                return
            try:
                self.out = self.out[self.socket.send(self.out):]
            except BlockingIOError:
                return
            except OSError:
                self.hears()
                self.ends()

    def is_over(self) -> bool:
        """Whether the switch has ended the connection: it sends nothing there."""
        assert self.socket is not None
        try:
            return self.socket.recv(PIECE) == b''
        except BlockingIOError:
            return False
        except OSError:
            return True

    def serves(self) -> list[Message]:
        """Does what can be done now, and gives the messages that have their receipts since the last call."""
        now = time.monotonic()
        if self.socket is not None and self.is_over():
            self.hears()
            self.ends()
        if self.socket is None and now >= self.calls_at:
            self.calls_at = now + PAUSE
            self.begins()
        self.hears()
        self.sends()
        if self.socket is not None and self.is_busy() and now - self.moved_at > TOLD_EVERY:
            self.teller.seldom('silent', f'{len(self.unanswered)} messages have no receipt for {int(now - self.moved_at)} seconds')
        answered, self.answered = self.answered, []
        return answered

    def sockets(self) -> tuple[list[socket.socket], list[socket.socket]]:
        """What is to be awaited: to read and to write."""
        if self.socket is None:
            return [], []
        return [self.socket], [self.socket] if self.out else []


def absent(count: int, digits: int) -> bytes:
    """So many numbers that no draw of a circuit has whose numbers have so many digits: they are written in another count of digits."""
    if digits == 3:
        return b'%05d-%05d' % (1, count)
    return b'/'.join([b'000-999'] * (count // 1_000) + ([b'%03d-%03d' % (1, count % 1_000)] if count % 1_000 else []))


# The way out of the switch.

class Output:
    """The port to which the switch connects. One connection is read at a time, each to its end."""

    def __init__(self, circuit: Circuit, teller: Teller) -> None:
        self.circuit, self.teller = circuit, teller
        try:
            self.listener = socket.create_server(circuit.output, backlog=8)
        except OSError as error:
            raise Fault(f'output {circuit.output[1]}: {error.strerror}') from error
        self.listener.setblocking(False)
        self.connection: socket.socket | None = None
        self.frames = Frames()
        self.heard_at = 0.0
        # How many connections have ended.
        self.ended = 0

    def accepts(self) -> None:
        try:
            self.connection, _ = self.listener.accept()
        except OSError:
            return
        self.connection.setblocking(False)
        self.frames, self.heard_at = Frames(), time.monotonic()

    def ends(self) -> None:
        if self.connection is not None:
            self.connection.close()
            self.connection = None
            self.ended += 1

    def reads(self) -> list[tuple[bytes, bytes]]:
        """Frames that are there now. The switch is let wait by not calling this."""
        if self.connection is None:
            self.accepts()
            if self.connection is None:
                return []
        try:
            piece = self.connection.recv(PIECE)
        except BlockingIOError:
            if time.monotonic() - self.heard_at > SILENT and select.select([self.listener], [], [], 0)[0]:
                self.ends()
            return []
        except OSError:
            piece = b''
        if not piece:
            self.ends()
            return []
        self.heard_at = time.monotonic()
        found = []
        try:
            for frame in self.frames.add(piece):
                found.append(frame)
        except ValueError as error:
            self.teller.say(f'output {self.circuit.output[1]}: {error}: the connection is ended')
            self.ends()
        return found

    def sockets(self) -> list[socket.socket]:
        return [self.connection or self.listener]


class Numbers:
    """Which numbers of a circuit have come. Numbers come round, so each has a value, which doesn't: the one that ends in its digits and lies
    nearest to the greatest so far. A frame is known again by its number and its bytes. What is missing is asked for."""

    def __init__(self, circuit: Circuit, state: State, teller: Teller) -> None:
        self.state, self.teller, self.digits, self.round = state, teller, circuit.digits, 10 ** circuit.digits
        self.reach = min(circuit.kept, self.round // 2 - 1)
        self.remembered = circuit.kept + max(BEYOND, self.round if circuit.digits == 3 else 0)
        if state.get('digits', circuit.digits) != circuit.digits:
            state.change(lambda: state.at.execute('DELETE FROM came').close())
        state.change(lambda: state.put('digits', circuit.digits))
        self.known: set[tuple[int, bytes]] = set()
        self.order: deque[tuple[int, bytes]] = deque()
        self.last: int | None = None
        # Each value that is missing: how often it was asked for, and when.
        self.missing: dict[int, tuple[int, float]] = {}
        self.row = (0, 0)
        # When the numbers behind the last are asked for, and the last of these.
        self.probe_at: float | None = time.monotonic() + QUIET
        self.probed: int | None = None
        self.lost = 0
        rows = state.at.execute('SELECT value, digest FROM came ORDER BY value').fetchall()
        for value, digest in rows:
            self.keeps(value, digest)
        self.finds_missing([value for value, _ in rows])

    def keeps(self, value: int, digest: bytes) -> None:
        if digest:
            self.known.add((value % self.round, digest))
            self.order.append((value % self.round, digest))
        if len(self.order) > self.remembered:
            self.known.discard(self.order.popleft())

    def finds_missing(self, values: list[int]) -> None:
        """What the values that came before lack between them."""
        if values:
            self.last = values[-1]
            have = set(values)
            self.missing = {value: NEVER for value in range(max(values[0], self.last - self.reach), self.last) if value not in have}

    def value_of(self, number: int) -> int:
        if self.last is None:
            return number + self.round
        away = (number - self.last) % self.round
        return self.last + (away if away <= self.round // 2 else away - self.round)

    def judge(self, message: bytes) -> tuple[int, bytes] | None:
        """The value and the digest of a message that is new; None of one that came before."""
        found = NUMBER.match(message)
        digest = hashlib.sha256(message).digest()[:DIGEST]
        if found is None or len(found[1]) != self.digits:
            self.teller.seldom('digits', f'a number has not {self.digits} digits: {message[:12]!r}')
            return (-1, digest)
        number = int(found[1])
        if (number, digest) in self.known:
            self.missing.pop(self.value_of(number), None)
            return None
        value = self.value_of(number)
        self.keeps(value, digest)
        self.follows(value)
        return (value, digest)

    def follows(self, value: int) -> None:
        """A new frame with this value has come."""
        if self.last is None or value > self.last:
            if self.last is not None:
                gap = range(max(self.last + 1, value - self.reach), value)
                self.missing |= {lacking: NEVER for lacking in gap}
            self.last, self.row = value, (0, 0)
            self.probe_at = time.monotonic() + QUIET if value == self.probed else None
            return
        if self.missing.pop(value, None) is not None:
            return
        first, count = self.row
        self.row = (value, count + 1) if value == first + 1 else (value, 1)
        if self.row[1] >= BEGUN_ANEW:
            self.teller.say(f'the numbers have begun anew: behind {self.last % self.round} comes {value % self.round}')
            self.last, self.row = value, (0, 0)
            self.missing.clear()

    def store(self, rows: Iterable[tuple[int, bytes]]) -> None:
        """Within a change of the state: these frames are safe, and what is known of them outlives a crash."""
        self.state.at.executemany('INSERT OR IGNORE INTO came VALUES (?, ?)', [row for row in rows if row[0] >= 0])
        if self.last is not None:
            self.state.at.execute('DELETE FROM came WHERE value < ?', (self.last - self.remembered,))

    def connection_ended(self) -> None:
        """What the line had may be lost: the numbers behind the last are asked for, where nothing comes."""
        self.probe_at = time.monotonic() + QUIET

    def asks(self) -> bytes:
        """The runs of numbers to ask for now; nothing where there are none."""
        now = time.monotonic()
        if self.probe_at is not None and now >= self.probe_at:
            self.probe_at = None
            if self.last is not None:
                probed = self.probed = self.last + min(AHEAD, self.reach)
                return self.run(self.last + 1, probed)
        due = [value for value, (_, at) in self.missing.items() if now - at >= ASKED_AGAIN][:MOST_ASKED]
        given_up = [value for value in due if self.missing[value][0] >= ASKED_TIMES]
        if given_up:
            self.gives_up(given_up)
        due = [value for value in due if value in self.missing]
        self.missing |= {value: (self.missing[value][0] + 1, now) for value in due}
        return b'/'.join(self.run(*ends) for ends in runs_of(due))

    def gives_up(self, values: list[int]) -> None:
        """These aren't to be had: the circuit keeps them no more."""
        shown = b'/'.join(self.run(*ends) for ends in runs_of(values)).decode()
        self.teller.say(f'lost: the switch does not repeat {len(values)} numbers: {shown:.200}')
        self.lost += len(values)
        for value in values:
            del self.missing[value]
        self.state.change(lambda: self.state.at.executemany('INSERT OR IGNORE INTO came VALUES (?, ?)', [(value, b'') for value in values]).close())

    def run(self, first: int, last: int) -> bytes:
        front, behind = b'%0*d' % (self.digits, first % self.round), b'%0*d' % (self.digits, last % self.round)
        return front if first == last else front + b'-' + behind


def runs_of(values: Iterable[int]) -> list[tuple[int, int]]:
    """The runs of values, each by its first and its last."""
    runs: list[tuple[int, int]] = []
    for value in sorted(values):
        if runs and runs[-1][1] == value - 1:
            runs[-1] = (runs[-1][0], value)
        else:
            runs.append((value, value))
    return runs
