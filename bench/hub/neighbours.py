"""The neighbours of a hub as the judge sees them. Their sockets (bench/hub/lines.py) are in a few processes: these send what they are
given, split what comes into frames, and tell of each its front, by what its body is known, and when it came. Both sides pass lists of
rows by `marshal`; what a process does is told in the order in which it was done."""
import marshal
import os
import resource
import selectors
import signal
import socket
import struct
import time
import traceback
from collections import deque

from hub.lines import HEAD, Line, Lines
from hub.reference import Lost
from hub.traffic import BULLETIN, NOISE, REFUSED, REQUEST, Message, key_of
from journal import EOL

# How many processes share the neighbours.
PROCESSES = 2
# How long a process may take for what it is asked, and how long it waits for something to come.
SECONDS, QUIET = 600, 1.0
# While the switch is called, so often it is tried; and so long a process waits at most from telling to telling.
CALLING, TELLING = 0.02, 0.001
# So many bytes of a message are told, from its beginning on: its number and its heading stand there.
FRONT = 40
# So many bytes are read at once, and so many may wait to be passed to a process.
PIECE, MOST_HELD = 1 << 18, 1 << 18
LENGTH = struct.Struct('=I')


class Channel:
    """One end of a connection between the judge and a process. What is put goes out with `flush`."""

    def __init__(self, end):
        self.end, self.out, self.rest = end, bytearray(), b''

    def put(self, row):
        text = marshal.dumps(row)
        self.out += LENGTH.pack(len(text)) + text

    def flush(self):
        """Passes all that was put: the other side reads whatever else it does. Where it has gone, `rows` says so."""
        try:
            self.end.sendall(self.out)
        except OSError:
            pass
        self.out.clear()

    def flush_some(self):
        """Passes as much as there is room for."""
        try:
            del self.out[:self.end.send(self.out, socket.MSG_DONTWAIT)]
        except BlockingIOError:
            pass

    def rows(self):
        """What came; None when the other side has gone."""
        try:
            piece = self.end.recv(PIECE, socket.MSG_DONTWAIT)
        except BlockingIOError:
            return []
        except OSError:
            return None
        if not piece:
            return None
        text, at, found = self.rest + piece, 0, []
        while len(text) - at >= LENGTH.size:
            begin = at + LENGTH.size
            end = begin + LENGTH.unpack_from(text, at)[0]
            if end > len(text):
                break
            found.append(marshal.loads(text[begin:end]))
            at = end
        self.rest = text[at:]
        return found


class Socket(Line):
    """A neighbour's sockets. Of each frame it puts aside the letters and the front of the message, and the key of the body."""

    def __init__(self, circuit, own, switch, ports, digits, pieces):
        super().__init__(circuit, own, switch, ports, [])
        self.begin, self.needed, self.frames = 4 + digits + len(EOL), 0, pieces

    def take(self, data, now):
        """Takes bytes of the switch. A frame that comes in many pieces is looked at when the last is there."""
        if self.buffer:
            self.buffer += data
            if len(self.buffer) < self.needed:
                return
            data = bytes(self.buffer)
        view, at, size, found = memoryview(data), 0, len(data), []
        self.needed = HEAD
        while size - at >= HEAD:
            begin = at + HEAD
            end = begin + int(data[at:at + 8])
            if end > size:
                self.needed = end - at
                break
            if end > begin:
                found.append(data[begin - 2:begin + FRONT])
                found.append(key_of(view[begin + self.begin:end]))
            at = end
        self.buffer = bytearray(view[at:])
        if found:
            self.frames.append((self.circuit, now, found))


class Sockets(Lines):
    """The neighbours of a process, and the channel to the judge."""

    def __init__(self, end):
        super().__init__()
        self.channel, self.done, self.places = Channel(end), 0, {}
        self.selector.register(end, selectors.EVENT_READ, (None, None))
        self.is_over, self.is_held = False, False
        # The lines that have something to send, and those that have no connection to the switch.
        self.sending, self.idle = set(), set()
        # What is to be told: pieces of what came, what was handed over, and which lines have or lost a connection.
        self.pieces, self.handed, self.called, self.told_at = [], [], [], 0.0

    # What the judge wants.

    def is_told(self):
        """What the judge wants is done, in its order."""
        rows = self.channel.rows()
        if rows is None:
            self.is_over = True
            return
        for word, circuit, *more in rows:
            if word == 'put':
                self.puts(self.places[circuit], *more)
            elif word == 'add':
                self.places[circuit] = Socket(circuit, *more, self.pieces)
                self.idle.add(self.places[circuit])
                self.add(self.places[circuit])
            elif word == 'done':
                self.done = more[0]
            elif circuit is None:
                getattr(self, word)()
            else:
                getattr(self, word)(self.places[circuit])

    def puts(self, line, kind, frame):
        message = Message(kind, b'')
        message.frame = frame
        line.queue.append(message)
        self.sending.add(line)

    def calls(self, line):
        super().calls(line)
        if line.out is not None:
            self.idle.discard(line)
            self.called.append((line.circuit, True))

    def ends_out(self, line):
        if line.out is not None:
            self.idle.add(line)
            self.called.append((line.circuit, False))
        super().ends_out(line)

    # What is told.

    def takes_down(self, line):
        """What a line has handed over is told, and forgotten."""
        self.handed += ((line.circuit, message.sent_at) for message in line.sent)
        line.sent.clear()

    def tells(self, now):
        """Tells what there is."""
        if self.handed or self.pieces or self.called or self.done:
            used = resource.getrusage(resource.RUSAGE_SELF)
            self.channel.put((self.handed, self.pieces, self.called, self.done, used.ru_utime + used.ru_stime, used.ru_maxrss))
            for told in (self.handed, self.pieces, self.called):
                told.clear()
            self.done, self.told_at = 0, now
        if self.channel.out:
            self.channel.flush_some()
        if bool(self.channel.out) != self.is_held:
            self.is_held = not self.is_held
            events = selectors.EVENT_READ | (selectors.EVENT_WRITE if self.is_held else 0)
            self.selector.modify(self.channel.end, events, (None, None))

    def pause(self, now):
        """For so long nothing has to be done unless something comes."""
        if self.handed or self.pieces or self.called:
            return max(0.0, self.told_at + TELLING - now)
        if self.is_up and any(line.is_present for line in self.idle):
            return CALLING
        return QUIET

    def serves_once(self):
        """What the judge wants is done behind what has come: it may end connections."""
        is_asked = False
        for key, events in self.selector.select(self.pause(time.monotonic())):
            work, line = key.data
            if line is None:
                is_asked = True
                continue
            work(line, time.monotonic())
            if line.is_full and events & selectors.EVENT_WRITE:
                self.sends(line)
                self.takes_down(line)
        if is_asked:
            self.is_told()
        if self.is_up:
            for line in [line for line in self.idle if line.is_present]:
                self.calls(line)
        for line in [line for line in self.sending if line.out is not None and not line.is_full]:
            self.sends(line)
            self.takes_down(line)
            if not line.queue:
                self.sending.discard(line)

    def works(self):
        """Until the judge has gone."""
        while not self.is_over:
            self.serves_once()
            now = time.monotonic()
            if self.done or now - self.told_at >= TELLING:
                self.tells(now)

    def works_or_says(self):
        """Where something is wrong, a row that is a text says so, behind what was told."""
        try:
            self.works()
        except Lost as lost:
            self.channel.put(str(lost))
        except BaseException:
            self.channel.put(traceback.format_exc())
        self.channel.flush()


def process_of(end, others):
    """Begins a process that serves neighbours until the other end is closed; gives its number."""
    number = os.fork()
    if number != 0:
        return number
    try:
        for one in (signal.SIGTERM, signal.SIGINT, signal.SIGALRM):
            signal.signal(one, signal.SIG_DFL if one == signal.SIGTERM else signal.SIG_IGN)
        for other in others:
            other.close()
        Sockets(end).works_or_says()
    finally:
        os._exit(0)


class Neighbour:
    """A neighbour as the judge sees it. `queue` has what it was given and has not handed over, and `sent`, which is the reference's,
    what waits for its receipt."""

    def __init__(self, circuit, sent):
        self.circuit, self.sent, self.queue = circuit, sent, deque()
        self.number = 0
        self.is_present, self.reads, self.has_called = True, True, False
        # Since when its line stands without a break.
        self.since = time.monotonic()
        self.connections = self.cuts = 0


class Neighbours:
    """All neighbours. `pieces` has what came and wasn't judged: of each piece the circuit, when it came, and what is told of its
    frames."""

    def __init__(self):
        self.lines, self.pieces, self.moved = [], [], 0
        self.asked = 0
        # What each process has used: seconds of a processor, and kibibytes of memory at most.
        self.used = [(0.0, 0)] * PROCESSES
        self.done = [0] * PROCESSES
        self.selector, self.channels, self.processes = selectors.DefaultSelector(), [], []
        for place in range(PROCESSES):
            here, there = socket.socketpair()
            self.processes.append(process_of(there, [here, *(channel.end for channel in self.channels)]))
            there.close()
            self.channels.append(Channel(here))
            self.selector.register(here, selectors.EVENT_READ, place)

    def channel(self, line):
        return self.channels[line.circuit % PROCESSES]

    def add(self, line, own, switch, ports, digits):
        self.lines.append(line)
        self.channel(line).put(('add', line.circuit, own, switch, ports, digits))

    # What a process is told.

    def waits(self):
        """Waits until all is done that the processes were told."""
        self.asked += 1
        for channel in self.channels:
            channel.put(('done', None, self.asked))
        until = time.monotonic() + SECONDS
        while min(self.done) < self.asked:
            self.hears(QUIET)
            if time.monotonic() > until:
                raise Lost('the processes of the neighbours do not answer')

    def does(self, word, line=None):
        """Has this done for a neighbour, or for all of them, and waits for it."""
        for channel in self.channels if line is None else [self.channel(line)]:
            channel.put((word, line and line.circuit))
        self.waits()

    def listens(self, line):
        self.does('listens', line)
        line.is_present, line.since = True, time.monotonic()

    def goes_away(self, line):
        self.does('goes_away', line)
        line.is_present = False

    def is_cut(self, line):
        self.does('is_cut', line)
        line.since = time.monotonic()
        line.cuts += 1

    def calls_again(self, line):
        self.does('calls_again', line)
        line.cuts += 1

    def stops_reading(self, line):
        self.does('stops_reading', line)
        line.reads = False

    def reads_again(self, line):
        line.reads, line.since = True, time.monotonic()
        self.does('reads_again', line)

    def drains(self):
        """Reads to their ends all connections from the switch, which is gone. What a neighbour finds there that reads nothing at present
        tells nothing of how long it took."""
        for line in self.lines:
            if not line.reads:
                line.since = time.monotonic()
        self.does('drains')

    def hangs_up(self):
        """Ends all connections to the switch. What has no receipt is sent again, in its order; requests are made anew, and noise
        isn't."""
        self.does('hangs_up')
        for line in self.lines:
            waiting = [*line.sent, *line.queue]
            line.sent.clear()
            line.queue.clear()
            for message in waiting:
                if message.kind in (BULLETIN, REFUSED):
                    self.puts(line, message)

    def calls_all(self):
        """The switch is up again, and all neighbours that are there call it."""
        for line in self.lines:
            line.connections, line.since = 0, time.monotonic()
        self.does('calls_all')

    def puts(self, line, message):
        """A message of a neighbour goes to the switch behind those before it. From now on its frame is kept, and no body."""
        if message.frame is None:
            line.number += message.kind != NOISE
            message.framed(line.number)
            message.body = None
        line.queue.append(message)
        channel = self.channel(line)
        channel.put(('put', line.circuit, message.kind, message.frame))
        if len(channel.out) > MOST_HELD:
            channel.flush()

    # What a process tells.

    def serves(self, seconds):
        """Passes what waits, and hears what is told, for so long at most where nothing is."""
        self.hears(seconds)

    def hears(self, seconds):
        for channel in self.channels:
            if channel.out:
                channel.flush()
        for key, _ in self.selector.select(seconds):
            rows = self.channels[key.data].rows()
            if rows is None:
                raise Lost('a process of the neighbours has ended')
            for row in rows:
                self.hears_row(key.data, row)

    def hears_row(self, place, row):
        if isinstance(row, str):
            raise Lost(row)
        handed, pieces, calls, done, seconds, memory = row
        for circuit, sent_at in handed:
            line = self.lines[circuit]
            message = line.queue.popleft()
            message.sent_at = sent_at
            line.sent.append(message)
        self.moved += len(handed)
        for circuit, has_called in calls:
            self.lines[circuit].has_called = has_called
            self.lines[circuit].connections += has_called
        self.pieces += pieces
        self.moved += len(pieces)
        self.done[place] = done or self.done[place]
        self.used[place] = seconds, memory

    def is_handed(self, circuit):
        """Whether a message of this circuit that waits for its receipt was handed over, as far as the processes have told or tell."""
        if not self.lines[circuit].sent:
            self.waits()
        return bool(self.lines[circuit].sent)

    def seconds(self):
        """What the processes have used of a processor."""
        return sum(seconds for seconds, _ in self.used)

    def memory(self):
        """How many kibibytes of memory they had at most."""
        return sum(memory for _, memory in self.used)

    def close(self):
        for channel, number in zip(self.channels, self.processes):
            channel.end.close()
            os.kill(number, signal.SIGKILL)
            os.waitpid(number, 0)
        self.selector.close()
