"""The neighbours of a hub, each at an address of its own: each sends its messages to the port `input` of its circuit, and listens
where the circuit's `output` leads. All of them are served by one loop, which waits for nobody."""
import selectors
import socket
import time
from collections import deque

from hub.reference import Lost
from hub.traffic import NOISE

PIECE = 1 << 18
HEAD = 10
# How long a call of a neighbour may take before the switch counts as gone.
SECONDS = 60
PAUSE = 0.02


class Line:
    """A neighbour and its line. `sent` is the reference's list of messages that wait for receipts."""

    def __init__(self, circuit, own, switch, ports, sent):
        self.circuit, self.own, self.switch, self.ports, self.sent = circuit, own, switch, ports, sent
        self.queue = deque()
        self.number = 0
        # The connection to the switch, whether it takes nothing more at present, and what is left of the message in work.
        self.out, self.is_full, self.left = None, False, None
        # Where it listens, and the connection from the switch.
        self.listener, self.source = None, None
        self.buffer = bytearray()
        self.frames = []
        self.is_present, self.reads = False, True

    def drops(self):
        """What isn't whole of a frame is gone with its connection."""
        self.buffer.clear()

    def take(self, data, now):
        """Takes bytes of the switch, and puts the whole frames aside with their letters and the time."""
        buffer = self.buffer
        buffer += data
        at, size = 0, len(buffer)
        while size - at >= HEAD:
            end = at + HEAD + int(buffer[at:at + 8])
            if end > size:
                break
            if end > at + HEAD:
                self.frames.append((bytes(buffer[at + 8:at + HEAD]), bytes(buffer[at + HEAD:end]), now))
            at = end
        del buffer[:at]


class Lines:
    """All neighbours, and the loop that serves them."""

    def __init__(self):
        self.lines = []
        self.selector = selectors.DefaultSelector()
        # Whether the switch is up, so that neighbours call it; and how often something moved.
        self.is_up = False
        self.moved = 0
        # When the switch is called again, where it doesn't listen yet.
        self.calls_at = 0.0

    def add(self, line):
        self.lines.append(line)
        self.listens(line)

    # Connections.

    def listens(self, line):
        """A neighbour comes: it listens from now on."""
        line.listener = socket.create_server((line.own, line.ports[1]), backlog=64)
        line.listener.setblocking(False)
        self.selector.register(line.listener, selectors.EVENT_READ, (self.accepts, line))
        line.is_present = True

    def calls(self, line):
        """A neighbour connects to the switch, where that listens."""
        if time.monotonic() < self.calls_at:
            return
        try:
            out = socket.create_connection((line.switch, line.ports[0]), SECONDS, source_address=(line.own, 0))
        except (ConnectionRefusedError, ConnectionResetError):
            self.calls_at = time.monotonic() + PAUSE
            return
        out.setblocking(False)
        out.setsockopt(socket.IPPROTO_TCP, socket.TCP_NODELAY, 1)
        line.out = out
        self.selector.register(out, selectors.EVENT_READ, (self.is_answered, line))

    def accepts(self, line, _now):
        try:
            connection, _ = line.listener.accept()
        except BlockingIOError:
            return
        self.ends_source(line)
        connection.setblocking(False)
        line.source = connection
        if line.reads:
            self.selector.register(connection, selectors.EVENT_READ, (self.hears, line))

    def closes(self, connection):
        if connection is not None:
            try:
                self.selector.unregister(connection)
            except KeyError:
                pass
            connection.close()

    def ends_source(self, line):
        """Ends the connection from the switch; what isn't whole of a frame is dropped."""
        self.closes(line.source)
        line.source = None
        line.drops()

    def ends_out(self, line):
        """Ends the connection to the switch. A message that was sent in part goes to the front of the queue again."""
        self.closes(line.out)
        line.out, line.left, line.is_full = None, None, False

    def goes_away(self, line):
        """A neighbour goes: it listens no more, and both its connections end."""
        self.ends_out(line)
        self.ends_source(line)
        self.closes(line.listener)
        line.listener, line.is_present = None, False

    def is_cut(self, line):
        """The connection from the switch is cut, with all that wasn't read of it; the neighbour goes on listening."""
        self.ends_source(line)

    def calls_again(self, line):
        """The connection to the switch ends, in mid-frame where a message is in work, and the neighbour connects again."""
        self.ends_out(line)
        self.calls(line)

    # Bytes.

    def is_answered(self, line, _now):
        """The switch sends nothing here: where it ends the connection, that is for noise, or since it is gone."""
        try:
            piece = line.out.recv(PIECE)
        except BlockingIOError:
            return
        except OSError:
            piece = b''
        if piece:
            raise Lost(f'circuit {line.circuit}: the switch sends {piece[:40]!r} on an incoming connection')
        self.ends_out(line)

    def hears(self, line, now):
        try:
            piece = line.source.recv(PIECE)
        except BlockingIOError:
            return
        except OSError:
            piece = b''
        if not piece:
            self.ends_source(line)
            return
        self.moved += 1
        line.take(piece, now)

    def stops_reading(self, line):
        line.reads = False
        if line.source is not None:
            self.selector.unregister(line.source)

    def reads_again(self, line):
        line.reads = True
        if line.source is not None:
            self.selector.register(line.source, selectors.EVENT_READ, (self.hears, line))

    def waits_for_room(self, line, is_full):
        """Whether a connection to the switch is looked at for room, too."""
        if line.is_full != is_full:
            line.is_full = is_full
            events = selectors.EVENT_READ | (selectors.EVENT_WRITE if is_full else 0)
            self.selector.modify(line.out, events, (self.is_answered, line))

    def sends(self, line):
        """Hands over what waits in the queue of a neighbour, as far as the line takes it."""
        while line.out is not None and line.queue:
            message = line.queue[0]
            if line.left is None:
                line.number += message.frame is None and message.kind != NOISE
                line.left = memoryview(message.framed(line.number))
            try:
                count = line.out.send(line.left)
            except BlockingIOError:
                self.waits_for_room(line, True)
                return
            except OSError:
                self.ends_out(line)
                return
            line.left = line.left[count:]
            if not line.left:
                line.left = None
                message.sent_at = time.monotonic()
                line.sent.append(line.queue.popleft())
                self.moved += 1
                if message.kind == NOISE:
                    # What comes behind noise is dropped: the neighbour begins anew.
                    self.calls_again(line)
        if line.out is not None:
            self.waits_for_room(line, False)

    def serves(self, seconds):
        """Sends what waits and reads what comes, for so long at most where nothing does."""
        for line in self.lines:
            if line.out is None and line.is_present and self.is_up and line.switch is not None:
                self.calls(line)
            if line.queue and line.out is not None:
                self.sends(line)
        for key, _ in self.selector.select(seconds):
            work, line = key.data
            work(line, time.monotonic())

    # When the switch is gone.

    def drains(self):
        """Reads to their ends all connections from the switch, which is gone, of the neighbours that are there."""
        for line in self.lines:
            if not line.is_present:
                continue
            while True:
                if line.source is not None:
                    self.reads_to_end(line)
                before = line.source
                self.accepts(line, 0.0)
                if line.source is before:
                    break
            self.ends_source(line)

    def reads_to_end(self, line):
        line.source.setblocking(True)
        line.source.settimeout(SECONDS)
        while True:
            try:
                piece = line.source.recv(PIECE)
            except ConnectionResetError:
                return
            except TimeoutError:
                raise Lost(f'circuit {line.circuit}: the switch is gone, and its connection stands') from None
            if not piece:
                return
            line.take(piece, time.monotonic())

    def hangs_up(self):
        """Ends all connections to the switch, and forgets what waits for it."""
        self.is_up = False
        for line in self.lines:
            self.ends_out(line)
            line.queue.clear()
            line.sent.clear()

    def calls_all(self):
        """The switch is up again, and all neighbours that are there call it."""
        self.is_up = True

    def close(self):
        for line in self.lines:
            for connection in (line.out, line.source, line.listener):
                self.closes(connection)
        self.selector.close()
