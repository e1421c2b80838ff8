"""How long a warning takes under load: two neighbours send observations as fast as they can to a third, and warnings of the first
level come from a fourth between them. The time is that from the last byte of a warning in to the first byte of its frame out."""
import multiprocessing
import os
import selectors
import socket
import sqlite3
import subprocess
import tempfile
import threading
import time
from contextlib import ExitStack

from hub.directory import LARGE, LARGEST_LIMIT, HubDirectory, Size, addresses, country, peer, ports_at
from hub.station import Station
from hub.traffic import body_of
from journal import EOL, frame_of
from loopback import messages_of

OBSERVERS, WARNER, READER, CIRCUITS = (0, 1), 2, 3, 4
WINDOW, SECONDS, PIECE = 1_000, 60, 1 << 18
# So long the load runs before the first warning, and so many frames are sent at once.
BEFORE, BATCH = 1.0, 256
TEXT = b'AAXX 28064 78954 41966 70210 10268 20240 30098 40123 52008 60001 82230 ' * 5
SQL = 'INSERT INTO records VALUES (?, ?, ?, ?)'


def observation(circuit, number):
    front = f'SM{country(circuit)}{number % 100:02} {peer(circuit)} 28{number // 6000 % 24:02}{number // 100 % 60:02}'
    return body_of(front.encode(), b'%09d ' % number + TEXT)


def warning(number):
    front = f'WE{country(WARNER)}01 {peer(WARNER)} 28{number // 60 % 24:02}{number % 60:02}'
    return body_of(front.encode(), b'%09d WARNING FOR THE COASTS OF THE EASTERN CARIBBEAN=' % number)


def observes(circuit, own, to):
    """A neighbour that sends observations until its connection ends, as a process of its own."""
    try:
        out, number = socket.create_connection(to, SECONDS, source_address=(own, 0)), 0
        while True:
            numbers = range(number, number + BATCH)
            out.sendall(b''.join(frame_of(b'AN', count % 1000, observation(circuit, count)) for count in numbers))
            number += BATCH
    except OSError:
        pass


def connected(own, to):
    """A connection to a switch that may still be on its way up."""
    until = time.monotonic() + SECONDS
    while True:
        try:
            out = socket.create_connection(to, SECONDS, source_address=(own, 0))
            out.setsockopt(socket.IPPROTO_TCP, socket.TCP_NODELAY, 1)
            return out
        except ConnectionRefusedError:
            if time.monotonic() > until:
                raise
            time.sleep(0.01)


class Pieces:
    """What came on a connection, and when: of each piece the time and the place of its end."""

    def __init__(self):
        self.stream, self.ends = bytearray(), []

    def take(self, piece, now):
        self.stream += piece
        self.ends.append((len(self.stream), now))

    def firsts(self):
        """When the first byte of each frame came, and its body."""
        at, place, found = 0, 0, []
        for message in messages_of(bytes(self.stream))[0]:
            while self.ends[place][0] <= at:
                place += 1
            found.append((self.ends[place][1], message.split(EOL, 2)[2] if message else b''))
            at += 10 + len(message)
        return found


class Run:
    """Warnings that go through what listens at `to`, beside the load; `source` is where its frames come from."""

    def __init__(self, count, every):
        self.count, self.every = count, every
        self.sent, self.came = {}, Pieces()

    def goes(self, out, source):
        """Sends each warning at its time and reads what comes, until the last one came or too much time has gone."""
        begun = time.monotonic() + BEFORE
        last = b'%09d' % (self.count - 1) + b' WARNING'
        source.setblocking(False)
        with selectors.DefaultSelector() as selector:
            selector.register(source, selectors.EVENT_READ)
            until = begun + self.count * self.every + SECONDS
            while time.monotonic() < until:
                number = len(self.sent)
                left = begun + number * self.every - time.monotonic() if number < self.count else 0.1
                if left <= 0:
                    out.sendall(frame_of(b'AN', number % 1000, warning(number)))
                    self.sent[warning(number)] = time.monotonic()
                    continue
                if selector.select(left):
                    piece = source.recv(PIECE)
                    self.came.take(piece, time.monotonic())
                    if not piece or number == self.count and last in self.came.stream[-3 * PIECE:]:
                        break
        self.seconds = time.monotonic() - begun + BEFORE

    def times(self):
        """How long each warning took, in order of the times; each has to have come once. And how many frames came a second."""
        firsts = self.came.firsts()
        came = [(now, body) for now, body in firsts if body in self.sent]
        if len(came) != self.count or len({body for _, body in came}) != self.count:
            raise SystemExit(f'capacity: of {self.count} warnings {len(came)} came')
        return sorted(now - self.sent[body] for now, body in came), len(firsts) / self.seconds


def directory_of(repeat):
    net = addresses(CIRCUITS + 1)
    ports = [(port, port) for port in ports_at(net[0], CIRCUITS)]
    return HubDirectory([('****** ****', [READER])], Size(LARGEST_LIMIT, WINDOW, LARGE.kept), net, ports, repeat)


def warned(directory, out, source, count, every):
    """The times of warnings between the observations of two neighbours, and how many frames came a second."""
    observers = [multiprocessing.Process(target=observes, daemon=True, args=(circuit, directory.host(circuit),
                                         (directory.net[0], directory.ports[circuit][0]))) for circuit in OBSERVERS]
    run = Run(count, every)
    for observer in observers:
        observer.start()
    try:
        run.goes(out, source)
    finally:
        for observer in observers:
            observer.kill()
            observer.join()
    return run.times()


def through_a_switch(program, place, repeat, count, every):
    """The same through a switch."""
    directory = directory_of(repeat)
    with tempfile.TemporaryDirectory(dir=place) as folder, ExitStack() as stack:
        listeners = [stack.enter_context(socket.create_server((directory.host(circuit), port)))
                     for circuit, (_, port) in enumerate(directory.ports)]
        station = Station(program, os.path.join(folder, 'hub'), directory)
        stack.callback(station.stop)
        station.start(compacts=False)
        out = stack.enter_context(connected(directory.host(WARNER), (directory.net[0], directory.ports[WARNER][0])))
        listeners[READER].settimeout(SECONDS)
        source = stack.enter_context(listeners[READER].accept()[0])
        return warned(directory, out, source, count, every)


def through_relays(relay, count, every):
    """The same where a relay of its own takes the bytes of each of the three to the reader: nothing is kept, nothing overtakes."""
    directory = directory_of(1)
    with ExitStack() as stack:
        listeners, sources = [], []
        for circuit in (*OBSERVERS, WARNER):
            listener = stack.enter_context(socket.create_server((directory.host(circuit), directory.ports[circuit][1])))
            words = [relay, directory.net[0], str(directory.ports[circuit][0]), f'{directory.host(circuit)}:{directory.ports[circuit][1]}']
            process = stack.enter_context(subprocess.Popen(words, stderr=subprocess.DEVNULL))
            stack.callback(process.kill)
            listeners.append(listener)
            sources.append(stack.enter_context(listener.accept()[0]))
        for source in sources[:len(OBSERVERS)]:
            threading.Thread(target=drains, args=(source,), daemon=True).start()
        out = stack.enter_context(connected(directory.host(WARNER), (directory.net[0], directory.ports[WARNER][0])))
        return warned(directory, out, sources[-1], count, every)


def drains(source):
    """Reads what comes, and looks at nothing."""
    room = bytearray(PIECE)
    try:
        while source.recv_into(room):
            pass
    except OSError:
        pass


def through_sqlite(place, count):
    """How long SQLite takes to commit two records one after the other, as a warning is accepted and drawn, with nothing beside it."""
    with tempfile.TemporaryDirectory(dir=place) as folder:
        base = sqlite3.connect(os.path.join(folder, 'records'), isolation_level=None)
        base.executescript('PRAGMA journal_mode=WAL; PRAGMA synchronous=FULL')
        base.execute('CREATE TABLE records (kind, circuit, position, record)')
        times = []
        for number in range(count):
            begun = time.monotonic()
            base.execute(SQL, ('A', WARNER, number, warning(number)))
            base.execute(SQL, ('D', READER, number, None))
            times.append(time.monotonic() - begun)
        base.close()
        return sorted(times)
