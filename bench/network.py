"""A network of five centres on this machine, for scripts: each has the built switch in a folder and at an address of its own, and
names its neighbours by theirs. Python's standard library alone.

Where the machine gives them (bench/hosts.py), each centre is on a host, and two that are neighbours are joined by a cable, which can
be pulled. A tap looks at each direction of their line, and changes nothing. Lines that a script wants cut in mid-frame, or without
a frame, go through a relay. Where there are no such hosts, the addresses are 127.0.1.1 and on, and each line goes through a relay.

Barbados, Trinidad and St Vincent are a ring; St Lucia hangs on Barbados, and Grenada on Trinidad. Each centre has a circuit
for each of its lines, and HOME, on which its own stations and forecasters send, and get what comes from elsewhere."""
import os
import random
import re
import select
import shutil
import socket
import struct
import subprocess
import threading
import time
from collections import Counter, defaultdict

from hosts import Hosts, lacking
from loopback import EOL, HOST, messages_of

NAMES = {'TBPB': 'BARBADOS', 'TTPP': 'TRINIDAD', 'TVSV': 'VINCENT', 'TLPL': 'LUCIA', 'TGPY': 'GRENADA'}
COUNTRIES = {'TBPB': 'BR', 'TTPP': 'TD', 'TVSV': 'VG', 'TLPL': 'LC', 'TGPY': 'GD'}
RING = ['TBPB', 'TTPP', 'TVSV']
LINKS = [('TBPB', 'TTPP'), ('TTPP', 'TVSV'), ('TVSV', 'TBPB'), ('TBPB', 'TLPL'), ('TTPP', 'TGPY')]
# Over which line a centre sends what is collected in Barbados.
TOWARDS_BARBADOS = {'TTPP': 'TBPB', 'TVSV': 'TBPB', 'TLPL': 'TBPB', 'TGPY': 'TTPP'}
HOME = 'HOME'
# The host on which all cables end, each in a bridge of its own: there they are pulled.
WIRES = 'wires'
# How long, in seconds, a line without a relay may be idle.
IDLE = 1
DIGITS, KEPT, WINDOW, CONNECTIONS = 5, 20_000, 20_000, 1000
# The seed of the day of examples/network, and how many stations report there from each centre every hour.
DAY, STATIONS = 28, 4
# How long a thread sleeps or waits before it looks again whether something else is wanted of it.
POLL = 0.01
# How many bytes a relay reads at once, and how long it holds them.
PIECE, DELAY = 4096, 0.002
# How long a command may take, in seconds.
CALL = 60
# How long nothing may have moved before the network counts as at rest.
QUIET = 0.7


def neighbours_of(code):
    """The centres to which a centre has a line, in the order of its circuits."""
    return [b if a == code else a for a, b in LINKS if code in (a, b)]


def rules_of(code):
    """The rules of a centre: pairs of a pattern and the circuits that it names, each by its centre or HOME."""
    lines = neighbours_of(code)
    rules = [(f'{letters}**** ****', lines) for letters in ('SM', 'SA', 'WW')]
    rules.append(('FT**** ****', [other for other in lines if other in RING]))
    rules += [('US**** ****', [TOWARDS_BARBADOS[code]])] if code in TOWARDS_BARBADOS else []
    rules += [('SDBR** TBPB', ['TTPP'])] if code == 'TBPB' else []
    rules += [(f'BMRR01 {other}', [other]) for other in lines]
    return [*rules, ('****** ****', [HOME])]


def fits(heading, pattern):
    """Whether a heading begins as a pattern says."""
    return all(want in ('*', letter) for letter, want in zip(heading.decode(), pattern))


def reached(heading, code):
    """The centres that the rules lead a bulletin to that enters at a centre: that one, and those that its lines name, and
    theirs. A centre doesn't send a bulletin back where it came from, which has it."""
    found, new = set(), [code]
    while new:
        here = new.pop()
        if here in found:
            continue
        found.add(here)
        named = {to for pattern, tos in rules_of(here) if fits(heading, pattern) for to in tos if to != HOME}
        # A request that has come to the centre that it is addressed to is answered there, and not accepted.
        new += [to for to in named if not is_request_to(heading, to)]
    return found


def is_request_to(text, code):
    """Whether a text is that of a request to a centre."""
    return text.startswith(b'BMRR') and text[7:11] == code.encode()


def directory_text(code, address, circuits, window):
    """The directory of a centre; `circuits` has what stands in the row of each of its circuits, but for name and peer."""
    name = {**NAMES, HOME: HOME}
    rows = [f'centre = "{code}"', f'address = "{address}"', f'window = {window}']
    for to, more in zip([*neighbours_of(code), HOME], circuits):
        rows += ['[[circuit]]', f'name = "{name[to]}"', f'peer = "{to}"', f'digits = {DIGITS}', f'kept = {KEPT}']
        rows += [f'{key} = "{value}"' if key == 'host' else f'{key} = {value}' for key, value in more.items()]
    for pattern, tos in rules_of(code):
        rows += ['[[rule]]', f'heading = "{pattern}"', 'to = [' + ', '.join(f'"{name[to]}"' for to in tos) + ']']
    for letters, level in (('WW', 1), ('S*', 2)):
        rows += ['[[level]]', f'tt = "{letters}"', f'level = {level}']
    return '\n'.join(rows) + '\n'


def frame_of(number, body, digits=3):
    """The frame of a bulletin, which is heading, line end and text, under a number in so many digits."""
    message = b'\x01' + EOL + b'%0*d' % (digits, number) + EOL + body + EOL + b'\x03'
    return b'%08dAN' % len(message) + message


def text_of(message):
    """The bulletin of a message, as `frame_of` takes it, and its number."""
    number, body = message[4:].split(EOL, 1)
    return body[:-4], int(number)


def ports_below(count):
    """Ports on which nobody listens now, below the range from which the system picks its own."""
    with open('/proc/sys/net/ipv4/ip_local_port_range') as file:
        top = min(32_000, int(file.read().split()[0]))
    found, chance = [], random.SystemRandom()
    while len(found) < count:
        port = chance.randrange(10_000, top)
        try:
            socket.create_server((HOST, port)).close()
        except OSError:
            continue
        found += [port] if port not in found else []
    return found


class Traffic:
    """Bulletins as centres make them. No two have the same text, and each is the same where `chance` is."""

    def __init__(self, chance):
        self.chance = chance
        self.count = 0

    def bulletin(self, code, kind, letters, hour, minute, text):
        self.count += 1
        heading = f'{kind}{COUNTRIES[code]}{letters} {code} 28{hour:02}{minute:02}'
        return heading.encode() + EOL + EOL.join(line.encode() for line in text) + b'='

    def group(self, front, most=10_000):
        return f'{front}{self.chance.randrange(most):04}'

    def wind(self):
        return f'{10 * self.chance.randrange(36):03}{5 + self.chance.randrange(20):02}KT'

    def observation(self, code, hour):
        """A surface report of one station. The last group is told apart by the count of bulletins."""
        groups = [f'{78_900 + self.chance.randrange(100)}', '41/66', self.group('8'), self.group('1', 400)]
        groups += [self.group('2', 300), self.group('3'), f'4{self.count % 10_000:04}']
        return self.bulletin(code, 'SM', '01', hour, 0, [f'AAXX 28{hour:02}4', ' '.join(groups)])

    def aerodrome(self, code, hour):
        weather = f'{self.wind()} 9999 SCT018 30/24 Q{1008 + self.chance.randrange(9)} RMK {self.count:06}'
        return self.bulletin(code, 'SA', '31', hour, 0, [f'METAR {code} 28{hour:02}00Z {weather}'])

    def forecast(self, code, hour):
        text = f'TAF {code} 28{hour:02}00Z 28{hour:02}/29{(hour + 6) % 24:02} {self.wind()} 9999 SCT020'
        return self.bulletin(code, 'FT', '31', hour, 0, [text, f'RMK {self.count:06}'])

    def upper_air(self, code, hour):
        groups = ' '.join(self.group(front) for front in '0987')
        return self.bulletin(code, 'US', '01', hour, 0, [f'TTAA 78{hour:02}1 78954 {groups}', f'51515 {self.count:06}'])

    def radar(self, code, hour):
        return self.bulletin(code, 'SD', '20', hour, 15, [f'RADAR {code} ECHOES {self.group("")} {self.count:06}'])

    def warning(self, code, hour):
        text = f'SMALL CRAFT WARNING NO {self.count} FOR THE EASTERN CARIBBEAN UNTIL 290000'
        return self.bulletin(code, 'WW', '31', hour, 20, [text])


def hour_of(traffic, hour):
    """What stations and forecasters send in an hour: pairs of a centre and a bulletin."""
    for code in NAMES:
        kinds = [traffic.observation] * STATIONS + [traffic.aerodrome]
        kinds += [traffic.forecast] if hour % 6 == 0 else []
        kinds += [traffic.upper_air] if hour % 12 == 0 else []
        yield from ((code, kind(code, hour)) for kind in kinds)
    yield 'TBPB', traffic.radar('TBPB', hour)


def day_of(*codes):
    """What these centres send in the day of examples/network."""
    traffic = Traffic(random.Random(DAY))
    return [body for hour in range(24) for code, body in hour_of(traffic, hour) if code in codes]


class Stream:
    """The bytes of a connection, how far its whole frames go, and how many of them have a message: keep-alives have none."""

    def __init__(self, run=None):
        self.run = run
        self.bytes = bytearray()
        self.ends = []
        self.count = 0
        # Whether the taker reads no more of it, as far as that is seen.
        self.is_over = False

    def whole(self):
        """Where the last whole frame ends."""
        return self.ends[-1] if self.ends else 0

    def add(self, piece):
        self.bytes += piece
        while self.whole() + 10 <= len(self.bytes):
            end = self.whole() + 10 + int(self.bytes[self.whole():self.whole() + 8])
            if end > len(self.bytes):
                break
            self.count += end > self.whole() + 10
            self.ends.append(end)

    def messages(self):
        return [message for message in messages_of(bytes(self.bytes))[0] if message]


def accepted_and_drawn(folder):
    """What a journal says, by docs/FORMATS.md: the circuit and the body of each accepted bulletin by its position, and the
    position of each draw by its circuit and index. Behind a checkpoint that is what the checkpoint still has, and the rest."""
    def number(place, size):
        return int.from_bytes(file[place:place + size], 'big')

    def checkpoint(at):
        circuits, bulletins, place = number(at + 4, 4), number(at + 16, 4), at + 20
        for _ in range(bulletins):
            length = number(place + 12, 4)
            accepted[number(place, 8)] = file[place + 8], file[place + 16:place + 16 + length]
            place += 16 + length
        for circuit in range(circuits):
            draws, waiting, kept = number(place, 8), number(place + 8, 4), number(place + 12, 4)
            place += 16 + 8 * waiting
            for index in range(draws - kept, draws):
                drawn[circuit, index] = number(place, 8)
                place += 8
        return place

    def record(at):
        if file[at:at + 1] == b'C':
            return checkpoint(at)
        if file[at:at + 1] == b'D':
            drawn[file[at + 1], number(at + 15, 8)] = number(at + 7, 8)
            return at + 23
        length = number(at + 12, 4)
        accepted[number(at + 4, 8)] = file[at + 1], file[at + 16:at + 16 + length]
        return at + 16 + length

    def read(name):
        path = os.path.join(folder, name)
        if not os.path.exists(path):
            return b''
        with open(path, 'rb') as opened:
            return opened.read()
    file = read('journal.1' if read('journal.2')[:1] == b'\x01' else 'journal.0')
    accepted, drawn, gate = {}, {}, 40
    while file[gate:gate + 1] == b'\x4f':
        gate = record(gate + 1) + 32
    return accepted, drawn


class Centre:
    """A centre: the switch in a folder of its own, which is started and killed, and what it said in each of its runs."""

    def __init__(self, program, folder, code, text, within=(), seconds=CALL):
        self.program, self.folder, self.code, self.seconds = program, folder, code, seconds
        # The words before the program where it serves, which say on which host.
        self.within = within
        self.circuits = [*neighbours_of(code), HOME]
        self.process = None
        # The number of the present or last run, and that of the last one that has ended.
        self.run = self.ended = 0
        # Of each run: when it began, where its receipts are, how many there are of each word and circuit, and how far they were read.
        self.began, self.receipts, self.counts, self.read_to = {}, {}, {}, {}
        # Of each run and circuit the receipts of its messages, in order: each a word, and a position where it tells one.
        self.said = defaultdict(list)
        self.reading = threading.Lock()
        self.accepted, self.drawn = {}, {}
        self.faults = []
        make_folder(program, folder, text, seconds)

    def start(self):
        """As the unit does: compact, then serve."""
        self.wants('compact', self.call('compact')[0], 0)
        run = self.run + 1
        self.receipts[run] = os.path.join(self.folder, f'receipts.{run}')
        self.counts[run], self.read_to[run] = Counter(), 0
        self.began[run] = time.time()
        self.run = run
        with open(self.receipts[run], 'wb') as out, open(self.receipts[run] + '.faults', 'wb') as err:
            words = [*self.within, self.program, 'serve', str(CONNECTIONS)]
            self.process = subprocess.Popen(words, cwd=self.folder, stdin=subprocess.DEVNULL, stdout=out, stderr=err)

    def run_at(self, moment):
        """The run that had begun last at a moment."""
        return max(run for run, began in list(self.began.items()) if began <= moment)

    def kill(self):
        """Kills the process of this run, and takes down what it had said and what its journal has."""
        if self.process is None:
            return
        self.wants('it ran until it was killed', self.process.poll(), None)
        self.process.kill()
        self.process.wait()
        self.process = None
        self.read_receipts()
        self.ended = self.run
        self.read_journal()

    def stop(self):
        """Ends the process, and no other."""
        if self.process is not None and self.process.poll() is None:
            self.process.kill()
            self.process.wait()

    def wants(self, what, got, want):
        if got != want:
            self.faults.append(f'{self.code}: {what}: got {got!r}, wanted {want!r}')

    def read_receipts(self):
        """Counts what was said since the last look, by the word and the circuit of each whole line."""
        with self.reading, open(self.receipts[self.run], 'rb') as file:
            file.seek(self.read_to[self.run])
            lines = file.read().split(b'\n')
            self.read_to[self.run] += sum(len(line) + 1 for line in lines[:-1])
            for words in map(bytes.split, lines[:-1]):
                self.counts[self.run][words[0].decode(), int(words[1])] += 1
                if words[0] in (b'ACC', b'DUP', b'ASK', b'REF'):
                    self.said[self.run, int(words[1])].append((words[0], int(words[2]) if words[0] in (b'ACC', b'DUP') else None))
                self.note(words)

    def note(self, words):
        if words[0] in (b'REF', b'LOS') or (words[0] == b'ASK' and words[3] != b'0'):
            self.faults.append(f'{self.code} said {b" ".join(words).decode()}')

    def dealt_with(self, run, circuit):
        """How many messages of a circuit have had their receipts in a run."""
        return len(self.said[run, circuit])

    def texts_said(self, run, circuit):
        """Of each of these receipts the bulletin that it was said of; none of a request's. It ends before the first of which the
        journal hasn't told yet."""
        receipts = self.said[run, circuit]
        if any(position is not None and position not in self.accepted for _, position in receipts):
            self.read_journal()
        for _, position in receipts:
            if position is not None and position not in self.accepted:
                return
            yield None if position is None else self.accepted[position][1][:-4]

    def total(self, word, circuits=None):
        """How many receipts have this word, over all runs, on these circuits or on all."""
        return sum(count for counts in self.counts.values() for (said, circuit), count in list(counts.items())
                   if said == word and (circuits is None or circuit in circuits))

    def call(self, *words):
        done = subprocess.run([self.program, *words], cwd=self.folder, capture_output=True, timeout=self.seconds)
        return done.returncode, done.stdout, done.stderr.decode().partition('\n')[0]

    def report(self):
        """What `show` says of a stopped switch: for each circuit its draws and how many wait."""
        status, out, line = self.call('show')
        self.wants('show', (status, line), (0, ''))
        rows = re.findall(r'^circuit \d\d \S+ draws (\d+) waiting (\d+) ', out.decode(), re.M)
        return [(int(draws), int(waiting)) for draws, waiting in rows]

    def read_journal(self):
        """Takes down what the journal has. What it had before stays as it was."""
        for known, found in zip((self.accepted, self.drawn), accepted_and_drawn(self.folder)):
            other = [key for key, value in found.items() if known.setdefault(key, value) != value][:3]
            self.wants('what the journal said before, and another thing now', other, [])


def make_folder(program, folder, text, seconds):
    """A folder with this directory and an empty journal."""
    os.makedirs(folder)
    with open(os.path.join(folder, 'directory.toml'), 'w') as file:
        file.write(text)
    subprocess.run([program, 'init'], cwd=folder, check=True, timeout=seconds)


class Standby:
    """A standby of a centre: a folder whose journal follows that of the centre, by `ship` beside the running switch."""

    def __init__(self, centre):
        self.centre = centre
        self.folder = centre.folder + '.standby'
        with open(os.path.join(centre.folder, 'directory.toml')) as file:
            self.text = file.read()
        self.followed = 0
        make_folder(centre.program, self.folder, self.text, centre.seconds)

    def run(self, word):
        return subprocess.run([self.centre.program, word], cwd=self.folder, capture_output=True, timeout=self.centre.seconds)

    def follow(self):
        """Ships and follows once, also where the centre has compacted its journal."""
        status, feed, line = self.centre.call('ship')
        self.centre.wants('ship', (status, line), (0, ''))
        with open(os.path.join(self.folder, 'capture.gts'), 'wb') as file:
            file.write(feed)
        done = self.run('follow')
        self.followed += 1
        self.centre.wants('follow', (done.returncode, done.stderr.decode().strip()), (0, ''))

    def takes_over(self):
        """The centre works in the standby's folder from its next run on."""
        self.centre.folder = self.folder


class Place:
    """An address and a port, and the host that they belong to, where there are hosts."""

    def __init__(self, hosts, code, address, port=0):
        self.hosts, self.code, self.address, self.port = hosts, code, address, port

    def inside(self, make):
        """What `make` makes there."""
        return self.hosts.inside(self.code, make) if self.hosts else make()

    def enters(self):
        """The sockets of the calling thread belong there from now on."""
        if self.hosts:
            self.hosts.enters(self.code)


class Caller(threading.Thread):
    """Connects to a port `input` of a centre, again and again while there is a network, as from a place of its own."""

    def __init__(self, to, circuit, input_place, source):
        super().__init__(daemon=True)
        self.to, self.circuit, self.input, self.source = to, circuit, input_place, source
        self.over = False
        self.fault = None

    def reach(self):
        """A connection to the centre, with the number of the run that has it. The number stays over the connecting, and a
        run's listener is gone before the next number: so the connection is that run's."""
        while not self.over:
            run = self.to.run
            try:
                connection = socket.create_connection((self.input.address, self.input.port), 5, source_address=(self.source.address, 0))
            except OSError:
                time.sleep(POLL)
                continue
            if run > self.to.ended and run == self.to.run:
                connection.settimeout(None)
                connection.setsockopt(socket.IPPROTO_TCP, socket.TCP_NODELAY, 1)
                return connection, run
            connection.close()
        return None, None

    def run(self):
        try:
            self.source.enters()
            while not self.over:
                connection, run = self.reach()
                if connection is not None:
                    with connection:
                        self.serve(connection, run)
        except Exception as error:
            self.fault = f'{type(error).__name__}: {error}'


class Feeder(Caller):
    """The stations of a centre: they send on HOME, and send again what got no receipt before the centre went down. They are on the
    centre's own machine, so they call from its address."""

    def __init__(self, to, circuit, place):
        super().__init__(to, circuit, place, place)
        self.frames = []
        # How many were dealt with in the runs that have ended, and how many were sent in this one behind those.
        self.base = self.sent = 0

    def enter(self, body):
        self.frames.append(frame_of((len(self.frames) + 1) % 1000, body))

    def is_done(self):
        """Whether each bulletin that was entered has its receipt."""
        run = self.to.run
        return run > self.to.ended and self.base + self.to.dealt_with(run, self.circuit) == len(self.frames)

    def serve(self, connection, run):
        self.sent = 0
        try:
            while not self.over and not select.select([connection], [], [], 0)[0]:
                upto = len(self.frames)
                connection.sendall(b''.join(self.frames[self.base + self.sent:upto]))
                self.sent = upto - self.base
                time.sleep(POLL)
        except OSError:
            pass
        while not self.over and self.to.ended < run:
            time.sleep(POLL)
        if not self.over:
            self.base += self.to.dealt_with(run, self.circuit)


class Listener:
    """A port `output` of a centre, where this listens and the centre connects."""

    def __init__(self, place):
        self.place = place
        self.socket = None
        self.open()

    def open(self):
        self.socket = self.socket or self.place.inside(
            lambda: socket.create_server((self.place.address, self.place.port), backlog=64))

    def close(self):
        if self.socket is not None:
            self.socket.close()
            self.socket = None


class Reader(threading.Thread):
    """Reads all that a centre sends home, over one connection after another. HOME is the last circuit that a centre opens."""

    def __init__(self, place):
        super().__init__(daemon=True)
        self.listener = Listener(place)
        self.came = []
        self.over = self.is_connected = False

    def run(self):
        while not self.over:
            if select.select([self.listener.socket], [], [], 10 * POLL)[0]:
                connection, _ = self.listener.socket.accept()
                self.came.append(Stream())
                self.is_connected = True
                with connection:
                    self.hear(connection, self.came[-1])
                self.is_connected = False

    def hear(self, connection, stream):
        while not self.over:
            if select.select([connection], [], [], 10 * POLL)[0]:
                try:
                    piece = connection.recv(1 << 16)
                except OSError:
                    return
                if not piece:
                    return
                stream.add(piece)


def is_said_of(said, text, code):
    """Whether a receipt of this bulletin, or of a request where there is none, may be that of a message with a text which came to a
    centre."""
    return is_request_to(text, code) if said is None else said == text


class Line:
    """One direction of a line, from one centre to the other: what came from the one and what was handed to the other, by connection."""

    def is_from(self, giver):
        self.giver = giver
        self.came, self.kept = [], []
        self.cuts = self.mid_frame_cuts = self.swallowed = self.dropped = self.half_open = 0

    def is_dealt_with(self):
        """Whether each message that was handed over in the present run has its receipt, or stood unread on a connection when the other
        centre ended that, or went on with a later one."""
        run = self.to.run
        streams = [stream for stream in list(self.kept) if stream.run == run]
        dealt, handed = self.to.dealt_with(run, self.circuit), sum(stream.count for stream in streams)
        if run <= self.to.ended or dealt >= handed:
            return run > self.to.ended and dealt == handed
        found = self.found(run, streams)
        last = max((place for place, heard in enumerate(found) if heard), default=0)
        return sum(map(len, found)) == dealt and all(
            len(heard) == stream.count or stream.is_over or place < last for place, (heard, stream) in enumerate(zip(found, streams)))

    def found(self, run, streams):
        """Of each of these connections, which are all of a run, the messages that have their receipts: each receipt is that of the
        first message behind the one before which has its text. So what stood unread on a connection when the other centre gave that
        up, or was killed, is left out, whatever came behind it."""
        every = [(place, message) for place, stream in enumerate(streams) for message in stream.messages()]
        texts = [text_of(message)[0] for _, message in every]
        found, at = [[] for _ in streams], 0
        for said in self.to.texts_said(run, self.circuit):
            behind = next((behind for behind in range(at, len(every)) if is_said_of(said, texts[behind], self.to.code)), None)
            if behind is not None:
                found[every[behind][0]].append(every[behind][1])
                at = behind + 1
        return found

    def left_unread(self):
        """How many messages were handed over, and have no receipt, though one behind them in the same run has."""
        count = 0
        for run in self.to.counts:
            streams = [stream for stream in list(self.kept) if stream.run == run]
            found = self.found(run, streams)
            last = max((place for place, heard in enumerate(found) if heard), default=0)
            count += sum(stream.count - len(heard) for stream, heard in zip(streams[:last], found))
        return count

    def heard(self):
        """The connections with the messages that the other centre has dealt with."""
        streams = list(self.kept)
        found = {run: iter(self.found(run, [stream for stream in streams if stream.run == run])) for run in self.to.counts}
        for stream in streams:
            yield next(found[stream.run])


class Cable:
    """The cable between the hosts of two centres. It can be pulled."""

    def __init__(self, hosts, one, other, addresses):
        self.hosts = hosts
        self.ends = [f'{one}-{other}', f'{other}-{one}']
        self.pulls = []
        self.is_down = False
        bridge = f'{one}{other}'
        hosts.ip(WIRES, 'link', 'add', 'name', bridge, 'type', 'bridge')
        hosts.ip(WIRES, 'link', 'set', bridge, 'up')
        for here, there, end in ((one, other, self.ends[0]), (other, one, self.ends[1])):
            hosts.lay(here, WIRES, f'to_{there}', end)
            hosts.ip(WIRES, 'link', 'set', end, 'master', bridge)
            hosts.ip(here, 'addr', 'add', addresses[here], 'peer', f'{addresses[there]}/32', 'dev', f'to_{there}')

    def pull(self):
        self.is_down = True
        for end in self.ends:
            self.hosts.pull(WIRES, end)
        self.pulls.append(time.time())

    def mend(self):
        for end in self.ends:
            self.hosts.mend(WIRES, end)
        self.is_down = False


class Connection:
    """A connection that a tap sees: what comes on it, and how far its taker has confirmed that. The number of a byte is that of
    TCP, which counts round."""

    def __init__(self, first, run, givers_run):
        self.first, self.givers_run = first, givers_run
        self.came, self.kept = Stream(), Stream(run)
        self.early = {}
        self.was_pulled = False

    def comes(self, number, payload):
        """A segment comes; it may come once more, or before one in front of it."""
        at = (number - self.first + (1 << 31)) % (1 << 32) - (1 << 31)
        if len(payload) > len(self.early.get(at, b'')):
            self.early[at] = payload
        while ready := [at for at in self.early if at <= len(self.came.bytes)]:
            piece = self.early.pop(ready[0])
            self.came.add(piece[len(self.came.bytes) - ready[0]:])

    def confirms(self, number):
        """The taker says that it has all before this byte."""
        self.takes((number - self.first) % (1 << 32))

    def takes(self, upto):
        self.kept.add(bytes(self.came.bytes[len(self.kept.bytes):upto]))


class Tap(Line, threading.Thread):
    """A line without a relay: the two centres are joined by a cable, and this looks at the packets at the taker's end of it. What
    the taker's host has confirmed counts as handed over, and what it had when the cable was pulled."""
    EVERY, IPV4, TCP, OUTGOING = 3, 0x0800, 6, 4
    FINISH, BEGIN, RESET, CONFIRM = 1, 2, 4, 16
    # Options of Linux that Python has no names for: a large buffer, the moment of each packet, what didn't fit in.
    LARGE, MOMENTS, PACKETS, MISSED = 33, 35, 263, 6

    def __init__(self, giver, to, circuit, place, cable):
        super().__init__(daemon=True)
        self.is_from(giver)
        self.to, self.circuit, self.port, self.cable = to, circuit, place.port, cable
        self.calling, self.connections, self.last = {}, {}, None
        self.seen_pulls = 0
        self.over, self.fault = False, None
        self.socket = place.inside(lambda: self.opened(f'to_{giver.code}'))

    def opened(self, end):
        opened = socket.socket(socket.AF_PACKET, socket.SOCK_DGRAM, 0)
        opened.setsockopt(socket.SOL_SOCKET, self.LARGE, 1 << 25)
        opened.setsockopt(socket.SOL_SOCKET, self.MOMENTS, 1)
        opened.settimeout(5 * POLL)
        opened.bind((end, self.EVERY))
        return opened

    @property
    def is_down(self):
        return self.cable.is_down

    def run(self):
        try:
            while not self.over:
                try:
                    packet, more, _, place = self.socket.recvmsg(1 << 17, 128)
                except TimeoutError:
                    self.notes_pulls(time.time())
                    continue
                seconds, parts = struct.unpack('qq', more[0][2])
                moment = seconds + parts / 1e9
                self.notes_pulls(moment)
                if place[1] == self.IPV4 and packet[9] == self.TCP:
                    self.sees(packet, place[2] == self.OUTGOING, moment)
        except Exception as error:
            self.fault = f'{type(error).__name__}: {error}'

    def notes_pulls(self, moment):
        """What came before the cable was pulled was taken, whether or not that could still be confirmed."""
        while self.seen_pulls < len(self.cable.pulls) and self.cable.pulls[self.seen_pulls] < moment:
            self.seen_pulls += 1
            for connection in self.connections.values():
                connection.takes(len(connection.came.bytes))
                connection.was_pulled = True

    def sees(self, packet, is_sent, moment):
        segment = packet[4 * (packet[0] & 15):int.from_bytes(packet[2:4])]
        source, to, number, confirmed, size, flags = struct.unpack('>HHIIBB', segment[:14])
        if to == self.port and not is_sent:
            if flags & self.BEGIN:
                self.calling[source] = (number + 1) % (1 << 32)
            elif source in self.connections:
                self.connections[source].comes(number, segment[4 * (size >> 4):])
        elif source == self.port and is_sent:
            if flags & self.BEGIN:
                self.begins(to, moment)
            elif flags & self.CONFIRM and to in self.connections:
                self.connections[to].confirms(confirmed)
            if flags & (self.FINISH | self.RESET) and to in self.connections:
                self.connections.pop(to).kept.is_over = True

    def begins(self, caller, moment):
        """The taker's host lets in a caller."""
        first = self.calling.get(caller)
        if caller in self.connections and self.connections[caller].first == first:
            return
        before, self.last = self.last, Connection(first, self.to.run_at(moment), self.giver.run_at(moment))
        self.connections[caller] = self.last
        self.came.append(self.last.came)
        self.kept.append(self.last.kept)
        if before and before.was_pulled:
            before.kept.is_over = True
            self.half_open += (before.kept.run, before.givers_run) == (self.last.kept.run, self.last.givers_run)

    def missed(self):
        """How many packets it couldn't look at."""
        return struct.unpack('II', self.socket.getsockopt(self.PACKETS, self.MISSED, 8))[1]


class Relay(Line, Caller):
    """A line through a relay. It listens where the one centre connects, connects to the other's input, carries the bytes, and keeps
    a copy of what it hands on, in a file for each connection. A connection of the one is a connection of the other. It reads
    nothing while there is nobody to hand it to. It can be cut, and can drop a frame. To each of the two it is at the other's
    address."""

    def __init__(self, giver, to, circuit, input_place, source, output_place, folder):
        super().__init__(to, circuit, input_place, source)
        self.is_from(giver)
        self.listener = Listener(output_place)
        self.folder = folder
        os.makedirs(folder)
        # `cut` or `cut in mid-frame`, until it is done, and when it is done in any case; and how many frames to drop.
        self.wish, self.wish_ends = None, 0
        self.to_drop = 0
        self.is_down = False
        self.changing = threading.Lock()

    def wants(self, wish, seconds=0.8):
        self.wish_ends = time.monotonic() + seconds
        self.wish = wish

    def mend(self):
        with self.changing:
            self.wish, self.is_down = None, False

    def goes_down(self, *wishes):
        """Whether the line is cut here and now: it is where one of these is wished."""
        with self.changing:
            if self.wish not in wishes:
                return False
            self.wish, self.is_down = None, True
        self.cuts += 1
        self.listener.close()
        return True

    def is_due(self):
        """Whether the line was cut, between two pieces."""
        late = time.monotonic() > self.wish_ends
        return self.goes_down('cut', *(['cut in mid-frame'] if late else []))

    def serve(self, taker, run):
        giver = self.await_giver(taker)
        if giver is None:
            return
        with giver:
            self.came.append(Stream())
            self.kept.append(Stream(run))
            with open(os.path.join(self.folder, f'{run}.{len(self.kept)}'), 'wb', buffering=0) as file:
                try:
                    self.carry(giver, taker, file)
                except OSError:
                    pass

    def await_giver(self, taker):
        """The next connection of the one; none where the other's has ended before."""
        while not self.over:
            self.is_due()
            if not self.is_down:
                self.listener.open()
            listening = [self.listener.socket] if self.listener.socket is not None else []
            ready = select.select([taker, *listening], [], [], POLL)[0]
            if taker in ready:
                return None
            if ready:
                return self.listener.socket.accept()[0]
        return None

    def carry(self, giver, taker, file):
        """Until one of the two ends its connection, or the line is cut. The other centre sends nothing here."""
        cuts = self.cuts
        while not self.over and self.cuts == cuts:
            ready = select.select([giver, taker], [], [], POLL)[0]
            if taker in ready:
                self.kept[-1].is_over = True
                return
            if self.is_due():
                return
            if giver in ready:
                piece = giver.recv(PIECE)
                if not piece:
                    return
                passed = self.meet(piece)
                # It is kept before it is handed over: of what was handed over the receipts tell what was dealt with.
                self.kept[-1].add(passed)
                file.write(passed)
                taker.sendall(passed)
                time.sleep(DELAY)

    def meet(self, piece):
        """What is handed on of a piece: all of it, a front in whose last frame the line is cut, or all but a frame."""
        came = self.came[-1]
        before, frames = len(came.bytes), len(came.ends)
        at_boundary = came.whole() == before
        came.add(piece)
        passed = piece
        if len(piece) > 1 and self.goes_down('cut in mid-frame'):
            place = len(piece) // 2
            passed = piece[:place - (before + place in came.ends)]
            self.mid_frame_cuts += 1
            self.swallowed += sum(1 for end in came.ends[frames:] if end > before + len(passed))
        elif self.dropped < self.to_drop and at_boundary and len(came.ends) > frames:
            end = came.ends[frames] - before
            if self.is_new(piece[:end]):
                passed = piece[end:]
                self.dropped += 1
        return passed

    def is_new(self, frame):
        """Whether no frame of this number was handed over before."""
        number = text_of(messages_of(frame)[0][0])[1]
        return all(text_of(message)[1] != number for stream in self.kept for message in stream.messages())


def hosts_for_all():
    """A host for each centre, and one for their cables; or none, and what this machine lacks for it."""
    lacks = lacking()
    return (None, lacks) if lacks else (Hosts(*NAMES, WIRES), None)


class Network:
    """The five centres with all their lines and stations, in a folder. Where there are `hosts`, each centre is on one, and the lines
    of these links alone go through relays. `patience` says how many times as long as usual a command may take."""

    def __init__(self, program, folder, windows=None, hosts=None, relayed=(), idle=IDLE, patience=1):
        self.folder, self.program, self.hosts = folder, program, hosts
        self.relayed, self.idle = relayed if hosts else LINKS, idle
        os.makedirs(folder)
        self.addresses = {code: f'10.90.0.{k}' if hosts else f'127.0.1.{k}' for k, code in enumerate(NAMES, 1)}
        self.centres, self.feeders, self.readers, self.lines = {}, {}, {}, {}
        free = iter(ports_below(2 * sum(len(neighbours_of(code)) + 1 for code in NAMES)))
        # Where each centre listens for another one, or for its stations, and where they listen for it.
        inputs = {(code, to): next(free) for code in NAMES for to in [*neighbours_of(code), HOME]}
        self.outputs = {(code, to): inputs[to, code] if to != HOME and not self.is_relayed(code, to) else next(free)
                        for code, to in inputs}
        for code in NAMES:
            text = directory_text(code, self.addresses[code], [self.row(code, to, inputs) for to in [*neighbours_of(code), HOME]],
                                  (windows or {}).get(code, WINDOW))
            within = hosts.within(code) if hosts else ()
            self.centres[code] = Centre(program, os.path.join(folder, code), code, text, within, CALL * patience)
        self.cables = {link: Cable(hosts, *link, self.addresses) for link in LINKS if hosts}
        for code, centre in self.centres.items():
            self.feeders[code] = Feeder(centre, len(centre.circuits) - 1, self.place(code, inputs[code, HOME]))
            self.readers[code] = Reader(self.place(code, self.outputs[code, HOME]))
            for circuit, other in enumerate(centre.circuits[:-1]):
                self.lines[other, code] = self.line(other, code, circuit, self.place(code, inputs[code, other]))
        self.threads = [*self.lines.values(), *self.feeders.values(), *self.readers.values()]

    def is_relayed(self, one, other):
        return (one, other) in self.relayed or (other, one) in self.relayed

    def place(self, code, port=0):
        return Place(self.hosts, code, self.addresses[code], port)

    def row(self, code, to, inputs):
        """What stands in a circuit's row. A line without a relay has to find by itself that it was cut."""
        row = {'host': self.addresses[code if to == HOME else to], 'input': inputs[code, to], 'output': self.outputs[code, to]}
        if to != HOME and not self.is_relayed(code, to) and self.idle:
            row['idle'] = self.idle
        return row

    def line(self, giver, taker, circuit, input_place):
        """The line from one centre to another."""
        one, other = self.centres[giver], self.centres[taker]
        if not self.is_relayed(giver, taker):
            return Tap(one, other, circuit, input_place, self.cable(giver, taker))
        kept = os.path.join(self.folder, 'kept', f'{giver}-{taker}')
        return Relay(one, other, circuit, input_place, self.place(giver), self.place(taker, self.outputs[giver, taker]), kept)

    def cable(self, one, other):
        return self.cables.get((one, other)) or self.cables[other, one]

    def relays(self):
        return [line for line in self.lines.values() if isinstance(line, Relay)]

    def taps(self):
        return [line for line in self.lines.values() if isinstance(line, Tap)]

    def start(self):
        for tap in self.taps():
            if not tap.is_alive():
                tap.start()
        for centre in self.centres.values():
            centre.start()
        for thread in self.threads:
            if not thread.is_alive():
                thread.start()

    def kill(self):
        for centre in self.centres.values():
            centre.kill()

    def stop(self):
        """Ends all that was started here."""
        for centre in self.centres.values():
            centre.stop()
        for thread in self.threads:
            thread.over = True
        for thread in self.threads:
            if thread.ident is not None:
                thread.join(5)
            if isinstance(thread, (Reader, Relay)):
                thread.listener.close()
        if self.hosts:
            self.hosts.remove()

    def read_receipts(self):
        for centre in self.centres.values():
            centre.read_receipts()

    def moved(self):
        """Numbers of which one changes where something moves."""
        self.read_receipts()
        counts = [sum(centre.counts[centre.run].values()) for centre in self.centres.values()]
        streams = [stream for there in [*self.readers.values(), *self.lines.values()] for stream in list(there.came)]
        return counts, sum(stream.count for stream in streams), len(streams)

    def rests(self, seconds):
        """Whether within so many seconds all centres are open, all that was entered and handed over is dealt with, and nothing
        moves for a while."""
        until, since, last = time.monotonic() + seconds, time.monotonic(), None
        while time.monotonic() < until:
            now = self.moved()
            dealt = all(feeder.is_done() for feeder in self.feeders.values())
            dealt = dealt and all(line.is_dealt_with() for line in self.lines.values())
            if now != last or not dealt or not all(reader.is_connected for reader in self.readers.values()):
                since, last = time.monotonic(), now
            elif time.monotonic() - since >= QUIET:
                return True
            time.sleep(5 * POLL)
        return False

    def faults(self):
        """What went wrong in centres and threads."""
        return [fault for centre in self.centres.values() for fault in centre.faults] + [
            f'a thread of {thread.to.code}: {thread.fault}' for thread in self.threads if getattr(thread, 'fault', None)] + [
            f'the tap before {tap.to.code} missed packets' for tap in self.taps() if tap.missed()]

    def drawn(self, code):
        """How many frames of a centre came on its lines and to its home."""
        streams = [*self.readers[code].came, *(stream for (giver, _), line in self.lines.items()
                                               if giver == code for stream in list(line.came))]
        return sum(stream.count for stream in streams)


def otherwise_accepted(network, entered):
    """The bulletins of these pairs of a centre and what entered there which a centre has in its journal more or less often than the
    rules want it, once or never: for each centre rows of a bulletin, how often it is there, and how often it is wanted."""
    wanted = {code: Counter() for code in NAMES}
    for code, body in entered:
        for there in reached(body[:18], code):
            wanted[there][body] = 1
    rows = {}
    for code, centre in network.centres.items():
        got, want = Counter(body[:-4] for _, body in centre.accepted.values()), wanted[code]
        rows[code] = [(body, got[body], want[body]) for body in {**got, **want} if got[body] != want[body]]
    return rows


def capture_of(network, code):
    """The daily capture of a centre: what it has heard on each line. In front stands the number that goes before the first
    one, since the numbers of this network began with its journals: so a first frame that was lost is missing too."""
    steps = []
    for circuit, other in enumerate(network.centres[code].circuits[:-1]):
        before = frame_of(0, b'SMBR01 TBPB 280000' + EOL + b'NIL=', DIGITS)
        connections = [[before], *([frame_of_message(message) for message in messages]
                                   for messages in network.lines[other, code].heard())]
        for frames in connections:
            steps.append(b'O %02d\n' % circuit + b''.join(b'F %02d %06d\n' % (circuit, len(one)) + one for one in frames))
    return b''.join(steps) + b'E\n'


def numbers_heard(line):
    """The numbers of all that a centre has dealt with on a line."""
    return {text_of(message)[1] for messages in line.heard() for message in messages}


def frame_of_message(message):
    return b'%08dAN' % len(message) + message


def numbers_of(line):
    """The numbers of a line of `gaps`: one, or all from a first to a last."""
    first, _, last = line.split()[2].partition('-')
    return set(range(int(first), int(last or first) + 1))


def gaps_of(network, code, time_of_day):
    """What the program's `gaps` answers over the capture of a centre, in a folder of its own: the missing numbers of each
    circuit, and the bulletin of the request for each circuit that has some."""
    folder = os.path.join(network.folder, 'gaps', f'{code}.{time_of_day}')
    os.makedirs(folder)
    centre = network.centres[code]
    shutil.copy(os.path.join(centre.folder, 'directory.toml'), folder)
    with open(os.path.join(folder, 'capture.gts'), 'wb') as file:
        file.write(capture_of(network, code))
    done = subprocess.run([network.program, 'gaps', time_of_day], cwd=folder, capture_output=True, timeout=centre.seconds)
    centre.wants('gaps', (done.returncode, done.stderr.decode().strip()), (0, ''))
    lines = done.stdout.decode().splitlines()
    missing = {circuit: set() for circuit in range(len(centre.circuits) - 1)}
    for line in lines[:-1]:
        missing[int(line.split()[1])] |= numbers_of(line)
    requests = {}
    for circuit in missing:
        path = os.path.join(folder, f'circuit.{circuit:02}.out')
        if os.path.exists(path):
            with open(path, 'rb') as file:
                requests[circuit] = text_of(messages_of(file.read())[0][0])[0]
    return missing, requests
