"""The directory of a hub: who is joined to it, where, and who gets what."""
import os
import random
import re
import socket

from journal import Directory

CENTRE = 'TBPB'
CIRCUITS = 60
SHORT = ['SM', 'SI', 'SN', 'SA', 'SP', 'FT', 'FC', 'US', 'UE', 'SH']
LONG = ['FA', 'FP', 'NO', 'SX', 'CS', 'FB']
BINARY = ['IS', 'IU', 'HT', 'HP']
WARNING, TSUNAMI = 'WW', 'WE'
TSUNAMI_LEVEL, OBSERVATION = 1, 3
LEVELS = [('WE', TSUNAMI_LEVEL), ('W*', 2), ('I*', 4), ('H*', 4)]
# To how many circuits a rule leads what comes of a country, and of a kind. Together they name ten or so.
BY_COUNTRY, BY_KIND, BY_WARNING = 6, 5, 20
# Every so many circuits has numbers of three digits; the others have five.
SHORT_NUMBERS = 4
# What a number of so many digits comes round at.
ROUND = {3: 1_000, 5: 100_000}


class Size:
    """How much a hub remembers: the bytes of its journal, among how many bulletins it looks for duplicates, and how many draws it keeps
    on a circuit with numbers of so many digits."""

    def __init__(self, limit, window, kept):
        self.limit, self.window, self.kept = limit, window, kept


# For a run in which nobody is away for long, and for one of many days: all of it is read and written at each start. What has to be
# kept takes half of the limit at most, or each few bulletins the journal is full again.
SMALL = Size(1 << 27, 1_000, {3: 200, 5: 250})
LARGE = Size(1 << 28, 2_000, {3: 500, 5: 1_000})
LARGEST_LIMIT = 1 << 30


def country(circuit):
    """The two letters of the country whose bulletins a circuit brings."""
    return chr(65 + circuit // 26) + chr(65 + circuit % 26)


def peer(circuit):
    return country(circuit) + 'HQ'


def addresses(count):
    """So many addresses of this machine that no other call of a script takes while this one lives."""
    net = f'127.{64 + os.getpid() // 250 % 160}.{os.getpid() % 250 + 1}'
    return [f'{net}.{place + 1}' for place in range(count)]


def ports_at(address, count):
    """Ports on which nobody listens at an address, below the range from which the system picks its own."""
    found, port = [], 10_000 + os.getpid() % 10_000
    while len(found) < count:
        port += 1
        try:
            socket.create_server((address, port)).close()
        except OSError:
            continue
        found.append(port)
    return found


def idle_rules(count, circuits):
    """So many rules that no bulletin of a hub fits."""
    return [(f'ZZ{country(place % CIRCUITS)}{place // CIRCUITS:02} ****', [place % circuits]) for place in range(count)]


def rules_of(seed, circuits):
    """Pairs of a pattern and the circuits that it names."""
    chance, every = random.Random(seed), range(circuits)
    rules = [(f'{TSUNAMI}**** ****', list(every)), (f'{WARNING}**** ****', chance.sample(every, min(circuits, BY_WARNING)))]
    for count, patterns in ((BY_COUNTRY, [f'**{country(place)}** ****' for place in range(CIRCUITS)]),
                            (BY_KIND, [f'{kind}**** ****' for kind in SHORT + LONG + BINARY])):
        rules += [(pattern, chance.sample(every, min(circuits, count))) for pattern in patterns]
    return rules


class HubDirectory(Directory):
    """A directory whose circuits have addresses and numbers of their own."""

    def __init__(self, rules, size, net, ports, repeat=1, closed=()):
        count = len(ports)
        super().__init__(CENTRE, size.window, size.limit, [f'C{place:02}' for place in range(count)],
                         [peer(place) for place in range(count)], rules, LEVELS, ports=ports, closed=closed)
        self.size, self.net, self.repeat = size, net, repeat
        self.fits = [re.compile(pattern.replace('*', '.').encode()).fullmatch for pattern, _ in rules]
        self.found = {}

    def digits(self, circuit):
        return 3 if circuit % SHORT_NUMBERS == SHORT_NUMBERS - 1 else 5

    def kept_of(self, circuit):
        return self.size.kept[self.digits(circuit)]

    def host(self, circuit):
        return self.net[circuit + 1]

    def row(self, circuit):
        rows = ['[[circuit]]', f'name = "{self.names[circuit]}"', f'peer = "{self.peers[circuit]}"']
        rows += [f'digits = {self.digits(circuit)}', f'kept = {self.kept_of(circuit)}']
        rows += ['closed = true'] if circuit in self.closed else []
        rows += [f'repeat = {self.repeat}'] if self.repeat > 1 else []
        rows += [f'input = {self.ports[circuit][0]}', f'output = {self.ports[circuit][1]}']
        return [*rows, f'host = "{self.host(circuit)}"']

    def text(self):
        rows = [f'centre = "{self.centre}"', f'window = {self.window}', f'limit = {self.limit}', f'address = "{self.net[0]}"']
        for circuit in range(len(self.names)):
            rows += self.row(circuit)
        for pattern, to in self.rules:
            rows += ['[[rule]]', f'heading = "{pattern}"', f'to = {[self.names[circuit] for circuit in to]}'.replace("'", '"')]
        for letters, level in self.levels:
            rows += ['[[level]]', f'tt = "{letters}"', f'level = {level}']
        return '\n'.join(rows).encode() + b'\n'

    def with_rules(self, rules, ports=None, closed=None):
        """The same hub under other rules, with a circuit for each pair of these ports, and these circuits closed."""
        return HubDirectory(rules, self.size, self.net, ports or self.ports, self.repeat, self.closed if closed is None else closed)

    def goes_to(self, circuit, heading):
        """The circuits that a bulletin goes to which came in on this one. What its front fits is looked up once, rule by rule."""
        front = heading[:11]
        if front not in self.found:
            self.found[front] = sorted({to for fits, (_, tos) in zip(self.fits, self.rules) if fits(front) for to in tos})
        return [to for to in self.found[front] if to != circuit and self.peers[to] != self.peers[circuit]]

    def level(self, heading):
        """The level of a heading. What its two letters fit is looked up once, row by row."""
        letters = heading[:2]
        if letters not in self.found:
            self.found[letters] = next((level for wanted, level in self.levels if all(want in ('*', have) for want, have
                                        in zip(wanted, letters.decode()))), OBSERVATION)
        return self.found[letters]
