"""A run of a hub: what comes is sent, and all that is said and sent is judged as it comes. What happens to the hub meanwhile is
bench/year's."""
import hashlib
import time
from collections import Counter

from hub.directory import OBSERVATION
from hub.measures import Measures
from hub.neighbours import Neighbour, Neighbours
from hub.reference import IN_DOUBT, Lost, Reference
from hub.traffic import REQUEST, Traffic, request

# Behind what came at once it goes on once so few messages wait for receipts, and so few frames are still to come.
WAITING, BEHIND = 32, 600
# How many numbers a neighbour asks for at once.
NUMBERS = 200
# From this serial number on are the bulletins that come beside those of the seed.
BESIDE = 90_000_000


class Run:
    """A switch, its neighbours, and the reference. `words` are those of the call: `seed`, `messages`, `rate`, `patience`, `csv`,
    `note`, `every` and `broken`, which is what is wrong on purpose."""

    def __init__(self, words, station, directory):
        self.words, self.messages = words, words.messages
        self.station, self.directory = station, directory
        # What comes beside, when it is wanted, so that the others are the same at each run; and a digest of the others.
        self.traffic, self.beside, self.digest = Traffic(words.seed), Traffic(words.seed + 1, BESIDE), hashlib.sha256()
        self.lines = Neighbours()
        self.reference = Reference(directory, self.level, self.lines.is_handed)
        self.measures = Measures(words.csv, words.every, words.note)
        self.number, self.place, self.time_of_day = 0, (0, 0), b'010000'
        self.counts, self.begun = Counter(), time.monotonic()
        self.withheld = None
        self.adds_lines()

    def level(self, heading):
        """The level of a heading; with the fault `warning` a warning has that of an observation."""
        level = self.directory.level(heading)
        return max(OBSERVATION, level) if self.words.broken == 'warning' else level

    def close(self):
        self.station.stop()
        self.lines.close()

    # What is said and sent is judged.

    def looks(self, seconds=0.002):
        """Serves the lines once, and judges what came. Receipts are read behind the frames' bytes, since they are said before."""
        self.lines.serves(seconds)
        self.judges()
        if self.measures.is_due():
            self.station.looks_at_the_standby()
            if self.station.is_compacted():
                self.counts['compactions of its own'] += 1
            self.sample()

    def sample(self):
        self.measures.sample(self.place, self.number, self.reference, self.station, self.station.run)

    def judges(self):
        """What came is judged behind the receipts that had been said until then. More may come meanwhile."""
        pieces, self.lines.pieces = self.lines.pieces, []
        for line in self.station.receipts():
            if self.words.broken == 'receipt' and self.reference.accepted == self.messages // 4:
                self.words.broken = None
                continue
            self.reference.receipt(line)
            self.lines.moved += 1
        for circuit, now, found in pieces:
            of = iter(found)
            for front, key in zip(of, of):
                self.frame(self.lines.lines[circuit], front, key, now)

    def frame(self, line, front, key, now):
        if self.words.broken == 'frame' and self.is_withheld(line, front, key):
            return
        bulletin = self.reference.frame(line.circuit, front, key)
        if bulletin is not None and bulletin.sent_at > line.since:
            self.measures.times[bulletin.level].append(now - bulletin.sent_at)

    def is_withheld(self, line, front, key):
        """With the fault `frame` one frame of a circuit is dropped here each time that it comes."""
        if line.circuit != 1:
            return False
        if self.withheld is None and self.number > self.messages // 2:
            self.withheld = front, key
        return (front, key) == self.withheld

    # What is waited for.

    def is_there(self, line):
        return line.is_present and line.reads

    def state(self):
        """How many messages wait for receipts, and how many frames are still to come to neighbours that are there."""
        waiting = behind = 0
        for line, ledger in zip(self.lines.lines, self.reference.ledgers):
            if line.is_present and line.reads:
                waiting += len(line.sent) + len(line.queue)
                behind += ledger.behind
        return waiting, behind

    def awaits(self, what, holds):
        """Looks until it holds. Nothing moving for a while is a loss."""
        moved, since = self.lines.moved, time.monotonic()
        while not holds():
            self.looks()
            self.asks_for_holes()
            # It may be the end that is waited for.
            if self.station.process.poll() is not None and not holds():
                raise Lost(f'the switch ended with {self.station.process.returncode}: {self.station.says()!r}')
            if self.lines.moved != moved:
                moved, since = self.lines.moved, time.monotonic()
            elif time.monotonic() - since > self.words.patience:
                raise Lost(f'{what}: nothing has moved for {self.words.patience} seconds; {self.lacking()}')

    def lacking(self):
        """What is still to come."""
        rows = []
        for line in self.lines.lines:
            ledger = self.reference.ledgers[line.circuit]
            found = {'receipts': len(line.sent), 'to send': len(line.queue), 'frames': ledger.behind,
                     'holes': sorted(ledger.holes)[:5], 'asked for': sorted(ledger.wanted)[:5],
                     'to ask for': sorted(ledger.again)[:5]}
            if self.is_there(line) and any(found.values()):
                rows.append(f'{ledger.name}: {({name: value for name, value in found.items() if value})}')
        return '; '.join(rows[:3]) or 'nothing lacks'

    def settles(self, what):
        def holds():
            waiting, behind = self.state()
            return waiting <= WAITING and behind <= BEHIND
        self.awaits(what, holds)

    def is_done(self):
        """Whether each message has its receipt, each bulletin has come everywhere, and all that was asked for has come."""
        lack = any(ledger.holes or ledger.wanted or ledger.again for ledger in self.reference.ledgers)
        return self.state() == (0, 0) and not lack

    # Requests.

    def asks_for_holes(self):
        """Each neighbour asks for the numbers that it lacks, unless it has asked."""
        for line, ledger in zip(self.lines.lines, self.reference.ledgers):
            if not (ledger.holes or ledger.again) or not self.is_there(line) or not line.has_called:
                continue
            if any(message.kind == REQUEST for message in (*line.queue, *line.sent)):
                continue
            lacking = sorted((ledger.holes | ledger.again) - ledger.wanted)
            if lacking:
                self.asks(line, ledger, lacking[:NUMBERS])
                self.counts['numbers asked for that lacked'] += len(lacking[:NUMBERS])

    def asks(self, line, ledger, indices, missing=()):
        items = [ledger.number_of(index) for index in indices] + list(missing)
        self.lines.puts(line, request(self.directory.peers[line.circuit], self.time_of_day, b'SQN ' + '/'.join(items).encode(),
                                      indices, len(missing)))
        self.counts['requests'] += 1

    # What comes.

    def adds_lines(self):
        for circuit in range(len(self.lines.lines), len(self.directory.names)):
            self.lines.add(Neighbour(circuit, self.reference.sent[circuit]), self.directory.host(circuit), self.directory.net[0],
                           self.directory.ports[circuit], self.directory.digits(circuit))

    def goes_to(self, circuit):
        """The line over which a message of this country comes: another one where it has none, or where that is closed."""
        place = circuit % len(self.lines.lines)
        while place in self.directory.closed:
            place = (place + 1) % len(self.lines.lines)
        return self.lines.lines[place]

    def sends(self, minutes):
        """The next message of this hour comes, at its first minute or at some other."""
        self.time_of_day = self.traffic.time_of_day(*self.place, minutes)
        circuit, message = self.traffic.message(self.number, self.time_of_day)
        self.digest.update(message.body)
        self.lines.puts(self.goes_to(circuit), message)
        self.counts[message.kind] += 1
        self.number += 1
        self.keeps_to_the_rate()

    def keeps_to_the_rate(self):
        while self.words.rate and self.number > self.words.rate * (time.monotonic() - self.begun):
            self.looks(0.001)
            self.asks_for_holes()

    # Behind an end of the switch.

    def looks_back(self):
        """The switch is gone: what it said and sent is judged to its end, and what its journal has is what was said, but for one
        bulletin at most that it had no time to acknowledge."""
        self.lines.drains()
        self.judges()
        accepted, bulletins, draws = self.station.reads(self.reference.accepted)
        if 0 < accepted - self.reference.accepted <= IN_DOUBT:
            for position in range(self.reference.accepted, accepted):
                self.reference.is_unsaid(*bulletins[position])
        if accepted != self.reference.accepted:
            raise Lost(f'{accepted} are accepted behind an end, and {self.reference.accepted} were acknowledged')
        self.lines.hangs_up()
        for circuit, ledger in enumerate(self.reference.ledgers):
            had = draws.get(circuit, 0)
            if had < ledger.top:
                ledger.lost(f'behind an end it has {had} draws, and {ledger.number_of(ledger.top - 1)} has come')
            ledger.opened(had, self.reference.accepted)
