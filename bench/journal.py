"""A plain reading of docs/FORMATS.md, for scripts: what the files of a journal open to, what of them is shipped, what becomes of a feed
that a standby follows, and what another directory takes over of them. Python's standard library alone; it knows no index, queue or
window of digests. How long a body may be it reads in the sources (bench/limits.py)."""
import hashlib
import re

from limits import limit

EOL = b'\r\r\n'
MAGIC, OLDER = b'GTSJ0002', b'GTSJ0001'
OPEN, CLOSED = 0x4F, 0x43
HEADER = 40
# How many bytes a seal has; and how many a draw takes with its gate, and with its seal where there are seals.
SEAL = 32
UNSEALED_DRAW = 24
DRAW_BYTES = UNSEALED_DRAW + SEAL
LONGEST_BODY = limit('LONGEST_BODY')
KINDS = {b'A': b'AN', b'B': b'BI', b'F': b'FX'}
BODY = re.compile(rb'([A-Z]{4}[0-9]{2} [A-Z]{4} (?:0[1-9]|[12][0-9]|3[01])(?:[01][0-9]|2[0-3])[0-5][0-9])'
                  rb'( (?:RR|CC|AA|P[A-Z])[A-Z])? ?\r\r\n(.*)\r\r\n\x03', re.DOTALL)


class Wrong(Exception):
    """The journal can't be opened: the line that says so."""


class Cut(Exception):
    """A record isn't whole, or its seal isn't."""


class Bad(Exception):
    """No record has these bytes, or none has them here."""


class Feed(Exception):
    """A feed isn't taken to its end: the exit status, and the line."""

    def __init__(self, status, line):
        super().__init__(line)
        self.status, self.line = status, line


def fits(text, pattern):
    return all(want in ('*', letter) for letter, want in zip(text, pattern))


def number(piece):
    return int.from_bytes(piece, 'big')


def sealed(seal, record):
    return hashlib.sha256(seal + record).digest()


def frame_of(kind, count, body, digits=3):
    message = b'\x01' + EOL + b'%0*d' % (digits, count) + EOL + body
    return b'%08d' % len(message) + kind + message


class Directory:
    """A directory as its file says it. Rules are pairs of a pattern and the places of circuits, levels pairs of a pattern of two
    letters and a level, ports pairs of `input` and `output`; `five` are the circuits with numbers of five digits. Each row has the
    same `repeat`, which isn't written where it is 1."""

    def __init__(self, centre, window, limit, names, peers, rules, levels=(), kept=1000, ports=None, five=(), closed=(), repeat=1):
        self.centre, self.window, self.limit, self.kept, self.repeat = centre, window, limit, kept, repeat
        self.names, self.peers, self.rules, self.levels, self.ports = names, peers, rules, levels, ports
        self.five, self.closed = set(five), set(closed)

    def text(self):
        rows = [f'centre = "{self.centre}"', f'window = {self.window}', f'limit = {self.limit}']
        for place, (name, peer) in enumerate(zip(self.names, self.peers)):
            rows += ['[[circuit]]', f'name = "{name}"', f'peer = "{peer}"', f'kept = {self.kept}']
            rows += [f'repeat = {self.repeat}'] if self.repeat > 1 else []
            rows += [f'input = {self.ports[place][0]}', f'output = {self.ports[place][1]}'] if self.ports else []
            rows += ['digits = 5'] if place in self.five else []
            rows += ['closed = true'] if place in self.closed else []
        for pattern, to in self.rules:
            names = ', '.join(f'"{self.names[circuit]}"' for circuit in to)
            rows += ['[[rule]]', f'heading = "{pattern}"', f'to = [{names}]']
        for letters, level in self.levels:
            rows += ['[[level]]', f'tt = "{letters}"', f'level = {level}']
        return '\n'.join(rows).encode() + b'\n'

    def number(self, circuit, draws):
        """The number of the last of so many draws, in how many digits."""
        digits = 5 if circuit in self.five else 3
        return draws % 10 ** digits, digits

    def mark(self):
        return hashlib.sha256(self.text()).digest()

    def header(self):
        return MAGIC + self.mark()

    def named(self, circuit, heading):
        """The circuits that a bulletin goes to which came in on this one."""
        found = {to for pattern, tos in self.rules if fits(heading, pattern) for to in tos}
        return [to for to in sorted(found) if to != circuit and self.peers[to] != self.peers[circuit]]

    def is_request(self, heading):
        return heading.startswith(b'BMRR') and heading[7:11] == self.centre.encode()


class Bulletin:
    """A bulletin that was accepted: the circuit that it came in on, the letter of its type, and its body."""

    def __init__(self, circuit, kind, body, fields):
        self.circuit, self.kind, self.body = circuit, kind, body
        self.heading, self.group, self.text = fields[1], fields[2] or b'', fields[3]

    def same(self, other):
        return (self.heading, self.group, self.text) == (other.heading, other.group, other.text)


class State:
    """What the records of a journal come to. Behind a checkpoint that is what the checkpoint still has, and the rest."""

    def __init__(self, directory):
        self.directory = directory
        self.accepted = 0
        # Bulletins by their positions; for each circuit how many draws went before those that are known, and the positions of these.
        self.bulletins = {}
        self.before = [0] * len(directory.names)
        self.drawn = [[] for _ in directory.names]
        self.waiting = [[] for _ in directory.names]

    def recent(self):
        """Those of the last bulletins that were accepted, as many as the window has, that are known."""
        places = range(max(0, self.accepted - self.directory.window), self.accepted)
        return [self.bulletins[position] for position in places if position in self.bulletins]

    def came(self, circuit):
        """How many bulletins came to a circuit: those that were drawn, and those that wait."""
        return self.draws(circuit) + len(self.waiting[circuit])

    def draws(self, circuit):
        return self.before[circuit] + len(self.drawn[circuit])

    def level(self, position):
        heading = self.bulletins[position].heading.decode()
        return next((level for letters, level in self.directory.levels if fits(heading, letters)), 3)

    def next(self, circuit):
        """The position that is drawn next on a circuit, if any."""
        return min(self.waiting[circuit], key=lambda position: (self.level(position), position), default=None)

    def accept(self, circuit, kind, body):
        """Whether this body is a bulletin that may be accepted now; it is then."""
        fields = BODY.fullmatch(body)
        if fields is None or self.directory.is_request(fields[1]):
            return False
        bulletin = Bulletin(circuit, kind, body, fields)
        if any(bulletin.same(other) for other in self.recent()):
            return False
        for to in self.directory.named(circuit, bulletin.heading.decode()):
            self.waiting[to].append(self.accepted)
        self.bulletins[self.accepted] = bulletin
        self.accepted += 1
        return True

    def draw(self, circuit):
        position = self.next(circuit)
        self.waiting[circuit].remove(position)
        self.drawn[circuit].append(position)

    def due(self):
        return sum(map(len, self.waiting))

    def frame(self, circuit, index):
        bulletin = self.bulletins[self.drawn[circuit][index - self.before[circuit]]]
        count, digits = self.directory.number(circuit, index + 1)
        return frame_of(KINDS[bulletin.kind], count, bulletin.body, digits)

    def drained(self, circuit):
        """What comes on a circuit behind an opening: its last draw once more, and all that waits."""
        first = self.draws(circuit) - min(1, len(self.drawn[circuit]))
        while self.waiting[circuit]:
            self.draw(circuit)
        return b''.join(self.frame(circuit, index) for index in range(first, self.draws(circuit)))

    def segments(self):
        """The lines of the sets of segments among the recent bulletins."""
        sets = {}
        for bulletin in self.recent():
            if bulletin.group.startswith(b' P'):
                sets.setdefault(bulletin.heading, set()).add(bulletin.group[1:])
        for heading in sorted(sets):
            places = sorted((group[1] - 65) * 26 + group[2] - 65 for group in sets[heading] if group[1:2] != b'Z')
            ends = [group[2] - 65 for group in sets[heading] if group[1:2] == b'Z']
            whole = places == list(range(len(places))) and ends == [len(places) % 26]
            yield f'segments {heading.decode()} {"complete" if whole else "partial"} {len(sets[heading])}'

    def report(self, used):
        """What `show` says, with so many bytes of the journal in use."""
        lines = [f'accepted {self.accepted}']
        for circuit, name in enumerate(self.directory.names):
            draws = self.draws(circuit)
            count, digits = self.directory.number(circuit, draws)
            last = f'{count:0{digits}}' if draws else '-'
            lines.append(f'circuit {circuit:02} {name} draws {draws} waiting {len(self.waiting[circuit])} last {last}')
        journal = f'journal used {used} limit {self.directory.limit}'
        return '\n'.join([*lines, *self.segments(), journal, 'end']).encode() + b'\n'


# Records. A record has a size by its bytes alone, and may stand somewhere by the state.

def padded(front, rest):
    """What a front would be with the least that may stand behind it."""
    return front + rest[len(front):]


def size_of_accept(record):
    """The size of the record of an accepted bulletin that begins so, as far as it is there."""
    head = padded(record[:16], b'A\0A' + bytes(13))
    length = number(head[12:16])
    if head[2:3] not in KINDS or head[3] != 0 or length > LONGEST_BODY:
        raise Bad
    return 16 + length


def size_of_draw(record):
    if any(record[2:7]):
        raise Bad
    return 23


def size_of_record(record):
    """The size of the record that begins so; `Bad` where no record does, whatever stands before it."""
    sizes = {b'': lambda _: 16, b'A': size_of_accept, b'D': size_of_draw}
    if record[:1] not in sizes:
        raise Bad
    return sizes[record[:1]](record)


def size_of_checkpoint(record, limit):
    """The size of the checkpoint that begins so; `Cut` where that isn't told yet."""
    def behind(at, size):
        if at + size > limit:
            raise Bad
        if at + size > len(record):
            raise Cut
        return at + size
    head = padded(record[:20], b'C' + bytes(19))
    if head[:4] != b'C\0\0\0':
        raise Bad
    at = behind(0, 20)
    for _ in range(number(head[16:20])):
        bulletin = padded(record[at:at + 16], bytes(9) + b'A' + bytes(6))
        length = number(bulletin[12:16])
        if bulletin[9:10] not in KINDS or any(bulletin[10:12]) or length > LONGEST_BODY:
            raise Bad
        at = behind(at, 16 + length)
    for _ in range(number(head[4:8])):
        circuit = padded(record[at:at + 16], bytes(16))
        at = behind(at, 16 + 8 * (number(circuit[8:12]) + number(circuit[12:16])))
    return at


def admit_accept(state, record):
    circuit, position = record[1], number(record[4:12])
    if circuit >= len(state.directory.names) or position != state.accepted:
        raise Bad
    if not state.accept(circuit, record[2:3], record[16:]):
        raise Bad


def admit_draw(state, record):
    circuit, position, index = record[1], number(record[7:15]), number(record[15:23])
    if circuit >= len(state.directory.names) or index != state.draws(circuit) or position != state.next(circuit):
        raise Bad
    state.draw(circuit)


def admit(state, record, gate, seal_size=SEAL):
    """Takes a whole record behind the gate at a place into the state; `Bad` where it may not stand there."""
    (admit_accept if record[:1] == b'A' else admit_draw)(state, record)
    if not has_room(state, record, gate, seal_size):
        raise Bad


def has_room(state, record, gate, seal_size):
    """Whether behind a record, its seal and the next gate there is room for what is due."""
    return gate + 2 + len(record) + seal_size + (UNSEALED_DRAW + seal_size) * state.due() <= state.directory.limit


class Cursor:
    """Numbers and pieces of a checkpoint, one behind the other."""

    def __init__(self, record):
        self.record, self.at = record, 0

    def piece(self, size):
        self.at += size
        return self.record[self.at - size:self.at]

    def number(self, size):
        return number(self.piece(size))


def ascends(positions):
    return all(one < other for one, other in zip(positions, positions[1:]))


def bulletin_of(state, cursor):
    """The position and the bulletin that stand there in a checkpoint."""
    position, circuit, kind, _zeros = cursor.number(8), cursor.number(1), cursor.piece(1), cursor.piece(2)
    body = cursor.piece(cursor.number(4))
    fields = BODY.fullmatch(body)
    if circuit >= len(state.directory.names) or position >= state.accepted or fields is None or state.directory.is_request(fields[1]):
        raise Bad
    return position, Bulletin(circuit, kind, body, fields)


def read_circuit(state, circuit, cursor):
    """Takes what a checkpoint says of a circuit into the state."""
    draws, waiting, kept = cursor.number(8), cursor.number(4), cursor.number(4)
    waits, keeps = ([cursor.number(8) for _ in range(count)] for count in (waiting, kept))
    is_there = all(position in state.bulletins for position in waits + keeps)
    if not is_there or not ascends(waits) or len(set(waits + keeps)) < waiting + kept:
        raise Bad
    if draws + waiting > state.accepted or kept > min(draws, state.directory.kept):
        raise Bad
    state.before[circuit], state.drawn[circuit], state.waiting[circuit] = draws - kept, keeps, waits


def state_of_checkpoint(directory, record, seal_size=SEAL):
    """What a whole checkpoint stands for; `Bad` where it breaks a rule."""
    state, cursor = State(directory), Cursor(record)
    cursor.piece(4)
    circuits, state.accepted, count = cursor.number(4), cursor.number(8), cursor.number(4)
    rows = [bulletin_of(state, cursor) for _ in range(count)]
    if circuits != len(directory.names) or state.accepted > 2 ** 62 or not ascends([position for position, _ in rows]):
        raise Bad
    state.bulletins = dict(rows)
    for circuit in range(circuits):
        read_circuit(state, circuit, cursor)
    recent = set(range(max(0, state.accepted - directory.window), state.accepted))
    listed = {position for lists in (state.waiting, state.drawn) for positions in lists for position in positions}
    if not set(state.bulletins) <= recent | listed:
        raise Bad
    if not has_room(state, record, HEADER, seal_size):
        raise Bad
    return state


# Journals.

class Journal:
    """What the files of a journal open to; `Wrong` where they don't. One of version 1, which has no seals, opens only where it is
    said that an older one is read too, as by `migrate`."""

    def __init__(self, directory, files, reads_older=False):
        self.directory, self.files = directory, files
        self.selected = 1 if files[2][:1] == b'\x01' else 0
        self.file = files[self.selected]
        self.magic, self.seal_size = (OLDER, 0) if reads_older and self.file.startswith(OLDER) else (MAGIC, SEAL)
        self.state = State(directory)
        # The records and their seals, behind the seal that stands for the header, and the place of the closed gate.
        self.records, self.seals, self.gate = [], [sealed(b'', self.file[:HEADER])], HEADER
        self.begins()
        while self.file[self.gate:self.gate + 1] == bytes([OPEN]):
            try:
                self.goes_on()
            except (Cut, Bad):
                raise Wrong(f'journal: file {self.selected} damaged at {self.gate + 1}') from None
        if self.gate >= len(self.file):
            raise Wrong(f'journal: file {self.selected} damaged at {self.gate}')

    def begins(self):
        if not self.file:
            raise Wrong('journal: none')
        if self.magic == MAGIC and self.file.startswith(OLDER):
            raise Wrong('journal: version 1')
        for place, byte in enumerate(self.magic):
            if self.file[place:place + 1] != bytes([byte]):
                raise Wrong(f'journal: file {self.selected} damaged at {place}')
        if len(self.file) < HEADER:
            raise Wrong(f'journal: file {self.selected} damaged at {len(self.file)}')
        mark = self.directory.mark()
        if self.file[8:HEADER] != mark:
            raise Wrong(f'journal: of directory {self.file[8:HEADER].hex()}, want {mark.hex()}')

    def goes_on(self):
        """One record more."""
        bytes_left = self.file[self.gate + 1:]
        record, seal = piece_of(self.directory, bytes_left, self.seals[-1], self.gate == HEADER, self.seal_size)
        self.state = taken(self.state, record, self.gate, self.seal_size)
        self.note(record, seal)

    def note(self, record, seal):
        self.records.append(record)
        self.seals.append(seal)
        self.gate += 1 + len(record) + self.seal_size

    def report(self):
        """What `show` says of it."""
        return self.state.report(self.gate + 1)

    def since(self, used, seal):
        """What is shipped of it behind so many bytes with this seal; all, where no gate is there with that seal before it."""
        gate, packed = HEADER, bool(self.records) and self.records[0][:1] == b'C'
        for count in range(len(self.records) + 1):
            if gate == used - 1 and self.seals[count] == seal and not (packed and count == 0):
                return b''.join(record + last for record, last in zip(self.records[count:], self.seals[count + 1:]))
            if count < len(self.records):
                gate += 1 + len(self.records[count]) + SEAL
        return self.feed()

    def feed(self):
        """What is shipped of it."""
        return self.file[:HEADER] + b''.join(record + seal for record, seal in zip(self.records, self.seals[1:]))


def piece_of(directory, bytes_left, seal, is_first, seal_size=SEAL):
    """The record at the front, and its seal, where this seal stands before it. `Cut` where it isn't whole with its seal; `Bad`
    where no record begins so, or another seal stands behind it."""
    is_checkpoint = is_first and bytes_left[:1] == b'C'
    size = size_of_checkpoint(bytes_left, directory.limit) if is_checkpoint else size_of_record(bytes_left)
    if len(bytes_left) < size + seal_size:
        raise Cut
    record = bytes_left[:size]
    seal = sealed(seal, record)[:seal_size]
    if bytes_left[size:size + seal_size] != seal:
        raise Bad
    return record, seal


def taken(state, record, gate, seal_size=SEAL):
    """The state behind a whole record, which stands behind the gate at a place; `Bad` where it may not stand there."""
    if record[:1] == b'C':
        return state_of_checkpoint(state.directory, record, seal_size)
    admit(state, record, gate, seal_size)
    return state


# Feeds.

class Following:
    """A feed that is taken into a journal: what the files become, and how it ends."""

    def __init__(self, directory, files, feed):
        self.journal = Journal(directory, files)
        self.own = list(self.journal.seals[1:])
        self.files = list(files)
        self.status, self.line = 0, ''
        try:
            self.compare_headers(feed)
            self.take_records(directory, feed)
        except Cut:
            pass
        except Feed as end:
            self.status, self.line = end.status, end.line

    def compare_headers(self, feed):
        for place, (own, fed) in enumerate(zip(self.journal.file[:HEADER], feed)):
            if own != fed:
                raise Feed(14, f'feed: bad at {place}')
        if len(feed) < HEADER:
            raise Cut

    def take_records(self, directory, feed):
        at, index, seal = HEADER, 0, self.journal.seals[0]
        while at < len(feed):
            try:
                record, seal = piece_of(directory, feed[at:], seal, index == 0)
                if index == 0 and self.may_begin_anew(record, seal):
                    self.begin_anew()
                if index >= len(self.own):
                    self.add(record, seal)
            except Bad:
                raise Feed(14, f'feed: bad at {at}') from None
            if index < len(self.own) and seal != self.own[index]:
                raise Feed(15, f'feed: other from record {index}')
            at, index = at + len(record) + SEAL, index + 1

    def may_begin_anew(self, record, seal):
        """Whether record 0 of the feed is another one, and a checkpoint that isn't behind what the journal has come to."""
        if not self.own or seal == self.own[0] or record[:1] != b'C':
            return False
        try:
            fed = state_of_checkpoint(self.journal.directory, record)
        except Bad:
            return False
        own = self.journal.state
        return fed.accepted >= own.accepted and all(
            fed.draws(circuit) >= own.draws(circuit) and fed.came(circuit) >= own.came(circuit)
            for circuit in range(len(self.journal.directory.names)))

    def begin_anew(self):
        """The journal has no record, and the next one goes into the other file."""
        self.own = []
        self.journal.records, self.journal.seals, self.journal.gate = [], self.journal.seals[:1], HEADER

    def add(self, record, seal):
        """One record more in the journal: a checkpoint in the other file, which is then selected."""
        journal = self.journal
        journal.state = taken(journal.state, record, journal.gate)
        if record[:1] == b'C':
            journal.selected = 1 - journal.selected
            self.files[journal.selected] = journal.file[:HEADER] + bytes([CLOSED])
            self.files[2] = bytes([journal.selected]) + self.files[2][1:]
        file, gate = self.files[journal.selected], journal.gate
        behind = bytes([OPEN]) + record + seal + bytes([CLOSED])
        self.files[journal.selected] = file[:gate] + behind + file[gate + len(behind):]
        journal.note(record, seal)


# Another directory.

def brought(old, new, state):
    """What a state under the old directory comes to under a new one that takes over from it; what waits on closed circuits is let
    go."""
    found = State(new)
    found.accepted = state.accepted
    for circuit in range(len(old.names)):
        is_kept = (circuit in old.five) == (circuit in new.five)
        found.drawn[circuit] = state.drawn[circuit][-new.kept:] if is_kept else []
        found.before[circuit] = state.draws(circuit) - len(found.drawn[circuit])
        found.waiting[circuit] = [] if circuit in new.closed else sorted(state.waiting[circuit])
    # Of what was needed under the old directory, what is needed under the new one.
    needed = needed_of(old, state, state.waiting, kept_of(old, state)) & needed_of(new, state, found.waiting, found.drawn)
    found.bulletins = {position: bulletin for position, bulletin in state.bulletins.items() if position in needed}
    return found


def kept_of(directory, state):
    """The draws of each circuit that may be asked for."""
    return [drawn[-directory.kept:] for drawn in state.drawn]


def needed_of(directory, state, waiting, kept):
    """The positions of the last bulletins, as many as the window has, of those that wait, and of the kept draws."""
    listed = {position for lists in (waiting, kept) for positions in lists for position in positions}
    return listed | set(range(max(0, state.accepted - directory.window), state.accepted))


def checkpoint_of(state):
    """The record of a checkpoint that stands for a state."""
    def numbers(size, *values):
        return b''.join(value.to_bytes(size, 'big') for value in values)
    circuits = range(len(state.directory.names))
    text = b'C\0\0\0' + numbers(4, len(circuits)) + numbers(8, state.accepted) + numbers(4, len(state.bulletins))
    for position, bulletin in sorted(state.bulletins.items()):
        text += numbers(8, position) + bytes([bulletin.circuit]) + bulletin.kind + bytes(2)
        text += numbers(4, len(bulletin.body)) + bulletin.body
    for circuit in circuits:
        waits, keeps = state.waiting[circuit], state.drawn[circuit]
        text += numbers(8, state.draws(circuit)) + numbers(4, len(waits), len(keeps)) + numbers(8, *waits, *keeps)
    return text


def rule_lines(word, directory, other):
    """The rules of a directory that another one doesn't have."""
    others = {(pattern, frozenset(to)) for pattern, to in other.rules}
    for pattern, to in directory.rules:
        if (pattern, frozenset(to)) not in others:
            yield ' '.join([f'rule {word} {pattern} to', *(directory.names[circuit] for circuit in sorted(to))])


class TakingOver:
    """A journal, of either version, that is taken over under another directory: what its files become, how `migrate` ends, its line,
    and what it says. With `drops` it is `migrate drop`. `report` is what `migrate check` says; where that says nothing, it ends as
    `migrate` does."""

    def __init__(self, old, new, files, drops=False):
        self.old, self.new = old, new
        self.status, self.line, self.said, self.report, self.files = 0, '', b'', b'', list(files)
        try:
            self.journal = Journal(old, files, reads_older=True)
        except Wrong as wrong:
            self.status, self.line = 5, str(wrong)
            return
        self.before, self.behind = self.journal.state, brought(old, new, self.journal.state)
        self.record = checkpoint_of(self.behind)
        self.report = '\n'.join([*self.changes(), 'end', '']).encode()
        row = self.first_waiting()
        if row is not None and not drops:
            self.status, self.line = 3, f'directory: closed in circuit row {row}, {len(self.before.waiting[row])} wait'
        elif self.is_full():
            self.status, self.line = 9, f'journal: full, {self.room()}'
        else:
            self.said = '\n'.join([*self.dropped(), '']).encode()
            self.writes()

    def closed(self):
        """The circuits of the old directory that are closed in the new one."""
        return [circuit for circuit in range(len(self.old.names)) if circuit in self.new.closed]

    def first_waiting(self):
        return next((circuit for circuit in self.closed() if self.before.waiting[circuit]), None)

    def need(self):
        return len(self.record) + SEAL + DRAW_BYTES * self.behind.due()

    def is_full(self):
        return HEADER + 2 + self.need() > self.new.limit

    def room(self):
        return f'used {HEADER + 2} need {self.need()} limit {self.new.limit}'

    def dropped(self):
        """A receipt for each bulletin that waits on a closed circuit."""
        for circuit in self.closed():
            for position in sorted(self.before.waiting[circuit]):
                bulletin = self.before.bulletins[position]
                yield f'DRP {circuit} {position} {(bulletin.heading + bulletin.group).decode()}'

    def writes(self):
        other = 1 - self.journal.selected
        seal = sealed(sealed(b'', self.new.header()), self.record)
        self.files[other] = self.new.header() + bytes([OPEN]) + self.record + seal + bytes([CLOSED])
        self.files[2] = bytes([other]) + self.files[2][1:]

    # What `migrate check` says.

    def changes(self):
        yield from rule_lines('out', self.old, self.new)
        yield from rule_lines('in', self.new, self.old)
        for circuit in range(len(self.new.names)):
            yield from self.circuit_lines(circuit, f'circuit {circuit:02} {self.new.names[circuit]}')
        forgotten = self.known(self.old, self.before) - self.known(self.new, self.behind)
        if forgotten > 0:
            yield f'duplicates forgotten {forgotten}'
        row = self.first_waiting()
        if row is not None:
            yield f'refused circuit {row:02} waiting {len(self.before.waiting[row])}'
        elif self.is_full():
            yield f'refused full {self.room()}'

    def circuit_lines(self, circuit, front):
        if circuit >= len(self.old.names):
            yield f'{front} added'
            return
        was, closed = circuit in self.old.closed, circuit in self.new.closed
        if was != closed:
            yield f'{front} {"closed" if closed else "opened"}'
        forgotten = len(kept_of(self.old, self.before)[circuit]) - len(self.behind.drawn[circuit])
        if forgotten > 0:
            yield f'{front} forgotten {forgotten}'
        if closed and self.before.waiting[circuit]:
            yield f'{front} waiting {len(self.before.waiting[circuit])}'

    def known(self, directory, state):
        """How many bulletins are known whose duplicates are looked for."""
        return sum(position >= state.accepted - directory.window for position in state.bulletins)


# Journals and feeds that are made or broken on purpose.

def older(file):
    """The file of version 1 with the records of one of version 2: another magic, and no seals."""
    text, at = OLDER + file[len(OLDER):HEADER], HEADER
    while file[at] == OPEN:
        record = file[at + 1:]
        size = size_of_checkpoint(record, len(record)) if record[:1] == b'C' else size_of_record(record)
        text += file[at:at + 1 + size]
        at += 1 + size + SEAL
    return text + file[at:at + 1]


def places_of(records, gate):
    """The place and the size of each record in a file, where a gate of one byte stands before each, or in a feed, where none does."""
    at = HEADER
    for record in records:
        yield at + gate, len(record)
        at += gate + len(record) + SEAL


def resealed(changed, places):
    """The same bytes with each seal made anew, so that the records alone decide."""
    ends = [place for place, _ in places[1:]] + [len(changed)]
    text, seal = changed[:places[0][0]], sealed(b'', changed[:HEADER])
    for (place, size), end in zip(places, ends):
        record = changed[place:place + size]
        seal = sealed(seal, record)
        text += record + seal + changed[place + size + SEAL:end]
    return text
