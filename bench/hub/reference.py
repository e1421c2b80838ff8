"""What must come of what a hub is sent, told by dicts: each receipt, and each frame on each circuit. It reads the rules of the
directory one by one and knows nothing of how the switch works. No body is kept: each is known by its key. `Lost` is raised at the
first thing that isn't as it must be."""
import heapq
from collections import Counter, defaultdict, deque

from hub.directory import ROUND
from hub.traffic import BULLETIN, NOISE, REFUSED, REQUEST, key_of
from journal import EOL

# What stands before the number of a message.
BEGIN = b'\x01' + EOL
# How many bulletins may have been accepted without a receipt when the program is killed: as many as go behind one gate.
IN_DOUBT = 256


class Lost(Exception):
    """The first thing that isn't as it must be."""


class Bulletin:
    """A bulletin that was accepted: to which circuits it still has to come, and how many keep it to send it once more."""
    __slots__ = ('position', 'key', 'rank', 'heading', 'letters', 'level', 'left', 'kept', 'sent_at')

    def __init__(self, position, message, heading, level, named):
        self.position, self.heading, self.level, self.left, self.kept = position, heading, level, set(named), 0
        self.key, self.letters, self.sent_at = message.key, message.letters, message.sent_at
        # Of what waits on a circuit the smallest rank goes first.
        self.rank = level, position


class Ledger:
    """A circuit: what goes to it, what has come on it, and under which numbers. A draw is named by its index, from 0 on, which
    doesn't come round as its number does."""

    def __init__(self, name, digits, kept, repeat, forget):
        self.name, self.digits, self.kept, self.repeat, self.forget = name, digits, kept, repeat, forget
        # Routed here and not known to have been drawn: in order, and those that may have waited at the last draw that was judged.
        self.routed, self.waiting = deque(), []
        # Draws from 0 to `next` were judged; `early` stand behind a hole; `top` is behind the greatest that came.
        self.next = self.top = 0
        self.early, self.holes, self.recent = {}, set(), {}
        # The least number accepted at the last draw that was judged; and at those from an index on, where that is known.
        self.accepted, self.floors = 0, deque()
        # Draws that were asked for and have to come; those that may come once more; those to be asked for again.
        self.wanted, self.may_come, self.again = set(), Counter(), set()
        # The draws with which the circuit begins behind an opening; and whether the first frame of a return is still to come.
        self.owed, self.returned_at = deque(), None
        self.behind = self.repeated = 0
        # How many draws of each level went before something that had been accepted before them.
        self.overtook = Counter()

    def lost(self, what):
        raise Lost(f'circuit {self.name}: {what}')

    def index_of(self, number):
        """The index that ends in this number and lies nearest to what came last."""
        most = ROUND[self.digits]
        away = (number - 1 - self.top) % most
        return self.top + (away if away < most // 2 else away - most)

    def number_of(self, index):
        return f'{(index + 1) % ROUND[self.digits]:0{self.digits}}'

    def came(self, index, bulletin):
        """A frame came. Gives whether it is new."""
        if self.owed and index != self.owed[0]:
            self.lost(f'behind an opening came {self.number_of(index)}, where {self.number_of(self.owed[0])} was owed')
        if self.returned_at is not None and (self.owed or index >= self.top):
            # A draw that comes again tells nothing of when the one behind `top` was drawn: that may have been lost before.
            self.floors.append((max(index, self.top - 1) + self.repeat, self.returned_at))
            self.returned_at = None
        if index in self.recent:
            self.came_again(index, bulletin)
            return False
        if index < self.next or (index < self.top and index not in self.holes):
            self.lost(f'{self.number_of(index)} came again, which nobody asked for')
        if self.owed:
            self.owed.popleft()
        self.keep(index, bulletin)
        if index == self.next == self.top:
            self.judge(index, bulletin)
            self.next = self.top = index + 1
            return True
        self.holes.update(range(self.top, index))
        self.top = max(self.top, index + 1)
        for of in (self.holes, self.wanted, self.again):
            of.discard(index)
        self.early[index] = bulletin
        while self.next in self.early:
            self.judge(self.next, self.early.pop(self.next))
            self.next += 1
        return True

    def keep(self, index, bulletin):
        """A draw may be asked for while the circuit keeps it, and no longer."""
        self.recent[index] = bulletin
        bulletin.kept += 1
        old = self.recent.pop(index - self.kept, None)
        if old is not None:
            self.may_come.pop(index - self.kept, None)
            old.kept -= 1
            if not old.kept and not old.left:
                self.forget(old)

    def came_again(self, index, bulletin):
        if self.recent[index].key != bulletin.key:
            self.lost(f'{self.number_of(index)} came with two texts')
        if not self.owed and self.may_come[index] == 0:
            index = self.asked_by_heading(index, bulletin)
        if self.owed:
            self.owed.popleft()
        elif self.may_come[index] > 1:
            self.may_come[index] -= 1
        else:
            del self.may_come[index]
        self.wanted.discard(index)
        self.again.discard(index)
        self.repeated += 1

    def asked_by_heading(self, index, bulletin):
        """The draw that was asked for where this one came for it: a request by heading is answered with the last draw of that heading,
        which may still have been on its way when another was named."""
        for other in self.may_come:
            if other < index and other in self.recent and self.recent[other].heading == bulletin.heading:
                return other
        self.lost(f'{self.number_of(index)} came twice, and nobody asked for it')

    def judge(self, index, bulletin):
        """The draw of this index is the one that goes next: of what had been accepted, the smallest level, and of that what was
        accepted first. What had been accepted is at least what this bulletin and the draws before tell."""
        while self.floors and self.floors[0][0] <= index:
            self.accepted = max(self.accepted, self.floors.popleft()[1])
        if bulletin.position >= self.accepted:
            self.accepted = bulletin.position + 1
        routed, waiting = self.routed, self.waiting
        while routed and routed[0].position < self.accepted:
            heapq.heappush(waiting, routed.popleft().rank)
        if not waiting or waiting[0] != bulletin.rank:
            self.lost(f'{self.number_of(index)} is of level {bulletin.level} and position {bulletin.position}; of level and '
                      f'position {waiting[:1]} had to go before')
        heapq.heappop(waiting)
        if waiting and any(position < bulletin.position for _, position in waiting[:3]):
            self.overtook[bulletin.level] += 1
        self.behind -= 1

    def keeps(self, index):
        """Whether a draw that is asked for now is still kept when the request is heard, even where all that waits goes out before.
        Half of what the circuit keeps is left for what comes meanwhile. Later its number is missing, or is another draw's."""
        return self.next + self.behind - index < self.kept // 2

    def keeps_all(self):
        """Whether that holds of all that the neighbour lacks, and of what is on its line."""
        return self.keeps(min([self.top, *self.holes, *self.wanted, *self.again]))

    def asked(self, indices, is_doubtful):
        """These draws were asked for, and found. Where the line was cut since they were, they may be lost."""
        for index in indices:
            self.may_come[index] += 1
            if is_doubtful:
                self.again.add(index)
            else:
                self.wanted.add(index)
                self.again.discard(index)

    def is_cut(self):
        """Its line was cut: what was asked for and didn't come is asked for again, and the frame in work may be lost."""
        self.may_come.update(self.owed)
        self.owed.clear()
        self.again |= self.wanted
        self.wanted.clear()

    def opened(self, draws, accepted):
        """The switch was opened again behind so many draws: it owes the last ones, as many as are repeated, and nothing else."""
        self.is_cut()
        self.owed.extend(range(max(0, draws - self.repeat), draws))
        self.floors.append((draws, accepted))


class Reference:
    """The switch as dicts. `sent` has for each circuit the messages that wait for their receipts; `is_handed` says of a circuit that
    seems to have none whether one was handed over meanwhile."""

    def __init__(self, directory, level, is_handed=lambda circuit: False):
        self.directory, self.level, self.is_handed = directory, level, is_handed
        self.accepted = 0
        # The last bulletins that were accepted, as many as the window has, by their keys; and those that may still come on a circuit.
        # Of these there are several with a key where a text was accepted again, behind the window.
        self.window, self.order = {}, deque()
        self.known = {}
        self.sent = [deque() for _ in directory.names]
        self.ledgers = [self.ledger(circuit) for circuit in range(len(directory.names))]
        self.counts = Counter()

    def ledger(self, circuit):
        return Ledger(self.directory.names[circuit], self.directory.digits(circuit), self.directory.kept_of(circuit),
                      self.directory.repeat, self.forget)

    def takes(self, directory):
        """Goes on under another directory, whose first circuits are those of the present one."""
        self.directory = directory
        for circuit in range(len(self.ledgers), len(directory.names)):
            self.sent.append(deque())
            self.ledgers.append(self.ledger(circuit))

    # Receipts.

    def accept(self, circuit, message):
        heading, key = message.heading(), message.key
        named = self.directory.goes_to(circuit, heading)
        self.window[key] = self.accepted
        self.order.append(key)
        if len(self.order) > self.directory.window:
            old = self.order.popleft()
            if self.window[old] == self.accepted - self.directory.window:
                del self.window[old]
        if named:
            bulletin = Bulletin(self.accepted, message, heading, self.level(heading), named)
            self.known.setdefault(key, []).append(bulletin)
        for to in named:
            self.ledgers[to].routed.append(bulletin)
            self.ledgers[to].behind += 1
        self.accepted += 1
        return heading, named

    def forget(self, bulletin):
        """A bulletin came to all its circuits, and none of them keeps it any more: so it can't come again."""
        found = self.known[bulletin.key]
        found.remove(bulletin)
        if not found:
            del self.known[bulletin.key]

    def lacking(self):
        """How many bulletins haven't come everywhere."""
        return sum(1 for found in self.known.values() for bulletin in found if bulletin.left)

    def wanted_receipt(self, circuit, message):
        """The receipt that this message has to get now; where it is a bulletin that is new, it is accepted."""
        if message.kind == NOISE:
            return f'LOS {circuit} {message.field}'
        if message.kind == REFUSED:
            return f'REF {circuit} {message.field}'
        if message.kind == REQUEST:
            self.ledgers[circuit].asked(message.asked, message.is_doubtful)
            return f'ASK {circuit} {len(message.asked)} {message.missing}'
        if message.key in self.window:
            return f'DUP {circuit} {self.window[message.key]}'
        position = self.accepted
        heading, named = self.accept(circuit, message)
        return f'ACC {circuit} {position} {len(named)} {heading.decode()}'

    def receipt(self, line):
        """A line of receipts: it is that of the next message of its circuit."""
        words = line.split()
        circuit = int(words[1]) if len(words) > 1 and words[1].isdigit() else -1
        if not 0 <= circuit < len(self.sent) or not (self.sent[circuit] or self.is_handed(circuit)):
            raise Lost(f'a receipt that no message has: {line!r}')
        message = self.sent[circuit].popleft()
        want = self.wanted_receipt(circuit, message)
        if line != want:
            ledger = self.ledgers[circuit]
            asked = f' for draws {list(message.asked)} of {ledger.next}, behind which {ledger.behind} wait' if message.asked else ''
            raise Lost(f'a receipt {line!r}, where {want!r} had to come{asked}')
        self.counts[words[0]] += 1

    def is_unsaid(self, circuit, body):
        """The program was killed when this bulletin was accepted and had no receipt; the message is sent again."""
        message = self.sent[circuit][0] if self.sent[circuit] else None
        if message is None or message.kind != BULLETIN or message.key != key_of(body) or message.key in self.window:
            raise Lost(f'the journal has {body[:40]!r} of circuit {circuit}, which nobody sent')
        self.accept(circuit, message)
        self.counts['unsaid'] += 1

    # Frames.

    def bulletin_of(self, circuit, key):
        """The first bulletin with this key that has still to come on a circuit, or else the last one. One that fell out of the window
        may have been accepted again."""
        found = self.known.get(key)
        if found is None or len(found) == 1:
            return found and found[0]
        return next((bulletin for bulletin in found if circuit in bulletin.left), found[-1])

    def frame(self, circuit, front, key):
        """A frame that came on a circuit: its letters and the first bytes of its message, and the key of its body. Gives the bulletin
        where it is new there."""
        ledger = self.ledgers[circuit]
        end = 6 + ledger.digits
        digits = front[6:end]
        if not digits.isdigit() or front[2:6] != BEGIN or front[end:end + 3] != EOL:
            ledger.lost(f'a frame begins with {front!r}')
        index = ledger.index_of(int(digits))
        bulletin = self.bulletin_of(circuit, key)
        if bulletin is None or bulletin.letters != front[:2]:
            ledger.lost(f'a frame of something else than was accepted: {front!r}')
        self.counts['frames'] += 1
        if index not in ledger.recent and circuit not in bulletin.left:
            ledger.lost(f'{front[end + 3:]!r} came, which the rules of its time do not lead there, or under two numbers')
        if not ledger.came(index, bulletin):
            return None
        bulletin.left.discard(circuit)
        return bulletin
