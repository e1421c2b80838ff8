"""What comes to a hub: the same messages for the same seed. A day has bursts on the hour, most at the main hours and fewer at
those between; six bulletins of ten are short, three have some kilobytes, one is binary and has up to 200. Some come over a second
way too; some messages have a fault, some lines bring noise, and neighbours ask for repetitions. Now and then comes a warning of a
tsunami."""
import heapq
import math
import random
from functools import cache
from itertools import count

from hub.directory import BINARY, CENTRE, CIRCUITS, LONG, SHORT, TSUNAMI, WARNING, country, peer
from journal import EOL, frame_of

HEADINGS = 10_000
# So many messages has a day of the year, and so many stand for a minute that is asked for: 17 a second.
DAY, MINUTE, YEAR = 8_640, 1_000, 365
# The share of a day that comes in a main hour, in one between, and in another; and how much of it on the hour.
MAIN, BETWEEN, OTHER, BURST = 0.08, 0.05, 0.03, 0.5
SIZES = {'short': (40, 480), 'long': (1_000, 8_000), 'binary': (2_000, 200_000)}
SHARES = {'short': 0.6, 'long': 0.3, 'binary': 0.1}
# Of a thousand messages so many come over a second way too, have a fault, or are warnings.
SECOND_WAYS, FAULTS, WARNINGS = 80, 5, 3
TSUNAMIS_A_DAY = 6
# So many messages later at most the second way brings its copy.
LATER = 120
# How many bytes of words and of noise texts are cut from; a group of five digits with its blank; and a line of eleven groups.
POOL, GROUP, LINE = 1 << 18, 6, 66
# Where the heading begins in what a neighbour sends, and behind how many bytes it has ended.
FRONT, LONGEST_HEADING = 20, 40
BULLETIN, REFUSED, NOISE, REQUEST = 'bulletin', 'refused', 'noise', 'request'
# A fault of a heading, and the field that the receipt names.
WRONG = [('TT', lambda h: b'1' + h[1:]), ('AA', lambda h: h[:2] + b'1' + h[3:]), ('ii', lambda h: h[:4] + b'O' + h[5:]),
         ('CCCC', lambda h: h[:7] + b'a' + h[8:]), ('Day', lambda h: h[:12] + b'00' + h[14:]),
         ('Hour', lambda h: h[:14] + b'24' + h[16:]), ('Minute', lambda h: h[:16] + b'60' + h[18:]),
         ('BBB', lambda h: h[:18] + b' XXA'), ('HeadingEnd', lambda h: h[:18] + b'#')]
# Noise, and the field in which it loses synchronisation.
NOISES = [('Length', b'NOISE ON THE LINE'), ('Kind', b'00000040XY'), ('Soh', b'00000009AN' + b'NO START'),
          ('Etx', b'00000009AN' + b'\x01NO END..')]


def key_of(body):
    """By what a body is known where it isn't kept: 64 bits of it, under a secret that is new in each run."""
    return hash(body)


class Message:
    """What a neighbour sends: its bytes, and what must come of it. `asked` has the draws that a request asks for, and `missing`
    how many of its numbers nobody has. Its answer is doubtful where the line was cut before its receipt was read."""
    __slots__ = ('kind', 'body', 'letters', 'field', 'asked', 'missing', 'key', 'frame', 'sent_at', 'is_doubtful')

    def __init__(self, kind, body, letters=b'AN', field='', asked=(), missing=0):
        self.kind, self.body, self.letters, self.field = kind, body, letters, field
        self.asked, self.missing = asked, missing
        self.key, self.frame, self.sent_at, self.is_doubtful = key_of(body), None, 0.0, False

    def heading(self):
        """The heading, also of a message whose frame alone is kept."""
        if self.body is not None:
            return self.body.split(EOL, 1)[0]
        return self.frame[FRONT:FRONT + LONGEST_HEADING].split(EOL, 1)[0]

    def framed(self, number):
        """Its bytes on the line under a number; the same at each call, since a neighbour keeps what it sent."""
        if self.frame is None:
            self.frame = self.body if self.kind == NOISE else frame_of(self.letters, number % 1000, self.body)
        return self.frame


def body_of(heading, text):
    return heading + EOL + text + EOL + b'\x03'


def request(asker, time_of_day, text, asked, missing=0):
    """A request for repetition, which asks for draws by their numbers or headings."""
    body = body_of(b'BMRR01 %s %s' % (CENTRE.encode(), time_of_day), asker.encode() + EOL + text + b'=')
    return Message(REQUEST, body, asked=tuple(asked), missing=missing)


@cache
def all_headings():
    """Ten thousand fronts of headings: each country has one of each kind under each number, as far as they go."""
    found = {'short': [], 'long': [], 'binary': []}
    for place in range(HEADINGS):
        number, rest = divmod(place, CIRCUITS * len(SHORT + LONG + BINARY))
        kind, of = divmod(rest, CIRCUITS)
        letters = (SHORT + LONG + BINARY)[kind]
        sort = 'short' if letters in SHORT else 'long' if letters in LONG else 'binary'
        found[sort].append((of, f'{letters}{country(of)}{number + 1:02} {peer(of)}'.encode()))
    return found


def hours():
    """How much of a day comes in each of its hours."""
    return [MAIN if hour % 6 == 0 else BETWEEN if hour % 3 == 0 else OTHER for hour in range(24)]


class Traffic:
    """The messages of a seed, for a hub of so many circuits."""

    def __init__(self, seed, serial=0):
        self.chance = random.Random(seed)
        self.headings = all_headings()
        numbers = self.chance.choices(range(100_000), k=POOL // GROUP)
        self.words, self.noise = b' '.join(b'%05d' % number for number in numbers), self.chance.randbytes(2 * POOL)
        self.serial = serial
        self.times = set()
        # Copies that a second way brings later: before which message, in which order, on which circuit.
        self.later = []

    def time_of_day(self, day, hour, minutes):
        return b'%02d%02d%02d' % (day % 28 + 1, hour, self.chance.choice(minutes))

    def heading(self, sort, time_of_day):
        """A country and a heading of this sort that no bulletin of the hour has yet."""
        while True:
            of, front = self.chance.choice(self.headings[sort])
            if (front, time_of_day) not in self.times:
                self.times.add((front, time_of_day))
                return of, front + b' ' + time_of_day

    def text(self, sort):
        """A text that no other bulletin has: its serial number stands in front."""
        least, most = SIZES[sort]
        self.serial += 1
        if sort == 'binary':
            size = int(math.exp(self.chance.uniform(math.log(least), math.log(most))))
            begin = self.chance.randrange(POOL)
            front = b'BUFR' + size.to_bytes(3, 'big') + b'\x04%08d' % self.serial
            return front + self.noise[begin:begin + size - len(front)]
        size = self.chance.randrange(least, most)
        begin = GROUP * self.chance.randrange((POOL - size) // GROUP)
        words = self.words[begin:begin + size].rstrip()
        return b'%08d ' % self.serial + EOL.join(words[at:at + LINE].rstrip() for at in range(0, len(words), LINE)) + b'='

    def bulletin(self, sort, time_of_day):
        """The country whose bulletin it is, and the bulletin. Some are late, corrections or amendments."""
        of, heading = self.heading(sort, time_of_day)
        group = self.chance.choice([b'', b'', b'', b'', b'', b' RRA', b' CCA', b' AAA'])
        return of, Message(BULLETIN, body_of(heading + group, self.text(sort)), b'BI' if sort == 'binary' else b'AN')

    def warning(self, letters, time_of_day):
        self.serial += 1
        of = self.chance.randrange(CIRCUITS)
        heading = f'{letters}{country(of)}01 {peer(of)} '.encode() + time_of_day
        return of, Message(BULLETIN, body_of(heading, b'%08d WARNING FOR THE COASTS OF THE EASTERN CARIBBEAN=' % self.serial))

    def refused(self, time_of_day):
        of, heading = self.heading('short', time_of_day)
        field, wrong = self.chance.choice(WRONG)
        return of, Message(REFUSED, body_of(wrong(heading), self.text('short')), field=field)

    def noise_on_a_line(self):
        field, noise = self.chance.choice(NOISES)
        return Message(NOISE, noise, field=field)

    def message(self, number, time_of_day):
        """The message of this number, and the circuit that brings it."""
        if self.later and self.later[0][0] <= number:
            return heapq.heappop(self.later)[2:]
        lot = self.chance.randrange(1000)
        if lot < FAULTS:
            return self.refused(time_of_day)
        if lot < FAULTS + WARNINGS:
            return self.warning(WARNING, time_of_day)
        if self.chance.randrange(DAY) < TSUNAMIS_A_DAY:
            return self.warning(TSUNAMI, time_of_day)
        of, message = self.bulletin(self.chance.choices(list(SHARES), list(SHARES.values()))[0], time_of_day)
        if lot < FAULTS + WARNINGS + SECOND_WAYS:
            copy = Message(BULLETIN, message.body, message.letters)
            other = (of + self.chance.randrange(1, CIRCUITS)) % CIRCUITS
            heapq.heappush(self.later, (number + self.chance.randrange(1, LATER), self.serial, other, copy))
        return of, message

    def hours(self, messages):
        """So many messages, hour by hour: for each its day and hour, and how many come on the hour and behind it."""
        left = messages
        for day in count():
            for hour, share in enumerate(hours()):
                size = min(left, round(DAY * share))
                self.times.clear()
                yield day, hour, round(size * BURST), size - round(size * BURST)
                left -= size
                if left == 0:
                    return
