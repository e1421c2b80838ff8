"""Gives the built program generated captures, streams of frames and files of bulletins, and compares what `gaps`, `pack` and
`unpack` answer with a plain reading of docs/FORMATS.md, which finds the missing numbers by a set: exit status, line, standard
output, and what is appended to the circuits' files. Some captures have 64 circuits, each with a list of numbers of its own; a
short capture, a stream of four frames and a file of four entries are also cut at each place and changed at each byte; what is
packed of a stream is unpacked too; and no file that was packed whole may be a proper front of another.

    --break message    the program is given one frame less than the reading has"""
import os
import random
import re
from concurrent.futures import ThreadPoolExecutor
from itertools import groupby, takewhile

import gate
import pytest
from gate import IN_MEMORY, SIDE_BY_SIDE, shortened
from hypothesis import HealthCheck, given, settings, strategies
from limits import limit
from loopback import EOL

MOST_SECONDS = 120
# How many captures are generated with the most circuits, and with few, and how many streams. With what is broken place by place
# that comes to some fifteen hundred runs of the program, which bounds what all of them take.
WIDE, NARROW, STREAMS = 20, 120, 120
MOST_CIRCUITS = 64
CENTRE = b'TVSV'
LONGEST_MESSAGE, LONGEST_BODY, LONGEST_BARE = (limit(name) for name in ('LONGEST_MESSAGE', 'LONGEST_BODY', 'LONGEST_BARE'))
KINDS = [b'AN', b'BI', b'FX']
SOH, ETX = b'\x01', b'\x03'
END = b'0000000000'
# A byte is changed by one of these: all its bits, or its lowest one.
CHANGES = [lambda byte: byte ^ 0xFF, lambda byte: byte ^ 1]
# What stands in a circuit's file before a run: a request is appended.
BEFORE = b'before'
MESSAGE = re.compile(rb'\x01\r\r\n([0-9]{3}|[0-9]{5}) ?\r\r\n'
                     rb'([A-Z]{4}[0-9]{2} [A-Z]{4} (?:0[1-9]|[12][0-9]|3[01])(?:[01][0-9]|2[0-3])[0-5][0-9]'
                     rb'(?: (?:RR|CC|AA|P[A-Z])[A-Z])? ?\r\r\n.*\r\r\n\x03)', re.DOTALL)
# The fields of a message from left to right, each with its rule.
FIELDS = [('StartLine', rb'\x01\r\r\n'), ('Number', rb'(?:[0-9]{5}|[0-9]{3})(?![0-9])'), ('HeadingStart', rb' ?\r\r\n'),
          ('TT', rb'[A-Z]{2}'), ('AA', rb'[A-Z]{2}'), ('ii', rb'[0-9]{2}'), ('CCCC', rb' [A-Z]{4}'),
          ('Day', rb' (?:0[1-9]|[12][0-9]|3[01])'), ('Hour', rb'(?:[01][0-9]|2[0-3])'), ('Minute', rb'[0-5][0-9]'),
          ('BBB', rb'(?! [^\r])|(?: (?:RR|CC|AA|P[A-Z])[A-Z])'), ('HeadingEnd', rb' ?\r\r\n'), ('End', rb'.*\r\r\n\x03\Z')]
# The fields of a heading, as a receipt has them.
HEADING = ('TT', 'AA', 'ii', 'CCCC', 'Day', 'Hour', 'Minute', 'BBB')


def frame_of(kind, message):
    return b'%08d' % len(message) + kind + message


# The plain reading.

class Bad(Exception):
    """A capture is bad at this place."""


def begins(front):
    """Whether a frame or a keep-alive may begin with these bytes, which are ten at most."""
    digits, letters = front[:8], front[8:]
    if not re.fullmatch(rb'[0-9]+', digits):
        return False
    unit = 10 ** (8 - len(digits))
    least, greatest = int(digits) * unit, (int(digits) + 1) * unit - 1
    valid = least == 0 or (greatest >= 2 and least <= LONGEST_MESSAGE)
    return valid and any(kind.startswith(letters) for kind in KINDS)


def read_stream(stream):
    """The messages of the frames of a stream, and the place at which it is bad, if any."""
    messages, at = [], 0
    while at < len(stream):
        for end in range(at + 1, at + 11):
            if end > len(stream) or not begins(stream[at:end]):
                return messages, end - 1
        length = int(stream[at:at + 8])
        at += 10
        message = stream[at:at + length]
        if message and not message.startswith(SOH):
            return messages, at
        if len(message) < length:
            return messages, len(stream)
        if message and not message.endswith(ETX):
            return messages, at + length - 1
        messages += [message] if message else []
        at += length
    return messages, None


def packed(stream):
    """What `pack` answers: status, standard output and line."""
    messages, bad = read_stream(stream)
    entries = b''.join(b'%08d00' % len(message) + message for message in messages)
    return (0, entries + END, '') if bad is None else (13, entries, f'file: bad at {bad}')


def begins_entry(front):
    """Whether an entry may begin with these bytes, which are ten at most."""
    digits, format_digits = front[:8], front[8:]
    if not re.fullmatch(rb'[0-9]+', digits):
        return False
    unit = 10 ** (8 - len(digits))
    least, greatest = int(digits) * unit, (int(digits) + 1) * unit - 1
    valid = least == 0 or (greatest >= 2 and least <= LONGEST_MESSAGE)
    return valid and (b'00'.startswith(format_digits) or (b'01'.startswith(format_digits) and least <= LONGEST_BARE))


def read_file(file):
    """The bytes of the messages that a file of bulletins has, of a bare entry with what it lacks; those of the one that is cut,
    as far as they are there; and the place at which the file is bad, if any."""
    messages, at = [], 0
    while at < len(file):
        for end in range(at + 1, at + 11):
            if end > len(file) or not begins_entry(file[at:end]):
                return messages, b'', end - 1
        length, bare = int(file[at:at + 8]), file[at + 9:at + 10] == b'1'
        at += 10
        if length == 0:
            return messages, b'', None
        part = (SOH + EOL + b'000' if bare else b'') + file[at:at + length]
        at += length
        if at > len(file):
            return messages, part, len(file)
        messages.append(part + (EOL + ETX if bare else b''))
    return messages, b'', None


def fields_of(message):
    """The fields of a message up to the first whose rule fails, by their names, and the name of that one, if any."""
    found, at = {}, 0
    for name, rule in FIELDS:
        field = re.compile(rule, re.DOTALL).match(message, at)
        if not field:
            return found, name
        found[name], at = field[0], field.end()
    body = sum(map(len, found.values())) - len(found['StartLine'] + found['Number'] + found['HeadingStart'])
    return found, None if body <= LONGEST_BODY else 'Size'


def receipt(circuit, message, kept):
    """What is said of a message that came whole, which is no request; `kept` are the bulletins so far, as heading and text."""
    if not message.startswith(SOH):
        return f'LOS {circuit} Soh\n'
    if not message.endswith(ETX):
        return f'LOS {circuit} Etx\n'
    found, fault = fields_of(message)
    if fault:
        return f'REF {circuit} {fault}\n'
    heading = b''.join(found[name] for name in HEADING)
    bulletin = heading, found['End']
    if bulletin in kept:
        return f'DUP {circuit} {kept.index(bulletin)}\n'
    kept.append(bulletin)
    return f'ACC {circuit} {len(kept) - 1} 0 {heading.decode()}\n'


def unpacked(file, circuit):
    """What `unpack` answers behind `init`: status, standard output and line."""
    messages, cut, bad = read_file(file)
    kept = []
    said = ''.join([receipt(circuit, message, kept) for message in messages])
    if cut and not cut.startswith(SOH):
        said += f'LOS {circuit} Soh\n'
    return (0, said.encode(), '') if bad is None else (13, said.encode(), f'file: bad at {bad}')


def heads_of(circuits):
    """The heads of a capture's steps, with zeros for the six digits of a feed."""
    numbers = [b'%02d' % circuit for circuit in range(circuits)]
    named = {letter + b' ' + number + b'\n' for letter in (b'T', b'O', b'D') for number in numbers}
    return named | {b'F ' + number + b' 000000\n' for number in numbers} | {b'R\n', b'E\n'}


def head_at(capture, at, heads, fronts):
    """The head that stands at a place of a capture."""
    for end in range(at + 1, len(capture) + 1):
        head = capture[at:end]
        zeroed = head[:5] + re.sub(rb'[0-9]', b'0', head[5:])
        if zeroed in heads:
            return head
        if zeroed not in fronts:
            raise Bad(end - 1)
    raise Bad(len(capture))


def connections_of(capture, circuits):
    """What came on each circuit, connection by connection."""
    heads = heads_of(circuits)
    fronts = {head[:length] for head in heads for length in range(1, len(head))}
    came, at = [[b''] for _ in range(circuits)], 0
    while True:
        head = head_at(capture, at, heads, fronts)
        at += len(head)
        if head == b'E\n':
            return came
        anew = came if head == b'R\n' else [came[int(head[2:4])]] if head[:1] == b'O' else []
        for connections in anew:
            connections.append(b'')
        if head[:1] == b'F':
            end = at + int(head[5:11])
            if end > len(capture):
                raise Bad(len(capture))
            came[int(head[2:4])][-1] += capture[at:end]
            at = end


def numbers_of(connections):
    """The numbers of the messages of a circuit without a faulty field, as they are written."""
    messages = [message for stream in connections for message in read_stream(stream)[0]]
    fields = [MESSAGE.fullmatch(message) for message in messages]
    return [found[1].decode() for found in fields if found and len(found[2]) <= LONGEST_BODY]


def missing(numbers):
    """The runs of the numbers that are missing among these, as they are written."""
    if not numbers:
        return []
    digits = len(numbers[-1])
    counting = [*takewhile(lambda number: len(number) == digits, reversed(numbers))][::-1]
    cycle = 10 ** digits
    first = top = int(counting[0]) + cycle
    seen = {first}
    for number in map(int, counting[1:]):
        near = range(top - cycle // 2 + 1, top + cycle // 2 + 1)
        value = next(value for value in range(number, near.stop, cycle) if value in near)
        seen.add(value)
        top = max(top, value)
    gone = sorted(set(range(max(first, top - cycle // 2 + 1), top + 1)) - seen)
    runs = [[value for _, value in run] for _, run in groupby(enumerate(gone), lambda pair: pair[1] - pair[0])]
    return ['-'.join(f'{value % cycle:0{digits}}' for value in sorted({run[0], run[-1]})) for run in runs]


def request(peer, moment, runs):
    """The frame that asks for runs of numbers."""
    text = CENTRE + EOL + b'SQN ' + '/'.join(runs).encode() + b'='
    return frame_of(b'AN', SOH + EOL + b'000' + EOL + b'BMRR01 ' + peer + b' ' + moment + EOL + text + EOL + ETX)


def named(capture, peers, moment):
    """What `gaps` answers: status, standard output and line, and the requests by circuit."""
    try:
        came = connections_of(capture, len(peers))
    except Bad as bad:
        return (4, b'', f'capture: bad at {bad.args[0]}'), {}
    runs = [missing(numbers_of(connections)) for connections in came]
    lines = [f'gap {circuit:02} {run}\n' for circuit, found in enumerate(runs) for run in found]
    asked = {circuit: request(peers[circuit], moment, found) for circuit, found in enumerate(runs) if found}
    return (0, ''.join([*lines, 'end\n']).encode(), ''), asked


# What is generated.

# Texts that might be taken for something else.
TEXTS = [b'NIL=', b'', b'A', EOL, b'A' + ETX + b'B', b'00000039AN' + SOH, b'SQN 001=', bytes(range(256))]
# Where synchronisation is lost, and fronts of such places.
LOSSES = [b'0000003X', b'9', b'00000001', b'%08d' % (LONGEST_MESSAGE + 1), b'%08dF' % LONGEST_MESSAGE, b'00000039AX', b'00000039NA', b'00000039AN\x02',
          b'00000003BI' + SOH + b'AB']
# Parts of a message by their places in `message_of`, and what a rule of a field fails by.
FAULTS = [(0, SOH + b'\r\n'), (2, b'  '), (2, b'1'), (2, b'12'), (4, b'sMVG'), (4, b'S1VG'), (5, b'0A'), (5, b'1'),
          (6, b' TVS1'), (6, b'TVSV'), (7, b' 00'), (7, b' 32'), (8, b'24'), (9, b'60'), (10, b' COR'), (10, b' RR1'),
          (10, b' PA'), (11, b'  '), (12, b'\r\n'), (12, b''), (14, b'\r\n' + ETX)]


def message_of(chance, number, text=None):
    """A message under a number; one of eight is refused, or is none."""
    blank = chance.choice((b'', b'', b' '))
    group = chance.choice((b'', b'', b' RRA', b' CCB', b' PAB', b' PZC'))
    kind = chance.choice((b'SMVG', b'WSVG', b'BMRR'))
    text = chance.choice(TEXTS) if text is None else text
    parts = [SOH + EOL, number, blank, EOL, kind, b'01', b' TVSV', b' 28', b'00', b'00', group, blank, EOL, text, EOL + ETX]
    if chance.random() < 0.12:
        place, other = chance.choice(FAULTS)
        parts[place] = other
    return b''.join(parts)


def step(chance, cycle):
    """From the greatest number to the next: mostly a near one, else one half a cycle away, or one more or less."""
    if chance.random() < 0.12:
        return chance.choice((1, -1)) * cycle // 2 + chance.choice((-1, 0, 1))
    return chance.choice((1, 1, 1, 1, 1, 2, 2, 3, 7, 0, -1, -1, -2, -6))


def generated_numbers(chance):
    """The numbers of one circuit, as they are written, now and then with another count of digits."""
    digits, numbers = chance.choice((3, 5)), []
    top = value = chance.choice((1, 10 ** digits - 3, chance.randrange(10 ** digits)))
    for _ in range(chance.randrange(14)):
        cycle = 10 ** digits
        numbers.append(b'%0*d' % (digits, value % cycle))
        if chance.random() < 0.05:
            digits = 8 - digits
        jump = step(chance, cycle)
        value = top + jump
        top += jump if 0 < jump <= cycle // 2 else 0
    return numbers


def feeds(chance, circuit, stream):
    """The feeds of these bytes, cut anywhere; some are empty."""
    cuts = sorted(chance.randint(0, len(stream)) for _ in range(chance.randrange(3)))
    pieces = [stream[begin:end] for begin, end in zip([0, *cuts], [*cuts, len(stream)])]
    return [b'F %02d %06d\n' % (circuit, len(piece)) + piece for piece in pieces]


def came_on(chance, circuit):
    """The steps of one circuit of a capture: frames, keep-alives, losses, frames that are broken off, new connections."""
    steps, stream = [], b''
    for number in generated_numbers(chance):
        frame = frame_of(chance.choice(KINDS), message_of(chance, number))
        stream += chance.choice((b'', b'', b'00000000' + chance.choice(KINDS))) + frame
        what = chance.random()
        if what < 0.04:
            stream += chance.choice(LOSSES)
        elif what < 0.08:
            stream += frame[:chance.randrange(len(frame))]
        if 0.02 < what < 0.12:
            steps += [*feeds(chance, circuit, stream), b'O %02d\n' % circuit]
            stream = b''
        elif what < 0.2:
            steps.append(chance.choice((b'T %02d\n', b'D %02d\n')) % circuit)
    return steps + feeds(chance, circuit, stream)


def generated_capture(chance, circuits):
    """A capture in which the steps of the circuits stand in any order that keeps that of each."""
    steps = [came_on(chance, circuit) for circuit in range(circuits)]
    order = [circuit for circuit, own in enumerate(steps) for _ in own]
    chance.shuffle(order)
    merged = [steps[circuit].pop(0) for circuit in order]
    if chance.random() < 0.3:
        merged.insert(chance.randint(0, len(merged)), b'R\n')
    return b''.join(merged) + b'E\n' + chance.choice((b'', b'', b'X', b'F 00'))


def generated_stream(chance):
    """A stream of frames of all types, also of the shortest messages, with keep-alives between them."""
    stream = b''
    for _ in range(chance.randrange(6)):
        message = chance.choice((message_of(chance, b'001'), SOH + ETX, SOH + chance.choice(TEXTS) + ETX))
        stream += frame_of(chance.choice(KINDS), message) + b'00000000AN' * chance.choice((0, 0, 1, 2))
    return chance.choice((b'', b'00000000BI')) + stream + (chance.choice(LOSSES) if chance.random() < 0.1 else b'')


def spoiled(chance, text):
    """These bytes, or some of them in front, or with one of them changed."""
    place = chance.randint(0, len(text))
    changed = bytes([chance.choice(CHANGES)(text[place])]) if place < len(text) else b''
    return chance.choice((text, text, text[:place], text[:place] + changed + text[place + 1:]))


def broken(text):
    """Each front of these bytes, and they with each one changed, in turn in all its bits and in the lowest."""
    yield from (text[:length] for length in range(len(text) + 1))
    for place, byte in enumerate(text):
        yield text[:place] + bytes([CHANGES[place % 2](byte)]) + text[place + 1:]


def short_capture():
    """A capture with a step of each kind, on three circuits, in which numbers are missing on two of them."""
    frames = [frame_of(b'AN', SOH + EOL + number + EOL + b'SMVG01 TVSV 280000' + EOL + EOL + ETX)
              for number in (b'998', b'001', b'00007', b'00009')]
    first = frames[0] + b'00000000AN' + frames[1]
    second = frames[2] + frames[3]
    return (b'O 00\nF 00 %06d\n' % 60 + first[:60] + b'T 01\nF 00 %06d\n' % (len(first) - 60) + first[60:]
            + b'D 02\nF 02 %06d\n' % len(second) + second + b'R\nE\n')


def short_file():
    """A file of four entries, two of each format, in which the second has the bulletin of the first; and an end, with bytes behind
    it."""
    report = b'SMVG01 TVSV 280000' + EOL + b'NIL='
    whole = SOH + EOL + b'001' + EOL + report + EOL + ETX
    warning = SOH + EOL + b'00007 ' + EOL + b'WSVG31 TVSV 281200 RRA ' + EOL + EOL + ETX
    entries = [(b'00', whole), (b'01', EOL + report), (b'00', warning), (b'01', EOL + b'FTVG02 TVSV 310559 PZC' + EOL + ETX)]
    return b''.join(b'%08d' % len(entry) + kind + entry for kind, entry in entries) + END + b'00'


def long_file(length):
    """A whole entry of so many bytes, a bare one of so many, and a short one."""
    front = EOL + b'SMVG01 TVSV 280000' + EOL
    whole = SOH + EOL + b'001' + front
    entries = [(b'00', whole + b'A' * (length - len(whole) - 4) + EOL + ETX), (b'01', front + b'A' * (length - 11 - len(front))),
               (b'01', front)]
    return b''.join(b'%08d' % len(entry) + kind + entry for kind, entry in entries)


def long_stream(length):
    """A frame whose message has so many bytes, and a short one behind it."""
    front = SOH + EOL + b'001' + EOL + b'SMVG01 TVSV 280000' + EOL
    message = front + b'A' * (length - len(front) - 4) + EOL + ETX
    return frame_of(b'FX', message) + frame_of(b'AN', front.replace(b'001', b'003') + EOL + ETX)


def every_second(digits):
    """A capture of one circuit in which every second number came, over more than half a cycle and over the greatest number."""
    cycle = 10 ** digits
    numbers = range(cycle - 9, cycle * 8 // 5, 2)
    message = SOH + EOL + b'%0*d' + EOL + b'SMVG01 TVSV 280000' + EOL + EOL + ETX
    stream = b''.join(frame_of(b'AN', message % (digits, number % cycle)) for number in numbers)
    pieces = [stream[begin:begin + LONGEST_MESSAGE] for begin in range(0, len(stream), LONGEST_MESSAGE)]
    return b''.join(b'F 00 %06d\n' % len(piece) + piece for piece in pieces) + b'E\n'


def directory(peers):
    rows = [b'[[circuit]]\nname = "C%d"\npeer = "%s"\n' % (circuit, peer) for circuit, peer in enumerate(peers)]
    return b'centre = "' + CENTRE + b'"\n' + b''.join(rows)


def generated_peers(chance, circuits):
    return [bytes(chance.choices(range(65, 91), k=4)) for _ in range(circuits)]


def moment_of(chance):
    return b'%02d%02d%02d' % (chance.randint(1, 31), chance.randrange(24), chance.randrange(60))


def broken_captures():
    """A capture that is cut at each place and changed at each byte, and the longest lists. As in `broken_streams`: a call of `Runs`
    by its name, what it is about, and its other arguments."""
    peers = [b'AAAA', b'BBBB', b'CCCC']
    for number, text in enumerate(broken(short_capture())):
        yield 'gaps', f'the short capture, broken ({number})', text, peers, b'281030'
    for digits in (3, 5):
        yield 'gaps', f'every second number of {digits} digits', every_second(digits), peers, b'281030'


def broken_streams():
    """A stream and a file that are cut and changed likewise, and the longest messages, also as captures."""
    four = b''.join(frame_of(kind, SOH + text + ETX) for kind, text in zip([*KINDS, b'AN'], (b'', b'A', b'00000000AN', EOL)))
    for number, text in enumerate(broken(b'00000000FX'.join((four[:25], four[25:])))):
        yield 'pack', f'the stream of four frames, broken ({number})', text
    for number, text in enumerate(broken(short_file())):
        yield 'unpack', f'the file of four entries, broken ({number})', text, number % 2
    # The longest bodies behind a number of three digits, and one byte more: refused, and then no frame.
    for length in range(LONGEST_MESSAGE - 2, LONGEST_MESSAGE + 2):
        text = long_stream(length)
        yield 'pack', f'a message of {length} bytes', text
        yield 'unpack', f'entries of {length} bytes', long_file(length), 1
        yield 'gaps', f'a message of {length} bytes', b'F 00 %06d\n' % len(text) + text + b'E\n', [b'AAAA'], b'281030'


class Runs(gate.Folder):
    """Runs of the program in a folder, and what was wrong with them."""

    def __init__(self, program, at, loses=False):
        super().__init__(program, at)
        # Whether the program is given less than is read, where that must be seen.
        self.loses = loses
        # The files with which each run of `unpack` begins.
        self.begun = None
        # How many circuits had numbers missing, of how many that were read; and the files that were packed whole.
        self.missed = 0
        self.circuits = 0
        self.whole = set()

    def only(self, files):
        """These files alone. Where that must be seen, `capture.gts` lacks its second half of a frame."""
        self.remove(*os.listdir(self.at))
        for name, text in files.items():
            self.write(name, text[:-15] if self.loses and name == 'capture.gts' and len(text) > 40 else text)

    def left(self):
        """All files that are there."""
        return {name: self.read(name) for name in os.listdir(self.at)}

    def gaps(self, what, capture, peers, moment):
        files = {'directory.toml': directory(peers), 'capture.gts': capture, 'circuit.00.out': BEFORE}
        self.only(files)
        answer, requests = named(capture, peers, moment)
        self.wants(f'gaps, {what}', self.run('gaps', moment.decode()), answer)
        for circuit, frame in requests.items():
            name = f'circuit.{circuit:02}.out'
            files[name] = files.get(name, b'') + frame
        left = self.left()
        for name in sorted({*files, *left}):
            self.wants(f'gaps, {what}, {name}', left.get(name), files.get(name))
        self.circuits += len(peers) if answer[0] == 0 else 0
        self.missed += len(requests)

    def begin(self):
        """A journal in which nothing stands, of the directory that `unpack` reads."""
        self.only({'directory.toml': directory([b'AAAA', b'BBBB'])})
        self.run('init')
        return self.left()

    def unpack(self, what, file, circuit):
        files = {**(self.begun or self.begin()), 'capture.gts': file}
        self.begun = self.begun or {name: text for name, text in files.items() if name != 'capture.gts'}
        self.only(files)
        self.wants(f'unpack, {what}', self.run('unpack', f'{circuit:02}'), unpacked(file, circuit))
        left = self.left()
        self.wants(f'unpack, {what}, the folder', sorted(left), sorted(files))
        self.wants(f'unpack, {what}, the file', left.get('capture.gts'), files['capture.gts'])

    def pack(self, what, stream):
        files = {'directory.toml': directory([b'AAAA']), 'capture.gts': stream}
        self.only(files)
        got = self.run('pack')
        self.wants(f'pack, {what}', got, packed(stream))
        self.wants(f'pack, {what}, the folder', self.left(), files)
        if got[0] == 0:
            self.whole.add(got[1])
        # What was packed is unpacked: its messages come again, but for requests, of which a plain reading knows no answer.
        if got[0] == 0 and b'BMRR' not in stream:
            self.unpack(what, got[1], 0)


def share(runs, tasks):
    for call, *arguments in tasks:
        getattr(runs, call)(*arguments)


def fronts(files):
    """Whichever of these files is a proper front of another: in order, one stands right before such another."""
    ordered = sorted(files)
    return [file for file, behind in zip(ordered, ordered[1:]) if behind.startswith(file)]


# What is generated is the same at each run, and nothing of it is kept.
GENERATED = settings(derandomize=True, database=None, deadline=None, suppress_health_check=list(HealthCheck))


@pytest.fixture(scope='module')
def runs(program, broken, tmp_path_factory):
    """Folders for what goes on side by side. What was packed whole in all of them is told apart at the end."""
    with gate.tempfile.TemporaryDirectory(dir=IN_MEMORY) as top:
        made = [Runs(program, os.path.join(top, str(number)), broken == 'message') for number in range(SIDE_BY_SIDE)]
        yield made
    whole = set().union(*(one.whole for one in made))
    circuits, missed, count = (sum(getattr(one, what) for one in made) for what in ('circuits', 'missed', 'count'))
    print(f'files: {count} runs; {circuits} circuits, {missed} with numbers missing; {len(whole)} different files packed whole')
    assert not [f'a file is a front of another: {shortened(file)}' for file in fronts(whole)]


def found(runs):
    """What was wrong since the last look."""
    faults = [fault for one in runs for fault in one.faults]
    for one in runs:
        one.faults.clear()
    return faults[:20]


def all_hold(runs, tasks, each):
    """These calls, or each Nth of them, side by side."""
    tasks = list(tasks)[::each]
    with ThreadPoolExecutor(SIDE_BY_SIDE) as pool:
        for one in [pool.submit(share, own, tasks[number::SIDE_BY_SIDE]) for number, own in enumerate(runs)]:
            one.result()
    assert not found(runs)


def test_gaps_of_a_broken_capture(runs, each):
    all_hold(runs, broken_captures(), each)


def test_pack_and_unpack_of_broken_files(runs, each):
    all_hold(runs, broken_streams(), each)


def test_gaps_of_many_circuits(runs, pytestconfig, each):
    chance = random.Random(pytestconfig.getoption('seed'))
    all_hold(runs, [('gaps', f'capture {number} of many circuits', generated_capture(chance, MOST_CIRCUITS),
                     generated_peers(chance, MOST_CIRCUITS), moment_of(chance)) for number in range(WIDE)], each)


@settings(GENERATED, max_examples=NARROW)
@given(chance=strategies.randoms(use_true_random=False), circuits=strategies.sampled_from((1, 2, 3, 10, 11)))
def test_gaps(runs, chance, circuits):
    take = b'T %02d\n' % chance.randrange(100) if chance.random() < 0.1 else b''
    text = take + spoiled(chance, generated_capture(chance, circuits))
    runs[0].gaps('a capture of few circuits', text, generated_peers(chance, circuits), moment_of(chance))
    assert not found(runs)


@settings(GENERATED, max_examples=STREAMS)
@given(chance=strategies.randoms(use_true_random=False))
def test_pack(runs, chance):
    runs[0].pack('a stream', spoiled(chance, generated_stream(chance)))
    assert not found(runs)
