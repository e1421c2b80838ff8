"""Outside tools read what goes out: a day of bulletins, some in BUFR and some of text, goes through the built program, and ECMWF's ecCodes
(`gts_ls`, `bufr_ls`) finds in the frames of a circuit each heading in order, and each message of BUFR, as many as were drawn.

    --break frame    the frames lack their last one"""
import subprocess

import gate
from gate import feed
from loopback import EOL, messages_of

BULLETINS = 1100
DIRECTORY = """centre = "TVSV"
window = 2000
[[circuit]]
name = "IN"
peer = "TBPB"
[[circuit]]
name = "OUT"
peer = "TGPY"
[[rule]]
heading = "****** ****"
to = ["OUT"]
"""
KEYS = ['TT', 'AA', 'II', 'CCCC', 'YY', 'GG', 'gg']


def length(number, size=3):
    return number.to_bytes(size, 'big')


def bufr(chance, number):
    """A message of BUFR, edition 4, with a station's block number as its only value."""
    day = [7, 0xEA, 11, 28, chance.randrange(24), chance.randrange(60), 0]
    first = length(22) + bytes([0, 0, 98, 0, 0, 0, 0, 0, 0, 0, 28, 0, *day])
    third = length(9) + bytes([0, 0, 1, 0x80, 1, 1])
    fourth = length(8) + bytes([0, number % 100 << 1, chance.randrange(256), chance.randrange(256), chance.randrange(256)])
    rest = first + third + fourth + b'7777'
    return b'BUFR' + length(8 + len(rest)) + b'\x04' + rest


def day(chance):
    """The bulletins of a day: type of frame, heading and text. Each has a text of its own."""
    for number in range(BULLETINS):
        hour, minute = divmod(number * 1440 // BULLETINS, 60)
        moment = b'28%02d%02d' % (hour, minute)
        if chance.random() < 0.3:
            yield b'BI', b'IS%cD%02d TBPB ' % (chance.choice(b'MNAI'), number % 100) + moment, bufr(chance, number)
        else:
            lines = EOL.join(b'789%02d 41598 %05d=' % (chance.randrange(100), number) for _ in range(chance.randrange(1, 9)))
            yield b'AN', b'S%cBR%02d TBPB ' % (chance.choice(b'MAI'), number % 100) + moment, b'AAXX 28004' + EOL + lines


def listed(words, folder):
    """The rows that a tool of ecCodes lists of the frames, and what it says against them."""
    done = subprocess.run([*words, folder.path('circuit.01.out')], capture_output=True, text=True, timeout=gate.SECONDS)
    # The first line names the file and the second the keys; behind the rows stands how many there were.
    rows = [line.split() for line in done.stdout.splitlines()[2:] if line.strip()]
    return [row for row in rows if 'messages' not in row], done.stderr


def test_eccodes_finds_each_heading_and_each_message(folder, chance, broken):
    bulletins = list(day(chance))
    folder.write('directory.toml', DIRECTORY)
    folder.wants('init', folder.run('init'), (0, b'', ''))
    capture = b''
    for number, (kind, heading, text) in enumerate(bulletins, 1):
        message = b'\x01' + EOL + b'%03d' % (number % 1000) + EOL + heading + EOL + text + EOL + b'\x03'
        capture += feed(0, b'%08d' % len(message) + kind + message)
    status, receipts, line = folder.run('replay', capture=capture + b'D 01\nE\n')
    folder.wants('replay', (status, receipts.count(b'ACC 0'), line), (0, BULLETINS, ''))
    frames = folder.frames(1)
    if broken == 'frame':
        last = len(messages_of(frames)[0][-1]) + 10
        folder.write('circuit.01.out', frames[:-last])
    rows, against = listed(['gts_ls', '-p', ','.join(KEYS)], folder)
    want = [[heading[:2], heading[2:4], heading[4:6], heading[7:11], heading[12:14], heading[14:16], heading[16:18]]
            for _, heading, _ in bulletins]
    folder.wants('headings that gts_ls finds', rows, [[word.decode() for word in row] for row in want])
    folder.wants('what gts_ls says against them', against, '')
    rows, against = listed(['bufr_ls', '-p', 'edition,typicalHour,typicalMinute'], folder)
    want = [['4', str(text[8 + 19]), str(text[8 + 20])] for kind, _, text in bulletins if kind == b'BI']
    folder.wants('messages that bufr_ls finds', rows, want)
    print(f'eccodes: {len(bulletins)} bulletins, {len(want)} of them in BUFR')
