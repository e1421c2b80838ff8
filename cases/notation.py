"""The notation of the cases: bytes as text that a person reads and writes. cases/README.md describes it."""
import re

CHARACTERS = {'SOH': b'\x01', 'ETX': b'\x03', 'CR': b'\r', 'LF': b'\n', 'EOL': b'\r\r\n'}
TOKEN = re.compile(r'<([^<>]*)>|([^<>]+)|(.)', re.DOTALL)
PARTS = ('FRAME', 'FEED', 'EACH')


class Fault(Exception):
    """What is wrong in a text of the notation or in a case."""


def number(word):
    if not word.isdecimal():
        raise Fault(f'{word or "nothing"} is no number')
    return int(word)


def counted(words, count):
    """The count of a repetition: in so many digits, from a first value on, coming round; in 0 digits as a plain decimal."""
    digits = number(words[0]) if words else 0
    value = count + (number(words[1]) if len(words) > 1 else 0)
    return (b'%0*d' % (digits, value % 10 ** digits)) if digits else b'%d' % value


def whole(tag, words, inside):
    """The bytes of a part, with what the notation fills in."""
    if tag == 'FRAME' and len(words) == 1:
        return b'%08d' % len(inside) + words[0].encode() + inside
    if tag == 'FEED' and len(words) == 1:
        return b'F %s %06d\n' % (words[0].encode(), len(inside)) + inside
    if tag == 'EACH' and len(words) == 1:
        return b''.join(whole('FEED', words, inside[i:i + 1]) for i in range(len(inside)))
    raise Fault(f'<{tag} {" ".join(words)}> is not in the notation')


class Reader:
    """Reads one text. `names` are the bytes that the text may name, and `marks` gives the
    mark of a file."""

    def __init__(self, text, names, marks):
        self.tokens = TOKEN.findall(text)
        self.names = names
        self.marks = marks

    def bytes(self, at, until, count):
        """The bytes from a token on up to the end of this part, and the place behind that end."""
        found = []
        while at < len(self.tokens):
            tag, plain, wrong = self.tokens[at]
            if wrong:
                raise Fault(f'{wrong} stands alone')
            if plain:
                found.append(plain.encode())
                at += 1
            elif tag.startswith('/'):
                if tag[1:] != until:
                    raise Fault(f'<{tag}> ends nothing here')
                return b''.join(found), at + 1
            else:
                piece, at = self.tag(tag.split(' '), at + 1, count)
                found.append(piece)
        if until:
            raise Fault(f'</{until}> is missing')
        return b''.join(found), at

    def tag(self, words, at, count):
        """The bytes of a tag, and the place behind them."""
        tag, words = words[0], words[1:]
        if tag == 'REPEAT':
            times = number(' '.join(words))
            pieces = [self.bytes(at, tag, i) for i in range(max(times, 1))]
            return b''.join(piece for piece, _ in pieces[:times]), pieces[0][1]
        if tag in PARTS:
            inside, at = self.bytes(at, tag, count)
            return whole(tag, words, inside), at
        return self.single(tag, words, count), at

    def single(self, tag, words, count):
        """The bytes of a tag that stands alone."""
        if tag == 'COUNT':
            return counted(words, count)
        if tag == 'MARK' and len(words) == 1:
            return self.marks(words[0])
        if tag == 'HEX' and len(words) == 1:
            return self.marks(words[0]).hex().encode()
        if tag.isdecimal() and len(words) == 1 and len(words[0]) == 1:
            return words[0].encode() * int(tag)
        if words:
            raise Fault(f'<{tag} {" ".join(words)}> is not in the notation')
        if not tag:
            return b''
        if tag in CHARACTERS:
            return CHARACTERS[tag]
        if tag in self.names:
            return self.names[tag]
        if re.fullmatch('[0-9A-F]{2}', tag):
            return bytes.fromhex(tag)
        raise Fault(f'<{tag}> is not in the notation')


def no_mark(file):
    raise Fault(f'the mark of {file} stands in cases alone')


def spelled(text, names=None, marks=no_mark):
    """The bytes that a text stands for: its lines joined, without the blanks in front of them."""
    joined = ''.join(line.lstrip() for line in text.splitlines())
    return Reader(joined, names or {}, marks).bytes(0, None, 0)[0]


def shown(piece):
    """Bytes as the notation has them, in one line."""
    tags = {value[0]: f'<{name}>' for name, value in CHARACTERS.items() if len(value) == 1}
    text = ''.join(tags.get(byte) or (chr(byte) if 32 <= byte < 127 and byte != 60 else f'<{byte:02X}>') for byte in piece)
    return text.replace('<CR><CR><LF>', '<EOL>')
