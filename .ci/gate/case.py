"""A case of cases/: what its lines mean, and what a program leaves that does otherwise. cases/README.md says how one is written."""
import fcntl
import glob
import hashlib
import os
import shutil
import subprocess
import tempfile

from . import TOP

from notation import Fault, number, shown, spelled

CASES = os.path.join(TOP, 'cases')
SECONDS = 120
SHOWN = 60


def read(path):
    with open(path, 'rb') as file:
        return file.read()


def content(path):
    """The bytes of a file, and None where there is none."""
    return read(path) if os.path.isfile(path) else None


def write(path, content):
    with open(path, 'wb') as file:
        file.write(content)


def elements(text):
    """The lines of a case that begin at the margin, each with its words and the indented lines behind it."""
    found = []
    for line in text.splitlines():
        if line.startswith('#') or not line.strip():
            continue
        if line[0] == ' ':
            if not found:
                raise Fault('the first line is indented')
            found[-1][1].append(line.strip())
        else:
            found.append((line, []))
    return found


def difference(got, want):
    """Where two pieces of bytes differ first."""
    at = next((i for i, (a, b) in enumerate(zip(got, want)) if a != b), min(len(got), len(want)))
    got, want = (shown(piece[at:at + SHOWN]) or 'the end' for piece in (got, want))
    return f'at byte {at}: {got}, wanted {want}'


class Case:
    """One case, in a folder of its own. `before` has the bytes of each file as they were before the last run. What a run says goes
    through `altered`, by which a test shows that a difference is seen."""

    def __init__(self, name, program, altered=None):
        self.folder = os.path.join(CASES, name)
        self.program = program
        self.altered = altered or (lambda said: said)
        self.names = {}
        self.step = 0
        self.differences = []
        self.forget()

    def forget(self):
        """Begins a step: nothing was run in it so far."""
        self.ran = None
        self.output = None
        self.locked = None

    def differs(self, what):
        self.differences.append(f'step {self.step}: {what}')

    def mark(self, file):
        return hashlib.sha256(read(file)).digest()

    def spelled(self, text):
        return spelled(text, self.names, self.mark)

    def lines(self, block):
        """The bytes of lines that each end in LF, whether it is written or not."""
        spelled = map(self.spelled, block)
        return b''.join(line if line.endswith(b'\n') else line + b'\n' for line in spelled)

    def joined(self, block):
        return self.spelled('\n'.join(block))

    def elsewhere(self, path):
        """A file beside the case, under cases/ or in the repository."""
        for folder in (self.folder, CASES, TOP):
            if os.path.isfile(os.path.join(folder, path)):
                return read(os.path.join(folder, path))
        raise Fault(f'{path} is not there')

    def empty(self):
        for name in os.listdir('.'):
            if os.path.isdir(name):
                os.rmdir(name)
            else:
                os.remove(name)

    def all_files(self):
        return {name: content(name) for name in os.listdir('.')}

    def given(self, verb, rest, block):
        """Does one thing that stands in front of a run, and says whether the verb is one of these."""
        words = rest.split(' ')
        name = words[0]
        if verb == 'let':
            name, text = rest.split(' = ', 1)
            self.names[name] = self.spelled(text)
        elif verb == 'read':
            self.names[words[0]] = self.elsewhere(words[2]).removesuffix(b'\n')
        elif verb == 'text':
            write(name, self.lines(block))
        elif verb == 'bytes':
            write(name, self.joined(block))
        elif verb == 'capture':
            write('capture.gts', self.joined(block))
        elif verb == 'copy':
            write(words[0], self.elsewhere(words[2]))
        elif verb == 'spell':
            text = self.elsewhere(words[2]).decode('ascii').splitlines()
            write(words[0], self.joined([line for line in text if not line.startswith('#')]))
        elif verb == 'put':
            with open(name, 'r+b') as file:
                file.seek(number(words[1]))
                file.write(self.spelled(' '.join(words[2:])))
        elif verb == 'cut':
            os.truncate(name, number(words[1]))
        elif verb == 'folder':
            os.mkdir(name)
        elif verb == 'link':
            os.symlink(words[1], name)
        elif verb == 'remove':
            os.remove(name)
        elif verb == 'anew':
            self.closed()
            self.empty()
        elif verb == 'output':
            self.output = name
        elif verb == 'locked':
            self.locked = name
        else:
            return False
        return True

    def run(self, words):
        """Runs the program. Each step tells what it said: the circuits' files of the step before go first."""
        self.closed()
        output, locked = self.output, self.locked
        self.forget()
        self.step += 1
        for file in glob.glob('circuit.*.out'):
            if os.path.isfile(file):
                os.remove(file)
        self.before = self.all_files()
        command = [self.program.encode()] + [self.spelled(word) for word in words]
        with open(output, 'wb') if output else tempfile.TemporaryFile() as said:
            lock = open(locked, 'ab') if locked else None
            if lock:
                fcntl.flock(lock, fcntl.LOCK_EX)
            done = subprocess.run(command, stdin=subprocess.DEVNULL, stdout=said, stderr=subprocess.PIPE, timeout=SECONDS)
            if lock:
                lock.close()
            if not output:
                said.seek(0)
            self.said = self.altered(said.read()) if not output else b''
        self.ran = done.returncode
        self.line = done.stderr
        self.status = 0
        self.wanted = b''
        self.cause = b''
        self.looked = set()

    def closed(self):
        """Ends a step: what it doesn't name was not said."""
        if self.ran is None:
            return
        if self.ran != self.status:
            self.differs(f'exit status {self.ran}, wanted {self.status}')
        if self.line != self.wanted + self.cause:
            self.differs(f'standard error {difference(self.line, self.wanted + self.cause)}')
        if 'says' not in self.looked:
            self.equal('standard output', self.said, b'')
        for file in sorted(glob.glob('circuit.*.out')):
            if file not in self.looked and os.path.isfile(file):
                self.differs(f'{file} was written')
        self.ran = None

    def equal(self, what, got, want):
        if got != want:
            self.differs(f'{what} {difference(got, want)}')

    def wants(self, verb, rest, block):
        """Looks at one thing that a run left, and says whether the verb is one of these."""
        words = rest.split(' ')
        name = words[0]
        if verb == 'status':
            self.status = number(name)
        elif verb == 'line':
            self.wanted = b'gts_switch: ' + self.spelled(rest) + b'\n'
        elif verb == 'cause':
            self.cause = b'gts_switch: ' + self.spelled(rest) + b'\n'
        elif verb == 'says':
            self.looked.add('says')
            self.equal('standard output', self.said, self.lines(block))
        elif verb == 'circuit':
            file = f'circuit.{name}.out'
            self.looked.add(file)
            self.equal(file, content(file) or b'', self.joined(block))
        elif verb == 'holds':
            self.equal(name, content(name) or b'', self.joined(block))
        elif verb == 'is':
            self.equal(name, content(name) or b'', self.elsewhere(words[2]))
        elif verb == 'size':
            self.looked.add(name)
            got = content(name)
            if got is None or len(got) != number(words[1]):
                self.differs(f'{name} has {len(got) if got is not None else "no"} bytes, wanted {words[1]}')
        elif verb == 'same':
            self.equal(name, content(name) or b'', self.before.get(name) or b'')
        elif verb == 'none':
            if os.path.lexists(name):
                self.differs(f'{name} is there')
        else:
            return False
        return True

    def element(self, head, block):
        verb, _, rest = head.partition(' ')
        if verb == 'run':
            self.run(words_in(rest) if rest else [])
            return
        if self.ran is not None and self.wants(verb, rest, block):
            return
        if not self.given(verb, rest, block):
            raise Fault(f'{verb} may not stand here')

    def all(self):
        """Does all that stands in the case, and gives what differed. A case without a run shows nothing."""
        for head, block in elements(self.text()):
            self.element(head, block)
        self.closed()
        if self.step == 0:
            self.differs('nothing is run')
        return self.differences

    def text(self):
        return self.elsewhere(os.path.join(self.folder, 'case')).decode('ascii')

    def tried(self):
        """Runs `rt try` with the words of the first run that isn't init, over the files that stand before it. What init makes is
        made here."""
        for head, block in elements(self.text()):
            verb, _, rest = head.partition(' ')
            if head == 'run init':
                write('journal.0', b'GTSJ0002' + self.mark('directory.toml') + b'C')
            elif verb == 'run':
                return look(words_in(rest))
            else:
                self.given(verb, rest, block)
        raise Fault('the case runs init alone')


def words_in(text):
    """The words of a run: a blank inside a word is written `<20>`."""
    return [word.replace('<20>', ' ') for word in text.split(' ')]


def look(words):
    """Runs `rt try` with these words over the files of the current folder. A capture is replayed by the smaller program."""
    files = [file for file in os.listdir('.') if os.path.isfile(file)]
    data = [word for file in files for word in ('--data', f'{file}={os.path.abspath(file)}')]
    crate, behind = ('gts_look', []) if words == ['replay'] else ('gts_switch', ['--', *words])
    return subprocess.run(['rt', 'try', *data, *behind], cwd=os.path.join(TOP, 'crates', crate)).returncode


def in_folder(case, work):
    """Does this work of a case in a new folder."""
    folder = tempfile.mkdtemp()
    try:
        os.chdir(folder)
        return work()
    except (Fault, OSError, ValueError, IndexError, subprocess.TimeoutExpired) as fault:
        return [f'step {case.step}: {type(fault).__name__}: {fault}']
    finally:
        os.chdir(TOP)
        shutil.rmtree(folder)


def folders():
    """The names of all folders of cases/, each of which is a case."""
    return sorted(name for name in os.listdir(CASES) if os.path.isdir(os.path.join(CASES, name)) and not name.startswith('__'))


def another_letter(said):
    """What a run says, with another last letter."""
    return said[:-2] + b'#\n'


def differences(name, program, altered=None):
    """What a program leaves otherwise than a case says."""
    case = Case(name, program, altered)
    return in_folder(case, case.all)


def tries(name, program):
    """Runs `rt try` with the first run of a case that isn't `init`."""
    case = Case(name, program)
    return in_folder(case, case.tried)
