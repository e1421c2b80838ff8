"""What the scripts of the gate share: the program that they try, a folder in which it runs, a limit on how long they take, what they
found, and how they are called. Frames, neighbours and a switch that serves are in bench/loopback.py, the plain reading of the
formats is in bench/journal.py, hosts of their own are in bench/hosts.py, and a network of centres is in bench/network.py; these
folders are on the path behind `import gate`.

A script is called as `NAME [PROGRAM] [--break FAULT] [--seed N] [-k WORDS]`. With `--break` one thing is wrong on purpose, and the
script must fail: `.ci/sees` tries each of these, and every script with a program that does nothing."""
import argparse
import os
import signal
import subprocess
import sys
import tempfile

TOP = os.path.dirname(os.path.dirname(os.path.dirname(os.path.abspath(__file__))))
TESTS = os.path.join(TOP, '.ci/tests')
BUILT = os.path.join(TOP, 'crates/gts_switch/out/gts_switch')
sys.dont_write_bytecode = True
for folder in ('bench', 'cases', '.ci/tests'):
    sys.path.insert(0, os.path.join(TOP, folder))

# Where folders are made for runs that aren't about the disk: in memory, where the system has a folder there.
IN_MEMORY = '/dev/shm' if os.access('/dev/shm', os.W_OK) else None
# How many runs go on side by side, each in a folder of its own.
SIDE_BY_SIDE = os.cpu_count() or 1
SECONDS = 60
SHOWN = 300
SMALLEST = b'centre = "TVSV"\n[[circuit]]\nname = "A"\npeer = "AAAA"\n'
EMPTY_JOURNAL = 41


class Fault(Exception):
    """Something isn't as it must be."""


class Faults(list):
    """What isn't as it must be, a line each."""

    def wants(self, what, got, want):
        if got != want:
            self.append(f'{what}: got {shortened(got)}, wanted {shortened(want)}')


def shortened(what):
    """A value as it is told of a fault."""
    text = repr(what)
    return text if len(text) <= SHOWN else f'{text[:SHOWN // 2]} .. {text[-SHOWN // 2:]}'


def program_of(path=None):
    """The program that is tried: the built one where none is named. It has to be there and to do something: `init` makes an empty
    journal, and a word that is no command is answered by the usage line."""
    program = os.path.abspath(path or BUILT)
    if not os.access(program, os.X_OK):
        raise Fault(f'there is no program at {program}')
    with tempfile.TemporaryDirectory(dir=IN_MEMORY) as at:
        folder = Folder(program, at, SMALLEST)
        if folder.run('init') != (0, b'', '') or len(folder.read('journal.0')) != EMPTY_JOURNAL:
            raise Fault(f'{program} makes no journal')
        status, said, line = folder.run('no-command')
        if (status, said) != (2, b'') or not line.startswith('usage: '):
            raise Fault(f'{program} takes a word that is no command')
    return program


def program_or_end(path=None):
    """The same; where there is none this script ends here, and has failed."""
    try:
        return program_of(path)
    except Fault as fault:
        sys.exit(f'{os.path.basename(sys.argv[0])}: {fault}')


class Folder:
    """A folder with a directory file, and the program that works in it. `faults` has what was wrong with that, `count` how often it
    was run, and `cause` the second line of its last fault."""

    def __init__(self, program, at, directory=None):
        self.program, self.at = program, at
        self.faults, self.count, self.cause = Faults(), 0, ''
        os.makedirs(at, exist_ok=True)
        if directory is not None:
            self.write('directory.toml', directory)

    def path(self, name):
        return os.path.join(self.at, name)

    def write(self, name, text):
        with open(self.path(name), 'wb') as file:
            file.write(text.encode() if isinstance(text, str) else text)

    def read(self, name):
        """The bytes of a file; none where it isn't there."""
        try:
            with open(self.path(name), 'rb') as file:
                return file.read()
        except FileNotFoundError:
            return b''

    def remove(self, *names):
        for name in names:
            if os.path.lexists(self.path(name)):
                os.remove(self.path(name))

    def journal(self):
        """The three files of the journal."""
        return [self.read(f'journal.{number}') for number in range(3)]

    def lay(self, files):
        """These journal files, and no frame."""
        self.remove(*(name for name in os.listdir(self.at) if name.startswith('circuit.')))
        for number, text in enumerate(files):
            self.write(f'journal.{number}', text)

    def frames(self, circuit):
        return self.read(f'circuit.{circuit:02}.out')

    def run(self, *words, capture=None, seconds=SECONDS, **more):
        """Its exit status, what it said, and its line of a fault without the program's name."""
        self.count += 1
        if capture is not None:
            self.write('capture.gts', capture)
        done = subprocess.run([self.program, *words], cwd=self.at, stdin=subprocess.DEVNULL, capture_output=True, timeout=seconds,
                              **more)
        line, self.cause = [text.removeprefix('gts_switch: ') for text in (*done.stderr.decode(errors='replace').split('\n'), '')[:2]]
        return done.returncode, done.stdout, line

    def starts(self, *words, **more):
        """The program as a process whose output is read by the caller, where nothing else is said."""
        self.count += 1
        kept = {'stdin': subprocess.DEVNULL, 'stdout': subprocess.PIPE, 'stderr': subprocess.DEVNULL, **more}
        return subprocess.Popen([self.program, *words], cwd=self.at, **kept)

    def wants(self, what, got, want):
        self.faults.wants(what, got, want)


def feed(circuit, frame):
    """A step of a capture in which a frame comes on a circuit."""
    return b'F %02d %06d\n' % (circuit, len(frame)) + frame


def ends_within(name, seconds, before=None):
    """Sees to it that a script comes to an end: behind so many seconds, and where it is told to end, it does what `before` says and
    ends with status 1."""
    def give_up(number, _stack):
        signal.alarm(0)
        if before is not None:
            before()
        why = f'no end within {seconds} seconds' if number == signal.SIGALRM else 'told to end'
        print(f'{name}: {why}', flush=True)
        os._exit(1)
    for number in (signal.SIGALRM, signal.SIGTERM, signal.SIGINT):
        signal.signal(number, give_up)
    signal.alarm(seconds)


def words_of_call(doc, breaks=(), **more):
    """The words with which a script was called: `program`, `broken` and `seed`; `more` are further ones with what they are."""
    words = argparse.ArgumentParser(description=doc, formatter_class=argparse.RawDescriptionHelpFormatter)
    words.add_argument('program', nargs='?')
    words.add_argument('--seed', type=int, default=1)
    words.add_argument('--break', dest='broken', choices=breaks)
    for name, how in more.items():
        words.add_argument(name if how.pop('bare', False) else f'--{name}', **how)
    found = words.parse_args()
    found.program = program_or_end(found.program)
    return found


def verdict(name, faults, line):
    """Says what was wrong and a last line, and gives the exit status."""
    for fault in faults[:20]:
        print(f'{name}: {fault}')
    print(f'{name}: {line}, {len(faults)} faults')
    return 1 if faults else 0


# What a test imports beside Python's own, and Debian's package of each.
NEEDS = {'pytest': 'python3-pytest', 'hypothesis': 'python3-hypothesis', 'yaml': 'python3-yaml'}


def python():
    """A Python that has what tests need: this one, or that of the system. Where there is none this script ends here, and says which
    packages are missing."""
    for each in (place for place in (sys.executable, '/usr/bin/python3') if os.access(place, os.X_OK)):
        missing = [package for name, package in NEEDS.items()
                   if subprocess.run([each, '-c', f'import {name}'], stderr=subprocess.DEVNULL).returncode]
        if not missing:
            return each
    sys.exit(f'{os.path.basename(sys.argv[0])}: tests need what is missing here: as root `apt-get install {" ".join(missing)}`, or '
             '`.ci/run packages` for all that the gate needs')


def tested(name, program=None, broken=None, seed=1, seconds=180, nodes=(), more=()):
    """Becomes a run by pytest of `.ci/tests/test_NAME.py`, of all its tests or those of these names. It comes to an end within so
    many seconds."""
    file = os.path.join(TESTS, f'test_{name}.py')
    call = ['-q', '-s', '-rs', '-p', 'no:cacheprovider', '--tb=short', f'--seconds={seconds}', f'--seed={seed}', *more]
    call += [f'--program={os.path.abspath(program)}'] if program else []
    call += [f'--break={broken}'] if broken else []
    call += [f'{file}::{node}' for node in nodes] or [file]
    sys.stdout.flush()
    os.execv(python(), [python(), '-B', '-m', 'pytest', *call])


def run_tests(name, doc, breaks=(), seconds=180):
    """What a script does whose tests stand in `.ci/tests/test_NAME.py`."""
    words = argparse.ArgumentParser(description=doc, formatter_class=argparse.RawDescriptionHelpFormatter)
    words.add_argument('program', nargs='?', help='another program than the built one')
    words.add_argument('--seed', type=int, default=1)
    words.add_argument('--break', dest='broken', choices=breaks, help='one thing is wrong on purpose, and the tests fail')
    words.add_argument('--each', type=int, default=1, help='each Nth of many comparisons alone, for a program that is slow')
    words.add_argument('-k', dest='chosen', help='the tests whose names fit these words, as pytest has it')
    found = words.parse_args()
    more = [f'--each={found.each}', *(['-k', found.chosen] if found.chosen else [])]
    tested(name, found.program, found.broken, found.seed, seconds * found.each, more=more)
