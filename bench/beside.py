"""A running switch for scripts, with programs beside it that are neighbours on its circuits: the switch as its unit starts it, such a
program, which is killed and started again, a station that sends bulletins and sends again what has no receipt, and a reader of what goes
out. Nothing listens anywhere but on 127.0.0.1."""
import os
import re
import signal
import subprocess
import sys
import threading
import time

TOP = os.path.dirname(os.path.dirname(os.path.abspath(__file__)))
sys.path[:0] = [os.path.join(TOP, 'bench'), os.path.join(TOP, 'packaging')]
from gts_circuit import Circuit, Input, Message, Numbers, Output, Receipts, State, Teller, message_of

SECONDS = 120
PYTHON = '/usr/bin/python3'


class Silent(Teller):
    """Keeps what would be said."""

    def __init__(self, name=''):
        super().__init__(name)
        self.lines = []

    def say(self, line):
        self.lines.append(line)


def directory(centre, rows, rules, window=20_000):
    """The text of a directory: `rows` are pairs of a circuit's name and what stands in its row beside it."""
    text = [f'centre = "{centre}"', f'window = {window}']
    for name, more in rows:
        text += ['[[circuit]]', f'name = "{name}"', *(f'{key} = {value!r}'.replace("'", '"') for key, value in more.items())]
    for pattern, to in rules:
        text += ['[[rule]]', f'heading = "{pattern}"', 'to = [' + ', '.join(f'"{name}"' for name in to) + ']']
    return '\n'.join([*text, '[[level]]', 'tt = "WW"', 'level = 1', ''])


def stop_all():
    """Ends each program that a script has started by this, and what it called."""
    for process in Process.made:
        process.stop()


class Process:
    """A program that is started, killed and started again; what it says on standard error is kept."""
    made = []

    def __init__(self, words, folder, name):
        self.words, self.folder, self.log = words, folder, os.path.join(folder, f'{name}.log')
        self.process, self.kills = None, 0
        self.out = None
        self.made.append(self)

    def start(self):
        with open(self.log, 'ab') as err:
            self.process = subprocess.Popen(self.words, cwd=self.folder, stdin=subprocess.DEVNULL, stdout=self.out or subprocess.DEVNULL,
                                            stderr=err, start_new_session=True)

    def kill(self, number=signal.SIGKILL):
        """Kills it, and what it called."""
        if self.process is not None and self.process.poll() is None:
            os.killpg(self.process.pid, number)
            self.process.wait(SECONDS)
            self.kills += 1

    def again(self, number=signal.SIGKILL):
        self.kill(number)
        self.start()

    def is_up(self):
        return self.process is not None and self.process.poll() is None

    def said(self):
        with open(self.log, encoding='utf-8', errors='replace') as file:
            return file.read().splitlines()

    def stop(self):
        if self.is_up():
            os.killpg(self.process.pid, signal.SIGKILL)
            self.process.wait(SECONDS)


class Service(Process):
    """The built switch in a folder with this directory, as its unit starts it: receipts are appended, behind a line START."""

    def __init__(self, program, folder, text):
        os.makedirs(folder)
        super().__init__([program, 'serve', 'always'], folder, 'switch')
        self.program = program
        with open(os.path.join(folder, 'directory.toml'), 'w') as file:
            file.write(text)
        self.command('init')

    def command(self, *words):
        return subprocess.run([self.program, *words], cwd=self.folder, check=True, capture_output=True, timeout=SECONDS).stdout.decode()

    def start(self):
        self.command('compact')
        with open(os.path.join(self.folder, 'receipts'), 'ab') as self.out:
            self.out.write(b'START\n')
            self.out.flush()
            super().start()

    def receipts(self):
        with open(os.path.join(self.folder, 'receipts'), 'rb') as file:
            return file.read().decode().splitlines()

    def circuit(self, name):
        return Circuit(os.path.join(self.folder, 'directory.toml'), name)

    def waiting(self):
        """How many bulletins wait on each circuit, by its name, and how many draws it had."""
        rows = re.findall(r'^circuit \d\d (\S+) draws (\d+) waiting (\d+)', self.command('show'), re.M)
        return {name: (int(draws), int(waiting)) for name, draws, waiting in rows}


class Station(threading.Thread):
    """The neighbour of a circuit, in a thread: it sends bulletins, and again what has no receipt, keeps each message that comes once, by its
    number and bytes, and asks for numbers that are missing: what the switch had handed to a line is lost where it is killed."""

    def __init__(self, service, name):
        super().__init__(daemon=True)
        self.circuit = service.circuit(name)
        self.input = Input(self.circuit, Receipts(os.path.join(service.folder, 'receipts'), self.circuit.number), self.next_mark, Silent())
        self.output = Output(self.circuit, Silent())
        self.marks, self.ended, self.to_send, self.is_over = 0, 0, [], False
        self.got, self.seen = [], set()

    def next_mark(self):
        self.marks += 1
        return 20_000 + self.marks

    def sends(self, bodies):
        """Bulletins that are to go, each heading, line end and text."""
        self.to_send += bodies

    def is_done(self):
        return not self.to_send and not self.input.is_busy() and self.input.socket is not None

    def takes(self, message):
        if message not in self.seen:
            self.seen.add(message)
            self.got.append(message)

    def asks(self, numbers):
        """Asks for what is missing, where the line into the switch has room."""
        if self.output.ended != self.ended:
            self.ended = self.output.ended
            numbers.connection_ended()
        asked = numbers.asks() if self.input.has_room() else b''
        if asked:
            self.input.put(self.input.request(asked))

    def run(self):
        numbers = Numbers(self.circuit, State(':memory:', ''), Silent())
        while not self.is_over:
            self.asks(numbers)
            while self.to_send and self.input.has_room():
                self.input.put(Message(b'AN', message_of(b'001', self.to_send.pop(0))))
            answered = self.input.serves()
            found = self.output.reads()
            for _, message in found:
                numbers.judge(message)
                self.takes(message)
            if not found and not answered:
                time.sleep(0.002)
        self.input.ends()
        self.output.ends()
        self.output.listener.close()

    def close(self):
        self.is_over = True
        if self.is_alive():
            self.join(SECONDS)


class Patience:
    """So many times as long as usual may all take, on a machine that has much else to do."""
    times = 1


def awaits(holds, seconds, every=0.02):
    """Whether something holds within so many seconds."""
    until = time.monotonic() + seconds * Patience.times
    while not holds():
        if time.monotonic() > until:
            return False
        time.sleep(every)
    return True
