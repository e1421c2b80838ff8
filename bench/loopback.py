"""Neighbours of the switch over loopback, for scripts: frames, a directory with ports, neighbours as threads, and the
built switch in a folder of its own. Python's standard library alone; nothing listens anywhere but on 127.0.0.1."""
import os
import socket
import struct
import subprocess
import threading
import time

HOST = '127.0.0.1'
# Where folders are made for runs that aren't about the disk: in memory, where the system has a folder there.
IN_MEMORY = '/dev/shm' if os.access('/dev/shm', os.W_OK) else None
EOL = b'\r\r\n'
# How long a thing may take that is there at once, or after the longest pause between two tries.
SOON = 15


def frame(number, heading, text):
    """The frame of a message with this number, heading and text."""
    message = b'\x01' + EOL + b'%03d' % number + EOL + heading + EOL + text + EOL + b'\x03'
    return b'%08dAN' % len(message) + message


def messages_of(stream):
    """The messages of the frames of a stream, and the bytes behind the last whole one."""
    messages, at = [], 0
    while at + 10 <= len(stream):
        end = at + 10 + int(stream[at:at + 8])
        if end > len(stream):
            break
        messages.append(stream[at + 10:end])
        at = end
    return messages, stream[at:]


def number_of(message):
    """The number of a message that the switch wrote."""
    return int(message[4:7])


def body_of(message):
    """All of a message from its heading on."""
    return message[10:]


def free_ports(count):
    """Ports on which nobody listens now."""
    held = [socket.create_server((HOST, 0)) for _ in range(count)]
    ports = [one.getsockname()[1] for one in held]
    for one in held:
        one.close()
    return ports


def listening():
    """The ports on which somebody listens now."""
    with open('/proc/net/tcp') as file:
        rows = [line.split() for line in list(file)[1:]]
    return {int(row[1].partition(':')[2], 16) for row in rows if row[3] == '0A'}


def directory(names, receivers, ports):
    """The directory of circuits with these names, each with two ports; every heading goes to the receivers."""
    rows = ['centre = "TVSV"']
    for place, name in enumerate(names):
        peer = chr(ord('A') + place) * 4
        rows += ['[[circuit]]', f'name = "{name}"', f'peer = "{peer}"']
        rows += [f'input = {ports[2 * place]}', f'output = {ports[2 * place + 1]}']
    to = ', '.join(f'"{name}"' for name in receivers)
    rows += ['[[rule]]', 'heading = "****** ****"', f'to = [{to}]']
    return '\n'.join(rows) + '\n'


def faults_of(got, sent):
    """What is wrong with what a reader got: every frame once, numbered on, and each sender's in the order sent. Each
    sender has a heading of its own."""
    messages, rest = messages_of(got)
    faults = []
    if rest:
        faults.append(f'{len(rest)} bytes behind the frames')
    if [number_of(message) for message in messages] != [(k + 1) % 1000 for k in range(len(messages))]:
        faults.append('the numbers do not go on')
    for sender, frames in enumerate(sent):
        want = [body_of(messages_of(one)[0][0]) for one in frames]
        mark = want[0][:18]
        got_of_sender = [body_of(message) for message in messages if body_of(message)[:18] == mark]
        if got_of_sender != want:
            faults.append(f'sender {sender}: {len(got_of_sender)} frames of {len(want)}, or in another order')
    return faults


class Neighbour(threading.Thread):
    """A neighbour of one circuit: it listens on the port `output`, connects to the port `input`, sends what `say` sends,
    and reads to the end. Its listener stands as soon as it is made. `say` may connect again, as often as it wants."""

    def __init__(self, input_port, output_port, say, seconds, listens_to_end=True, room=None):
        super().__init__(daemon=True)
        self.input_port = input_port
        self.say = say
        self.deadline = time.monotonic() + seconds
        self.listens_to_end = listens_to_end
        self.got = bytearray()
        self.arrivals = 0
        self.first_frame_at = None
        self.said_at = None
        self.fault = None
        self.may_leave = threading.Event()
        self.listener = socket.socket(socket.AF_INET, socket.SOCK_STREAM)
        self.listener.setsockopt(socket.SOL_SOCKET, socket.SO_REUSEADDR, 1)
        if room is not None:
            self.listener.setsockopt(socket.SOL_SOCKET, socket.SO_RCVBUF, room)
        self.listener.bind((HOST, output_port))
        self.listener.listen()
        self.listener.settimeout(seconds)

    def left(self):
        return max(0.1, self.deadline - time.monotonic())

    def connect(self):
        while True:
            try:
                return socket.create_connection((HOST, self.input_port), self.left())
            except ConnectionRefusedError:
                if time.monotonic() > self.deadline:
                    raise
                time.sleep(0.01)

    def speak(self, to):
        try:
            self.say(self, to)
        except OSError as error:
            self.fault = error
        self.said_at = time.monotonic()

    def hear(self, connection):
        whole = 0
        while True:
            piece = connection.recv(1 << 16)
            if not piece:
                return
            self.got += piece
            while whole + 10 <= len(self.got):
                end = whole + 10 + int(self.got[whole:whole + 8])
                if end > len(self.got):
                    break
                whole = end
                self.arrivals += 1
                if self.first_frame_at is None:
                    self.first_frame_at = time.monotonic()

    def run(self):
        try:
            to = self.connect()
            connection, _ = self.listener.accept()
            to.settimeout(self.left())
            connection.settimeout(self.left())
            speaker = threading.Thread(target=self.speak, args=(to,), daemon=True)
            speaker.start()
            if self.listens_to_end:
                self.hear(connection)
            else:
                self.may_leave.wait(self.left())
            connection.close()
            speaker.join(self.left())
            to.close()
        except OSError as error:
            self.fault = error
        finally:
            self.listener.close()

    def awaits(self, frames, seconds):
        """Whether so many whole frames have come within so many seconds."""
        until = time.monotonic() + seconds
        while self.arrivals < frames and time.monotonic() < until:
            time.sleep(0.01)
        return self.arrivals >= frames


def says(*pieces):
    """A neighbour that sends these pieces and ends its stream."""
    def say(_neighbour, to):
        for piece in pieces:
            to.sendall(piece)
        to.shutdown(socket.SHUT_WR)
    return say


def reset(to):
    """Breaks a connection, so that the other side's next read fails."""
    to.setsockopt(socket.SOL_SOCKET, socket.SO_LINGER, struct.pack('ii', 1, 0))
    to.close()


class Listener:
    """A neighbour's port: it accepts one connection after another, and keeps what comes on each."""

    def __init__(self, port, host=HOST):
        self.socket = socket.create_server((host, port))
        self.streams = []
        self.connections = []
        threading.Thread(target=self.accept, daemon=True).start()

    def accept(self):
        while True:
            try:
                connection, _ = self.socket.accept()
            except OSError:
                return
            self.connections.append(connection)
            self.streams.append(bytearray())
            threading.Thread(target=self.hear, args=(connection, self.streams[-1]), daemon=True).start()

    def hear(self, connection, stream):
        try:
            while piece := connection.recv(1 << 16):
                stream += piece
            connection.close()
        except OSError:
            pass

    def end(self):
        """Ends the connection that stands, and goes on listening."""
        self.connections[-1].shutdown(socket.SHUT_RDWR)
        self.connections[-1].close()

    def close(self):
        self.socket.shutdown(socket.SHUT_RDWR)
        self.socket.close()

    def messages(self):
        """What came in frames, keep-alives left out."""
        return [message for stream in list(self.streams) for message in messages_of(bytes(stream))[0] if message]

    def numbers(self):
        return [number_of(message) for message in self.messages()]


def calls(port, *pieces, host=HOST, source=None):
    """Connects to a port, as soon as somebody listens there, and sends these pieces."""
    until = time.monotonic() + SOON
    while True:
        try:
            to = socket.create_connection((host, port), SOON, source_address=(source, 0) if source else None)
            break
        except ConnectionRefusedError:
            if time.monotonic() > until:
                raise
            time.sleep(0.02)
    for piece in pieces:
        to.sendall(piece)
    return to


class Switch:
    """The built switch in a folder, with this directory and a new journal."""

    def __init__(self, program, folder, text):
        self.program = program
        self.folder = folder
        self.process = None
        os.makedirs(folder)
        with open(self.path('directory.toml'), 'w') as file:
            file.write(text)
        self.run('init')

    def path(self, name):
        return os.path.join(self.folder, name)

    def run(self, word, seconds=60):
        done = subprocess.run([self.program, word], cwd=self.folder, capture_output=True, timeout=seconds)
        return done.returncode, done.stdout, done.stderr.decode().partition('\n')[0]

    def serve(self, connections=None, before=None, out=None):
        """Serves one incoming connection of each circuit, or so many, with this done before it. Receipts go to `out`, if given."""
        words = ['serve'] if connections is None else ['serve', str(connections)]
        with open(self.path('receipts'), 'wb') as receipts, open(self.path('faults'), 'wb') as err:
            self.process = subprocess.Popen([self.program, *words], cwd=self.folder, stdout=out or receipts, stderr=err,
                                            preexec_fn=before)

    def descriptors(self):
        """How many descriptors the process has open now."""
        return len(os.listdir(f'/proc/{self.process.pid}/fd'))

    def highest_descriptor(self):
        """The highest descriptor that the process has open now."""
        return max(map(int, os.listdir(f'/proc/{self.process.pid}/fd')))

    def threads(self):
        """How many threads the process has now."""
        return len(os.listdir(f'/proc/{self.process.pid}/task'))

    def memory(self):
        """How many kibibytes of memory the process has in use now."""
        with open(f'/proc/{self.process.pid}/status') as file:
            return next(int(line.split()[1]) for line in file if line.startswith('VmRSS:'))

    def receipts(self):
        with open(self.path('receipts'), 'rb') as file:
            return file.read().decode().splitlines()

    def faults(self):
        """The lines that it wrote on standard error."""
        with open(self.path('faults'), 'rb') as file:
            return file.read().decode().splitlines()

    def end(self, seconds):
        """Its exit status and its line, or a note that it didn't end in time."""
        try:
            status = self.process.wait(seconds)
        except subprocess.TimeoutExpired:
            self.stop()
            return None, f'no end within {seconds} seconds'
        with open(self.path('faults'), 'rb') as file:
            return status, file.read().decode().partition('\n')[0]

    def stop(self):
        """Ends this process, and no other."""
        if self.process is not None and self.process.poll() is None:
            self.process.kill()
            self.process.wait()

    def replay(self, capture, seconds=60):
        with open(self.path('capture.gts'), 'wb') as file:
            file.write(capture)
        return self.run('replay', seconds)
