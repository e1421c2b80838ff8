"""Two machines that run the switch without a hand, and a third one with a vote, on machines of this machine (bench/machines.py): set up
by the very commands of docs/CLUSTER.md out of the files of examples/cluster, with neighbours on this machine who send, read and write
down all that they see, and a judge over that."""
import hashlib
import os
import re
import shutil
import socket
import struct
import subprocess
import threading
import time
from collections import Counter, defaultdict

import machines
from hosts import NoHosts
from loopback import messages_of

TOP = os.path.dirname(os.path.dirname(os.path.abspath(__file__)))
HERE = os.path.join(TOP, 'examples/cluster')
PAGE = os.path.join(TOP, 'docs/CLUSTER.md')
THERE = '/usr/share/doc/gts-switch/examples/cluster'
ADDRESS, NEIGHBOURS = '10.77.0.10', '10.77.0.100'
NETS = {'one': ('10.77.0.1/24', '10.78.0.1/24'), 'two': ('10.77.0.2/24', '10.78.0.2/24'), 'third': ('10.77.0.3/24',)}
PAIR = ('one', 'two')
MEMORY = {'one': 512, 'two': 512, 'third': 192}
# The cables of the public network and of the mirror.
PUBLIC, MIRROR = 0, 1
DISK = 96 << 20
INPUT, OUTPUTS = 4101, (4201, 4202)
# So many bulletins a second come.
RATE = 2
# One thing that is wrong on purpose: in which file, what stands there, and what stands there instead.
WRONG = {'fencing': ('gts.res', 'fencing resource-and-stonith', 'fencing dont-care'),
         'stonith': ('cib.xml', 'name="stonith-watchdog-timeout" value="10s"', 'name="stonith-watchdog-timeout" value="6s"'),
         'source': ('gts_switch-address.service', re.compile('(?m)^ExecStart=.*route.*\n'), ''),
         'sbd': ('sbd', 'SBD_STARTMODE=always', 'SBD_STARTMODE=always')}
# The timers in these files: what stands before a number.
TIMERS = (('corosync.conf', r'(\b(?:token|timeout|sync_timeout): )(\d+)'), ('sbd', r'(SBD_WATCHDOG_TIMEOUT=)(\d+)'),
          ('cib.xml', r'(name="stonith-watchdog-timeout" value=")(\d+)'), ('cib.xml', r'(timeout=")(\d+)'),
          ('gts.res', r'(\b(?:timeout|ping-timeout|ping-int) )(\d+)'), ('gts.res', r'(--(?:dc-)?timeout )(\d+)'))
# What is another machine's in these files: its disk and its watchdog.
OWN = {'gts.res': (('/dev/vg0/gts', '/dev/ubdb'),), 'sbd': (('/dev/watchdog\n', '/dev/watchdog1\n'),)}
TOLD = 10
# So many seconds later a machine that says no receipts is asked again: each call costs it some.
ASKS_AGAIN = 4
EOL = b'\r\r\n'


def steps():
    """The commands of the page's first section: a list of pairs, on which machines, and what is called there."""
    with open(PAGE, encoding='utf-8') as file:
        section = file.read().split('\n## First steps\n')[1].split('\n## ')[0]
    found, where = [], None
    for line in section.splitlines():
        told = re.match(r'\*\*On (the third|both|one)\*\*', line)
        if told:
            where = {'the third': ('third',), 'both': PAIR, 'one': ('one',)}[told[1]]
            found.append((where, []))
        elif line.startswith('    ') and found:
            found[-1][1].append(line.strip())
    return found


class Cluster:
    """The three machines. `broken` names one thing that is wrong."""

    def __init__(self, at, program, broken=None, patience=1):
        self.at, self.program, self.broken, self.patience = at, program, broken, patience
        machines.patience = patience
        self.kept = os.path.join(machines.KEPT, f'cluster.{self.mark()}')
        self.is_kept = os.path.isdir(self.kept)
        self.package = None if self.is_kept else self.packaged(program)
        self.machines = machines.Machines(at, self.prepares, bridges=2, kept=self.kept if self.is_kept else None)
        self.machines.ip('addr', 'add', f'{NEIGHBOURS}/24', 'dev', 'br0')
        self.machines.spaces.tool('wires', 'nft', 'add table bridge parts; add chain bridge parts way { type filter hook forward priority 0; }')
        for number, name in enumerate(NETS, 1):
            disks = []
            if name in PAIR:
                disks = [os.path.join(at, f'disk.{name}')]
                with open(disks[0], 'wb') as file:
                    file.truncate(DISK)
            self.machines.add(name, number, nets=NETS[name], disks=disks, memory=MEMORY[name])
        self.one, self.two, self.third = (self.machines.machines[name] for name in NETS)

    def __getitem__(self, name):
        return self.machines.machines[name]

    def other(self, name):
        return 'two' if name == 'one' else 'one'

    def packaged(self, program):
        # It is unpacked at once: to make it small would take longer than all else.
        done = subprocess.run([os.path.join(TOP, 'packaging/deb'), self.at, program], capture_output=True, text=True, timeout=machines.MAKING,
                              env={**os.environ, 'DPKG_DEB_COMPRESSOR_TYPE': 'none'})
        if done.returncode:
            raise NoHosts(f'packaging/deb: {done.stderr.strip()[-300:]}')
        return done.stdout.strip()

    def prepares(self, root):
        """The root of all three: the package, and what is this kind of machine's own."""
        shutil.copy(self.package, os.path.join(root, 'tmp/gts-switch.deb'))
        machines.called('chroot', root, 'dpkg', '--force-unsafe-io', '-i', '/tmp/gts-switch.deb')
        machines.writes(root, 'etc/hosts', '127.0.0.1 localhost\n' + ''.join(f'{nets[0][:-3]} {name}\n' for name, nets in NETS.items()))
        machines.writes(root, 'etc/modules-load.d/own.conf', 'drbd\nsoftdog\n')
        machines.writes(root, 'etc/drbd.d/global_common.conf', 'global { usage-count no; }\ncommon { }\n')
        with open(self.key_of_root()) as file:
            machines.writes(root, 'root/.ssh/id_ed25519', file.read(), 0o600)
        machines.writes(root, 'root/.ssh/config', 'StrictHostKeyChecking no\nUserKnownHostsFile /dev/null\nLogLevel ERROR\n')
        machines.writes(root, 'etc/systemd/system/corosync-qnetd.service.d/own.conf', '[Unit]\nConditionKernelCommandLine=own=third\n')
        machines.called('chroot', root, 'systemctl', 'enable', 'corosync-qnetd')
        for name, changes in OWN.items():
            self.changes(os.path.join(root, THERE[1:], name), *changes)
        for name, pattern in TIMERS if self.patience != 1 else ():
            self.changes(os.path.join(root, THERE[1:], name), (re.compile(pattern), self.longer))
        if self.broken in WRONG:
            name, *change = WRONG[self.broken]
            self.changes(os.path.join(root, THERE[1:], name), change)

    def longer(self, found):
        """A timer of a file, for machines that are so many times slower."""
        return f'{found[1]}{int(found[2]) * self.patience}'

    def key_of_root(self):
        return os.path.join(self.at, 'key')

    @staticmethod
    def changes(path, *changes):
        with open(path) as file:
            text = file.read()
        for old, new in changes:
            known = old.search(text) if isinstance(old, re.Pattern) else old in text
            if not known:
                raise NoHosts(f'{path} has no {old}')
            text = old.sub(new, text) if isinstance(old, re.Pattern) else text.replace(old, new)
        with open(path, 'w') as file:
            file.write(text)

    def begins(self, seconds=300):
        """Switches all on, and does what the page says, each command as it stands there; the packages are there already. What that came to
        is kept, and the next run of the same program, page and files begins with it."""
        names = [*(f'{name}.root' for name in NETS), *(f'disk.{name}' for name in PAIR)]
        if self.is_kept:
            for name in names:
                machines.called('cp', '-p', '--sparse=always', os.path.join(self.kept, name), self.path(name), seconds=machines.MAKING)
            self.switches_on()
            return
        self.switches_on()
        self.pastes(seconds)
        if not self.in_step(seconds):
            return
        for name in NETS:
            self[name].wants('sync')
            self[name].hangs(True)
        for old in [name for name in os.listdir(machines.KEPT) if name.startswith('cluster.')]:
            shutil.rmtree(os.path.join(machines.KEPT, old))
        os.makedirs(f'{self.kept}.new')
        for name in ['root', 'key', *names]:
            machines.called('cp', '-p', '--sparse=always', self.path(name), os.path.join(f'{self.kept}.new', name), seconds=machines.MAKING)
        os.replace(f'{self.kept}.new', self.kept)
        for name in NETS:
            self[name].hangs(False)

    def mark(self):
        """What a set-up depends on."""
        found = hashlib.sha256(f'{self.broken} {self.patience} {machines.root_of()} {MEMORY} {DISK} {NETS}'.encode())
        found.update(repr(steps()).encode())
        for folder in (HERE, os.path.join(TOP, 'packaging')):
            for name in sorted(os.listdir(folder)):
                if name not in ('talk', 'machines', 'timers', 'README.md'):
                    with open(os.path.join(folder, name), 'rb') as file:
                        found.update(name.encode() + file.read())
        with open(self.program, 'rb') as file:
            found.update(file.read())
        return found.hexdigest()[:16]

    def path(self, name):
        """Where a file of this run stands: that of a machine in its own folder."""
        machine, _, own = name.partition('.')
        return os.path.join(self.at, machine, own) if machine in NETS else os.path.join(self.at, name)

    def switches_on(self):
        for name in NETS:
            self[name].on()
        for name in NETS:
            self[name].awaits()

    def pastes(self, seconds):
        """Does what the page says."""
        for where, commands in steps():
            called = [command for command in commands if not command.startswith(('apt ', 'editor '))]
            if self.broken == 'sbd':
                called = [command.replace('systemctl enable sbd && ', '') for command in called]
            threads = [threading.Thread(target=self.step, args=(self[name], called, seconds)) for name in where]
            self.wrong = []
            for thread in threads:
                thread.start()
            for thread in threads:
                thread.join()
            if self.wrong:
                raise NoHosts(self.wrong[0])

    def step(self, machine, commands, seconds):
        begun = time.monotonic()
        try:
            machine.wants('set -e\ncd ' + THERE + '\n' + '\n'.join(commands), seconds)
        except NoHosts as fault:
            self.wrong.append(str(fault))
        print(f'  {machine.name}: {len(commands)} commands of the page in {time.monotonic() - begun:.0f} s', flush=True)

    def parts(self, name):
        """A machine is parted from the other and the third; the neighbours still reach it."""
        self[name].pulls(MIRROR)
        address = self[name].hardware_address(PUBLIC)
        self.machines.spaces.tool('wires', 'nft', f'add rule bridge parts way ether saddr {address} drop; '
                                                  f'add rule bridge parts way ether daddr {address} drop')

    def joins(self, name):
        self.machines.spaces.tool('wires', 'nft', 'flush chain bridge parts way')
        self[name].mends(MIRROR)

    def drbd(self, name):
        """What its kernel says of the mirror: connection, roles and disks."""
        status, said = self[name].run('cat /proc/drbd', 10)
        found = re.search(r'cs:(\S+) ro:(\S+) ds:(\S+)', said or '')
        return found.groups() if status == 0 and found else None

    def in_step(self, seconds):
        """Both machines are there, the disks are the same and up to date, one is first, nobody is barred; within so many seconds."""
        until = time.monotonic() + seconds * self.patience
        while time.monotonic() < until:
            found = self.drbd('one')
            if found and found[0] == 'Connected' and found[2] == 'UpToDate/UpToDate' and found[1] in ('Primary/Secondary', 'Secondary/Primary'):
                status, said = self.one.run("crm_mon --one-shot --as-xml; cibadmin --query --scope constraints", 20)
                both = len(re.findall(r'<node name="(?:one|two)"[^>]* online="true"[^>]* standby="false"[^>]* pending="false"', said or ''))
                if status == 0 and both == 2 and 'drbd-fence-by-handler' not in said:
                    return True
            time.sleep(1)
        return False

    def first(self):
        """Which machine's disk is the first one, asked at each that can be called."""
        found = {}
        for name in PAIR:
            told = self.drbd(name) if self[name].process is not None else None
            if told:
                found[name] = told[1].partition('/')[0]
        return [name for name, role in found.items() if role == 'Primary']

    def remove(self):
        self.machines.remove()


class Neighbours:
    """The neighbours, all on this machine: the one sends bulletins, each with a heading of its own, and both write down each frame that
    they get. What the sender hasn't seen forwarded when a connection breaks it sends again, in its order. `events` has all of it: a time,
    a word, and what goes with it. Receipts are read from outside by `ssh`, as long as a machine says them."""

    def __init__(self, cluster):
        self.cluster, self.events, self.over, self.lock = cluster, [], False, threading.Lock()
        self.seen, self.sent, self.receipts, self.payloads = set(), 0, {}, []
        # So many bulletins are sent at the next turn.
        self.at_once = 1
        self.threads = [threading.Thread(target=work, args=words, daemon=True) for work, words in
                        [(self.reads, (0,)), (self.reads, (1,)), (self.sends, ()), *((self.looks, (name,)) for name in PAIR),
                         *((self.follows, (name,)) for name in PAIR)]]

    def starts(self):
        for thread in self.threads:
            thread.start()

    def note(self, *words):
        with self.lock:
            self.events.append((time.time(), *words))

    def heading(self, number):
        """A heading for each bulletin."""
        minute, number = number % 60, number // 60
        hour, number = number % 24, number // 24
        return f'SMBR{number // 20 % 90 + 10} TBPB {number % 20 + 1:02}{hour:02}{minute:02}'

    def frame(self, number, heading):
        message = b'\x01' + EOL + b'%05d' % (number % 100_000) + EOL + heading.encode() + EOL + b'AAXX OF ' + heading.encode() + b'=' + EOL + b'\x03'
        return b'%08dAN' % len(message) + message

    def reads(self, circuit):
        self.cluster.machines.spaces.enters('wires')
        listener = socket.create_server((NEIGHBOURS, OUTPUTS[circuit]))
        listener.settimeout(0.5)
        while not self.over:
            try:
                connection, place = listener.accept()
            except TimeoutError:
                continue
            self.note('called', circuit, place[0])
            threading.Thread(target=self.hears, args=(connection, circuit), daemon=True).start()

    def hears(self, connection, circuit):
        kept = b''
        try:
            while piece := connection.recv(1 << 16):
                found, kept = messages_of(kept + piece)
                for message in found:
                    if message:
                        lines = message.split(EOL)
                        self.note('frame', circuit, int(lines[1]), lines[2].decode())
                        self.seen.add(lines[2].decode())
        except OSError:
            pass
        connection.close()

    def sends(self):
        self.cluster.machines.spaces.enters('wires')
        connection, number = None, 0
        while not self.over:
            try:
                if connection is None:
                    connection = socket.create_connection((ADDRESS, INPUT), 2)
                    connection.setsockopt(socket.IPPROTO_TCP, socket.TCP_NODELAY, 1)
                    connection.setsockopt(socket.IPPROTO_TCP, socket.TCP_USER_TIMEOUT, 4000)
                    self.note('connected')
                    for again in range(self.sent):
                        if self.heading(again) not in self.seen:
                            number += 1
                            connection.sendall(self.frame(number, self.heading(again)))
                            self.note('again', self.heading(again))
                count, self.at_once = self.at_once, 1
                connection.sendall(b''.join(self.frame(number + 1 + more, self.heading(self.sent + more)) for more in range(count)))
                self.note('sent', count)
                number, self.sent = number + count, self.sent + count
                time.sleep(1 / RATE)
            except OSError as error:
                if connection is not None:
                    self.note('broken', str(error))
                    connection.close()
                connection = None
                time.sleep(0.3)

    def looks(self, name):
        """Which machine the switch's address speaks from: each packet with bytes of it."""
        self.cluster.machines.spaces.enters('wires')
        tap = socket.socket(socket.AF_PACKET, socket.SOCK_RAW, socket.htons(0x0800))
        tap.bind((self.cluster[name].cable(PUBLIC), 0))
        tap.settimeout(0.5)
        address = socket.inet_aton(ADDRESS)
        while not self.over:
            try:
                packet, place = tap.recvfrom(1 << 16)
            except TimeoutError:
                continue
            except OSError:
                time.sleep(0.2)
                continue
            packet = packet[14:]
            if place[2] == socket.PACKET_OUTGOING or packet[9] != socket.IPPROTO_TCP or packet[12:16] != address:
                continue
            head = (packet[0] & 15) * 4
            size = struct.unpack('!H', packet[2:4])[0] - head - (packet[head + 12] >> 4) * 4
            if size > 0:
                self.payloads.append((time.time(), name, packet[head + (packet[head + 12] >> 4) * 4:][:size]))

    def follows(self, name):
        """Reads the receipts of a machine, from outside, as long as they are there."""
        while not self.over:
            machine = self.cluster[name]
            if machine.process is None:
                time.sleep(0.5)
                continue
            call = machine.ssh('mountpoint -q /var/lib/gts_switch && exec tail -c +1 -f /var/lib/gts_switch/receipts')
            call[-2:-2] = ['-o', 'ControlMaster=no', '-o', 'ControlPath=none', '-o', 'ServerAliveInterval=1']
            with subprocess.Popen(call, stdin=subprocess.DEVNULL, stdout=subprocess.PIPE, stderr=subprocess.DEVNULL) as reader:
                for line in reader.stdout:
                    if not line.endswith(b'\n') or self.over:
                        break
                    found = re.match(rb'ACC 0 (\d+) \d+ (.*)', line)
                    if found:
                        self.receipt(int(found[1]), found[2].decode())
                reader.kill()
            time.sleep(ASKS_AGAIN)

    def receipt(self, position, heading):
        with self.lock:
            self.receipts.setdefault(position, {})[heading] = self.receipts.get(position, {}).get(heading, time.time())

    def frames(self, since=0.0):
        with self.lock:
            return [event for event in self.events if event[1] == 'frame' and event[0] >= since]

    def frame_behind(self, moment, seconds, new=True):
        """When the first frame came behind this moment; with `new` one of a number that wasn't seen before it. None, where none did."""
        known = {event[3] for event in self.frames() if event[0] < moment}
        until = time.monotonic() + seconds * self.cluster.patience
        while time.monotonic() < until:
            for event in self.frames(moment):
                if not new or event[3] not in known:
                    return event[0]
            time.sleep(0.1)
        return None

    def speed(self, count, seconds):
        """Bulletins a second, where so many come at once: from then until the last of them has been forwarded."""
        before, begun = self.sent, time.time()
        self.at_once = count
        until = time.monotonic() + seconds * self.cluster.patience
        while time.monotonic() < until:
            if self.sent >= before + count and all(self.heading(number) in self.seen for number in range(before, before + count)):
                return round(count / (time.time() - begun))
            time.sleep(0.1)
        return None

    def rests(self, seconds):
        """All that was sent has been forwarded, within so many seconds."""
        until = time.monotonic() + seconds * self.cluster.patience
        while time.monotonic() < until:
            if all(self.heading(number) in self.seen for number in range(self.sent)):
                return True
            time.sleep(0.2)
        return False

    def stops(self):
        self.over = True


def judged(neighbours, allowed=()):
    """What is wrong with what the neighbours saw, over all that happened: no number is of two bulletins, no bulletin has two numbers, no
    number is left out, each receipt that was read outside is of the bulletin that has that number, and callers came from the switch's
    address. Also how many of each there were."""
    faults, number_of, frames_of = [], {}, Counter()
    heading_of = {}
    for _, _, circuit, number, heading in neighbours.frames():
        frames_of[number] += 1
        if heading_of.setdefault(number, heading) != heading:
            faults.append(f'number {number} is of {heading_of[number]} and of {heading}')
        if number_of.setdefault(heading, number) != number:
            faults.append(f'{heading} has the numbers {number_of[heading]} and {number}')
    numbers = sorted(heading_of)
    left_out = [number for number in range(1, numbers[-1] + 1) if number not in heading_of] if numbers else []
    if left_out:
        faults.append(f'numbers left out: {left_out[:TOLD]}, {len(left_out)} in all')
    with neighbours.lock:
        receipts = {position: dict(told) for position, told in neighbours.receipts.items()}
    lost = []
    for position, told in receipts.items():
        if len(told) > 1:
            faults.append(f'receipts of {" and of ".join(told)} have the position {position}')
        for heading in told:
            if heading_of.get(position + 1) != heading:
                lost.append((position, heading, heading_of.get(position + 1)))
    if lost:
        faults.append(f'with a receipt and lost: {lost[:3]}, {len(lost)} in all')
    never = [neighbours.heading(number) for number in range(neighbours.sent) if neighbours.heading(number) not in number_of]
    if never:
        faults.append(f'sent and never forwarded: {never[:3]}, {len(never)} in all')
    strangers = Counter(event[3] for event in neighbours.events if event[1] == 'called' and event[3] != ADDRESS)
    if strangers:
        faults.append(f'called from {dict(strangers)}')
    counts = {'numbers': len(numbers), 'receipts read': len(receipts), 'frames twice': sum(count - 1 for count in frames_of.values()),
              'receipts lost': len(lost), 'numbers doubled': sum('is of' in fault for fault in faults)}
    return faults, counts


def two_at_once(neighbours, since, taken_over, was):
    """Packets with bytes from the machine that had served, behind the first one from the other since a moment."""
    payloads = [event for event in list(neighbours.payloads) if event[0] >= since]
    first = next((event[0] for event in payloads if event[1] == taken_over), None)
    return [] if first is None else [event for event in payloads if event[1] == was and event[0] > first]


MARKS = (('away', r'corosync.*(?:A processor failed|host: \d+ .*has no active links|TOTEM.*(?:token was lost|A new membership))'),
         ('fenced', r'pacemaker-(?:fenced|controld).*(?:terminated|was terminated|was reset|confirmed|Peer .* was .*)'),
         ('first', r'kernel: .*role\( ?Secondary -> Primary'),
         ('mounted', r'systemd.*Mounted .*(?:Folder of the message switch|gts_switch)'),
         ('address', r'systemd.*Finished gts_switch-address'),
         ('starting', r'systemd.*Starting gts_switch.service'),
         ('started', r'systemd.*Started gts_switch.service'))


def parts_of(cluster, name, since):
    """When, behind a moment, its journal has each of these marks for the first time: seconds."""
    status, said = cluster[name].run(f'journalctl -q -b -o short-unix --since @{int(since)}', 60)
    found = {}
    for line in (said or '').splitlines():
        told = re.match(r'(\d+\.\d+) ', line)
        if not told or float(told[1]) < since:
            continue
        for mark, pattern in MARKS:
            if mark not in found and re.search(pattern, line):
                found[mark] = round(float(told[1]) - since, 1)
    return found, said or ''
