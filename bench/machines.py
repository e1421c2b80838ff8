"""Machines of their own on this machine, for scripts: Debian's `user-mode-linux`, a kernel as a process, needs neither a virtual
processor nor a disk of its own. Each has its memory, its disks, its kernel's modules (DRBD, device mapper, a watchdog), systemd, and
cables to bridges in a network namespace. That its process group is killed is its loss of power: what its kernel hadn't written to its
disks is gone. It takes root, and Debian's packages `user-mode-linux`, `mmdebstrap`, `openssh-client` and `e2fsprogs`.

The root of all machines is made of Debian's packages once, and kept in KEPT, or the folder that `GTS_MACHINES` names. Calling a
program costs ten times as much there as here, and more beside other work: what is measured there isn't what a machine takes."""
import contextlib
import hashlib
import os
import re
import shutil
import signal
import subprocess
import threading
import time

import hosts
from hosts import NoHosts, tool

KERNEL, MODULES = '/usr/bin/linux.uml', '/usr/lib/uml/modules'
KEPT = os.environ.get('GTS_MACHINES', '/var/cache/gts_machines')
RELEASE = 'bookworm'
# What stands in every root, so that all scripts have one: Debian itself, and what a cluster needs.
PACKAGES = ('systemd', 'systemd-sysv', 'udev', 'dbus', 'kmod', 'iproute2', 'iputils-ping', 'e2fsprogs', 'xfsprogs', 'python3',
            'openssh-server', 'openssh-client', 'procps', 'dmsetup', 'logrotate', 'pacemaker', 'corosync', 'corosync-qdevice',
            'corosync-qnetd', 'sbd', 'drbd-utils', 'pacemaker-cli-utils', 'resource-agents', 'iputils-arping', 'psmisc',
            'prometheus-node-exporter')
# What of it begins with a machine where a script doesn't enable it.
BEGINS = ('ssh', 'own-net', 'systemd-networkd', 'remote-fs.target')
MAKING, BOOTING, CALLING = 600, 240, 60
# So many times as long all of these may take, where a script is told that much else runs.
patience = 1
# So many seconds a machine that was reset stays off, as one of iron that goes through its own tests does.
OFF_BEHIND_RESET = 2
RESET = re.compile('Initiating system reboot|Restarting system|Kernel panic|reboot: ')
# What a machine of this kind has no use for.
MASKED = ('systemd-tmpfiles-setup-dev.service systemd-binfmt.service systemd-machine-id-commit.service systemd-journal-flush.service '
          'systemd-pstore.service systemd-timesyncd.service e2scrub_reap.service e2scrub_all.timer apt-daily.timer '
          'apt-daily-upgrade.timer dpkg-db-backup.timer fstrim.timer man-db.timer systemd-update-utmp.service '
          'systemd-update-utmp-runlevel.service systemd-user-sessions.service systemd-logind.service getty.target '
          'proc-sys-fs-binfmt_misc.automount proc-sys-fs-binfmt_misc.mount sys-kernel-debug.mount sys-kernel-tracing.mount '
          'systemd-random-seed.service').split()
GENERATORS = ('systemd-fstab-generator',)
NET_UNIT = '''[Unit]
DefaultDependencies=no
Before=network.target network-pre.target ssh.service corosync.service
[Service]
Type=oneshot
RemainAfterExit=yes
ExecStart=/usr/local/sbin/own-net
[Install]
WantedBy=sysinit.target
'''
# A machine's name and addresses stand in its kernel's command line: `own=NAME net=ADDRESS,ADDRESS`.
NET_SCRIPT = '''#!/bin/sh
for word in $(cat /proc/cmdline); do
    case $word in
    own=*) echo "${word#own=}" >/proc/sys/kernel/hostname; echo "${word#own=}" >/etc/hostname ;;
    net=*) nets=$(echo "${word#net=}" | tr , ' ') ;;
    esac
done
ip link set lo up
number=0
for net in $nets; do
    ip addr replace "$net" dev eth$number
    ip link set eth$number up
    number=$((number + 1))
done
'''


def lacking():
    """What this machine lacks for machines of their own; none where it has all."""
    if os.geteuid() != 0:
        return 'they are made by root alone'
    missing = [name for name in ('mmdebstrap', 'mkfs.ext4', 'ssh', 'ssh-keygen', 'ip', 'nft') if not shutil.which(name)]
    missing += [path for path in (KERNEL, MODULES, '/dev/net/tun', '/dev/loop-control') if not os.path.exists(path)]
    if missing:
        return f'not there: {" ".join(missing)}'
    without = hosts.lacking()
    if without:
        return without
    # A kernel as a process wants memory that it may execute, and to watch its processes.
    done = subprocess.run([KERNEL, '--version'], stdin=subprocess.DEVNULL, capture_output=True, timeout=CALLING)
    return None if done.returncode == 0 else f'{KERNEL} ends with {done.returncode}'


def called(*words, seconds=CALLING, **more):
    """Runs a command of the system that may take its time, and gives what it said."""
    done = subprocess.run(words, stdin=subprocess.DEVNULL, stdout=subprocess.PIPE, stderr=subprocess.STDOUT, timeout=seconds * patience, **more)
    said = done.stdout.decode(errors='replace')
    if done.returncode:
        raise NoHosts(f'{" ".join(words)[:200]}: status {done.returncode}: {said.strip()[-600:]}')
    return said


def root_of():
    """The image of the root, made where it isn't there yet."""
    version = os.path.basename(os.path.realpath(next(iter(sorted(os.scandir(MODULES), key=lambda it: it.name))).path))
    mark = hashlib.sha256(' '.join([RELEASE, version, *PACKAGES, NET_SCRIPT, NET_UNIT, *MASKED, *GENERATORS]).encode()).hexdigest()[:16]
    path = os.path.join(KEPT, f'root.{mark}')
    if not os.path.exists(path):
        os.makedirs(KEPT, exist_ok=True)
        makes_root(path)
    return path


def makes_root(path):
    at = f'{path}.{os.getpid()}.folder'
    try:
        called('mmdebstrap', '--variant=minbase', '--mode=root', '--format=directory', '--aptopt=Acquire::Retries "5"',
               f'--include={",".join(PACKAGES)}', RELEASE, at, seconds=MAKING)
        shutil.copytree(MODULES, os.path.join(at, 'lib/modules'), symlinks=True, dirs_exist_ok=True)
        for version in os.listdir(MODULES):
            called('chroot', at, 'depmod', version)
        # Each of these is called whenever systemd reads its units anew.
        for name in os.listdir(os.path.join(at, 'lib/systemd/system-generators')):
            if name not in GENERATORS:
                os.remove(os.path.join(at, 'lib/systemd/system-generators', name))
        for name in ('var/cache/apt', 'var/lib/apt/lists', 'usr/share/doc', 'usr/share/man', 'usr/share/locale'):
            shutil.rmtree(os.path.join(at, name), ignore_errors=True)
        for name, text, mode in (('etc/systemd/system/own-net.service', NET_UNIT, 0o644), ('usr/local/sbin/own-net', NET_SCRIPT, 0o755),
                                 ('etc/fstab', '/dev/ubda / ext4 noatime 0 0\n', 0o644),
                                 ('etc/systemd/journald.conf.d/own.conf', '[Journal]\nStorage=volatile\n', 0o644),
                                 ('etc/machine-id', hashlib.sha256(path.encode()).hexdigest()[:32] + '\n', 0o444)):
            writes(at, name, text, mode)
        for name in MASKED:
            os.symlink('/dev/null', os.path.join(at, 'etc/systemd/system', name)) if not os.path.lexists(
                os.path.join(at, 'etc/systemd/system', name)) else None
        called('chroot', at, 'systemctl', 'enable', 'own-net.service', 'ssh.service')
        called('chroot', at, 'systemctl', 'set-default', 'multi-user.target')
        for name in os.listdir(os.path.join(at, 'etc/ssh')):
            if name.startswith('ssh_host_'):
                os.remove(os.path.join(at, 'etc/ssh', name))
        with open(f'{path}.new', 'wb') as file:
            file.truncate(2 << 30)
        called('mkfs.ext4', '-q', '-O', '^has_journal', '-d', at, f'{path}.new', seconds=MAKING)
        os.replace(f'{path}.new', path)
    finally:
        shutil.rmtree(at, ignore_errors=True)


def writes(at, name, text, mode=0o644):
    """A file under a folder, with the folders above it."""
    path = os.path.join(at, name)
    os.makedirs(os.path.dirname(path), exist_ok=True)
    with open(path, 'wb') as file:
        file.write(text.encode() if isinstance(text, str) else text)
    os.chmod(path, mode)


def quiets(root):
    """Of what the packages have enabled nothing begins but what every machine has; and scripts of another init, which are called beside
    each unit of their name, are taken out."""
    for folder, _, names in os.walk(os.path.join(root, 'etc/systemd/system')):
        for name in names if folder.endswith(('.wants', '.requires')) else ():
            if name.rpartition('.service')[0] not in BEGINS and name.endswith('.service') and 'sysinit' not in folder:
                os.remove(os.path.join(folder, name))
    for name in os.listdir(os.path.join(root, 'etc/init.d')):
        os.remove(os.path.join(root, 'etc/init.d', name))


@contextlib.contextmanager
def opened(image, at):
    """An image as a folder, for as long as it is changed."""
    os.makedirs(at, exist_ok=True)
    called('mount', '-o', 'loop', image, at)
    try:
        yield at
    finally:
        called('umount', at)


class Machines:
    """The machines of one run: a folder with their disks, a network with bridges, and a key by which they are called. `prepare`, where
    it is given, changes their root as a folder before the first of them begins; `kept` is a folder with a root and a key that an earlier
    run has left. A machine that its watchdog has reset is switched on
    again by itself, as one of iron does; `resets` has when and which."""

    def __init__(self, at, prepare=None, bridges=1, kept=None):
        self.at, self.machines, self.resets, self.over = at, {}, [], False
        self.spaces = hosts.Hosts('wires')
        self.key, self.root = os.path.join(at, 'key'), os.path.join(at, 'root')
        if kept is None:
            self.makes(prepare)
        else:
            for name in ('key', 'root'):
                called('cp', '-p', '--sparse=always', os.path.join(kept, name), at, seconds=MAKING)
        for number in range(bridges):
            self.ip('link', 'add', f'br{number}', 'type', 'bridge')
            self.ip('link', 'set', f'br{number}', 'up')
        self.watching = threading.Thread(target=self.watch, daemon=True)
        self.watching.start()

    def makes(self, prepare):
        """The root of all of them, and the key."""
        called('ssh-keygen', '-q', '-t', 'ed25519', '-N', '', '-f', self.key)
        called('ssh-keygen', '-q', '-t', 'ed25519', '-N', '', '-f', os.path.join(self.at, 'host'))
        called('cp', '--sparse=always', root_of(), self.root, seconds=MAKING)
        with opened(self.root, os.path.join(self.at, 'opened')) as root:
            with open(f'{self.key}.pub') as file:
                writes(root, 'root/.ssh/authorized_keys', file.read(), 0o600)
            for name, mode in (('host', 0o600), ('host.pub', 0o644)):
                with open(os.path.join(self.at, name)) as file:
                    writes(root, f'etc/ssh/ssh_host_ed25519_key{name[4:]}', file.read(), mode)
            quiets(root)
            # A slow machine takes longer to begin than what is usual.
            writes(root, 'etc/systemd/system.conf.d/own.conf', f'[Manager]\nDefaultTimeoutStartSec={300 * patience}s\n')
            if prepare is not None:
                prepare(root)

    def ip(self, *words):
        return self.spaces.ip('wires', *words)

    def within(self):
        return self.spaces.within('wires')

    def inside(self, make):
        return self.spaces.inside('wires', make)

    def add(self, name, number, **how):
        self.machines[name] = Machine(self, name, number, **how)
        return self.machines[name]

    def watch(self):
        while not self.over:
            for machine in list(self.machines.values()):
                if machine.process is not None and machine.fell():
                    self.resets.append((time.time(), machine.name))
                    machine.off()
                    time.sleep(OFF_BEHIND_RESET)
                    if machine.comes_back and not self.over:
                        machine.on()
            time.sleep(0.2)

    def remove(self):
        self.over = True
        self.watching.join()
        for machine in self.machines.values():
            machine.off()
        self.spaces.remove()


class Machine:
    """One of them. `nets` are its addresses, one a bridge; `disks` the files of its disks behind that of its root."""

    def __init__(self, machines, name, number, nets=(), disks=(), memory=512):
        self.machines, self.name, self.number = machines, name, number
        self.nets, self.disks, self.memory = nets, list(disks), memory
        self.at = os.path.join(machines.at, name)
        os.makedirs(self.at)
        self.process, self.boots, self.comes_back = None, 0, True
        self.console = os.path.join(self.at, 'console')
        for cable, _ in enumerate(nets):
            self.machines.ip('tuntap', 'add', 'dev', self.cable(cable), 'mode', 'tap')
            self.machines.ip('link', 'set', self.cable(cable), 'master', f'br{cable}')
            self.machines.ip('link', 'set', self.cable(cable), 'up')

    def cable(self, number):
        return f'{self.name}{number}'

    def hardware_address(self, number):
        return f'52:54:7{number}:00:00:{self.number:02x}'

    def on(self):
        """Switches it on. Its console begins anew, and what it had of its root stays."""
        self.boots += 1
        disks = [f'ubd0={os.path.join(self.at, "root")},{self.machines.root}']
        disks += [f'ubd{number}={path}' for number, path in enumerate(self.disks, 1)]
        nets = [f'eth{number}=tuntap,{self.cable(number)},{self.hardware_address(number)}' for number, _ in enumerate(self.nets)]
        words = [*self.machines.within(), KERNEL, f'umid={self.machines.spaces.spaces["wires"]}_{self.name}_{self.boots}',
                 f'mem={self.memory}M', *disks, *nets, 'root=/dev/ubda', 'rw', 'rootfstype=ext4', 'con0=null,fd:1', 'con=null', 'ssl=null',
                 f'own={self.name}', f'net={",".join(self.nets)}', 'quiet', 'loglevel=4', 'systemd.show_status=0', 'mitigations=off']
        with open(self.console, 'wb') as out:
            self.process = subprocess.Popen(words, stdin=subprocess.DEVNULL, stdout=out, stderr=subprocess.STDOUT, start_new_session=True,
                                            env={**os.environ, 'TMPDIR': self.at, 'HOME': self.at})

    def off(self):
        """Its power fails: all of its processes are killed at once."""
        if self.process is not None:
            with contextlib.suppress(ProcessLookupError):
                os.killpg(self.process.pid, signal.SIGKILL)
            self.process.wait()
            self.process = None

    def hangs(self, does):
        """It stands still from now on, or goes on."""
        os.killpg(self.process.pid, signal.SIGSTOP if does else signal.SIGCONT)

    def fell(self):
        """Whether its watchdog has reset it, or its kernel came to an end. This kernel can't begin again by itself."""
        if self.process.poll() is not None:
            return True
        with open(self.console, errors='replace') as file:
            return RESET.search(file.read()) is not None

    def pulls(self, cable):
        self.machines.ip('link', 'set', self.cable(cable), 'down')

    def mends(self, cable):
        self.machines.ip('link', 'set', self.cable(cable), 'up')

    def ssh(self, *words):
        """The words before a command that is called there by its shell, over a connection that is kept for the next one."""
        known = ['-o', 'StrictHostKeyChecking=no', '-o', 'UserKnownHostsFile=/dev/null', '-o', 'LogLevel=ERROR', '-o', 'BatchMode=yes',
                 '-o', f'ConnectTimeout={5 * patience}', '-o', f'ServerAliveInterval={3 * patience}', '-o', 'ServerAliveCountMax=4', '-o', 'ControlMaster=auto',
                 '-o', f'ControlPath={self.at}/ssh.{self.boots}', '-o', 'ControlPersist=60']
        return [*self.machines.within(), 'ssh', '-i', self.machines.key, *known, f'root@{self.nets[0].partition("/")[0]}', *words]

    def run(self, command, seconds=CALLING, said=None):
        """What a command of its shell said, and its status. `said` is what it reads."""
        try:
            done = subprocess.run(self.ssh(command), input=said or b'', stdout=subprocess.PIPE, stderr=subprocess.STDOUT,
                                  timeout=seconds * patience)
        except subprocess.TimeoutExpired:
            return None, ''
        return done.returncode, done.stdout.decode(errors='replace').strip()

    def wants(self, command, seconds=CALLING, said=None):
        """The same of a command that has to succeed."""
        status, text = self.run(command, seconds, said)
        if status != 0:
            raise NoHosts(f'{self.name}: {command[:300]}: status {status}: {text[-600:]}')
        return text

    def sends(self, path, name, mode='644'):
        """A file of this machine is there as NAME."""
        with open(path, 'rb') as file:
            self.wants(f'install -D -m {mode} /dev/stdin {name}', said=file.read())

    def awaits(self, seconds=BOOTING):
        """It can be called, within so many seconds."""
        until = time.monotonic() + seconds * patience
        while time.monotonic() < until:
            if self.process is not None and self.run('true', 10)[0] == 0:
                return
            time.sleep(0.5)
        with open(self.console, errors='replace') as file:
            raise NoHosts(f'{self.name} can not be called after {seconds} seconds: {file.read()[-300:]}')
