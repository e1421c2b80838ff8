"""Hosts of their own on this machine, for scripts: network namespaces of Linux, joined by cables, which are pairs of the kernel's
`veth`. Making them takes root and iproute2. What runs on a host sees its addresses and cables alone."""
import ctypes
import itertools
import os
import subprocess
from concurrent.futures import ThreadPoolExecutor

SECONDS = 15
NEW_NETWORK = 0x40000000
# How a script ends that this machine gives no hosts, behind a line that says what it lacks. It has tried nothing.
NOT_HERE = 77
COUNT = itertools.count(1)
LIBC = ctypes.CDLL(None, use_errno=True)


class NoHosts(Exception):
    """What a machine doesn't do that hosts of their own need."""


def tool(*words, **more):
    """Runs a command of the system, and gives what it said."""
    try:
        done = subprocess.run(words, stdin=subprocess.DEVNULL, capture_output=True, text=True, timeout=SECONDS, **more)
    except (OSError, subprocess.TimeoutExpired) as error:
        raise NoHosts(f'{" ".join(words)}: {error}') from error
    if done.returncode != 0:
        said = (done.stderr.strip().splitlines() or ['no word'])[-1]
        raise NoHosts(f'{" ".join(words)}: status {done.returncode}: {said}')
    return done.stdout


def ip(*words):
    return tool('ip', *words)


class Hosts:
    """Some hosts by their names. `remove` takes them all away."""

    def __init__(self, *names):
        self.spaces = {}
        try:
            for name in names:
                self.add(name)
        except NoHosts:
            self.remove()
            raise

    def add(self, name):
        """A host begins, also one that had died."""
        ip('netns', 'add', self.spaces.setdefault(name, f'gts_{os.getpid()}_{next(COUNT)}'))
        self.ip(name, 'link', 'set', 'lo', 'up')

    def ip(self, name, *words):
        """A command of iproute2 on a host."""
        return ip('-n', self.spaces[name], *words)

    def within(self, name):
        """The words before a program that runs on a host."""
        return ['ip', 'netns', 'exec', self.spaces[name]]

    def tool(self, name, *words, **more):
        return tool(*self.within(name), *words, **more)

    def enters(self, name):
        """From now on the sockets that the calling thread makes are this host's."""
        with open(f'/run/netns/{self.spaces[name]}') as file:
            if LIBC.setns(file.fileno(), NEW_NETWORK) != 0:
                raise NoHosts(f'setns: {os.strerror(ctypes.get_errno())}')

    def inside(self, name, make):
        """What `make` makes on a host: a socket belongs to the host on which it was made."""
        def entered():
            self.enters(name)
            return make()
        with ThreadPoolExecutor(1) as pool:
            return pool.submit(entered).result()

    def lay(self, one, other, cable='cable', far=None):
        """Lays a cable between two hosts. Its two ends have this name, or the far one another."""
        self.ip(one, 'link', 'add', 'name', cable, 'type', 'veth', 'peer', 'name', far or cable, 'netns', self.spaces[other])
        for name, end in ((one, cable), (other, far or cable)):
            self.ip(name, 'link', 'set', end, 'up')

    def pull(self, name, cable='cable'):
        self.ip(name, 'link', 'set', cable, 'down')

    def mend(self, name, cable='cable'):
        self.ip(name, 'link', 'set', cable, 'up')

    def dies(self, name, cable='cable'):
        """A host is gone with all its connections, and tells nobody. What ran there has ended before."""
        self.ip(name, 'link', 'del', cable)
        ip('netns', 'del', self.spaces[name])

    def remove(self):
        while self.spaces:
            _, space = self.spaces.popitem()
            subprocess.run(['ip', 'netns', 'del', space], capture_output=True)


def lacking():
    """What this machine lacks for hosts of their own; none where it has all."""
    try:
        hosts = Hosts('one', 'other')
        try:
            hosts.lay('one', 'other')
            hosts.inside('one', lambda: None)
        finally:
            hosts.remove()
    except NoHosts as fault:
        return str(fault)
    return None
