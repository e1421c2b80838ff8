"""A loss of power: a library before the switch (power.c) keeps what was written to the journal and isn't synced, and it is taken back
when the switch was killed. It counts the syncs too."""
import os
import struct
import subprocess

SOURCE = os.path.join(os.path.dirname(os.path.abspath(__file__)), 'power.c')
# As in power.c.
SIZE, GONE = 1 << 30, (1 << 64) - 1
HEAD, ROW = struct.Struct('=QQ'), struct.Struct('=QQQQ')


class Power:
    """What a switch in a folder has written and not synced. `broken` is what is wrong with its calls on purpose."""

    def __init__(self, at, broken=''):
        self.path, self.library, self.broken = os.path.join(at, 'unsynced'), os.path.join(at, 'power.so'), broken
        subprocess.run(['gcc', '-O1', '-shared', '-fPIC', '-o', self.library, SOURCE], check=True)
        with open(self.path, 'wb') as file:
            file.truncate(SIZE)
        self.before = 0

    def settings(self):
        """The environment of the switch; what an earlier one left is forgotten, but for its syncs."""
        self.before = self.syncs()
        self.write_head(0, 0)
        return {**os.environ, 'LD_PRELOAD': self.library, 'UNSYNCED': self.path, 'BROKEN_POWER': self.broken}

    def write_head(self, used, syncs):
        with open(self.path, 'r+b') as file:
            file.write(HEAD.pack(used, syncs))

    def rows(self):
        """Of each change the file, the place, how long the file was, and the bytes that stood there."""
        with open(self.path, 'rb') as file:
            used, _ = HEAD.unpack(file.read(HEAD.size))
            text = file.read(used)
        at = 0
        while at < used:
            number, place, size, count = ROW.unpack_from(text, at)
            at += ROW.size + count
            yield number, place, size, text[at - count:at]

    def takes_back(self, folder):
        """Takes back, last first, what wasn't synced of the journal in a folder; gives how many changes that were."""
        rows = [row for row in self.rows() if row[0] != GONE]
        for number, place, size, text in reversed(rows):
            with open(os.path.join(folder, f'journal.{number}'), 'r+b') as file:
                file.seek(place)
                file.write(text)
                file.truncate(size)
        return len(rows)

    def syncs(self):
        with open(self.path, 'rb') as file:
            return self.before + HEAD.unpack(file.read(HEAD.size))[1]
