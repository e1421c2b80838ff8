"""What a run of a hub took, by time: rows of a file of comma-separated values."""
import csv
import math
import os
import platform
import subprocess
import time
from collections import Counter, defaultdict

LEVELS = (1, 2, 3, 4)
FIELDS = ['seconds', 'day', 'hour', 'messages', 'accepted', 'frames', 'in_a_second', 'out_a_second',
          *(f'{name}_{level}' for level in LEVELS for name in ('p50', 'p99', 'longest')),
          'journal_bytes', 'memory_kib', 'syncs', 'starts', 'compactions', 'pause_ms']
# Into so many buckets the times from one power of two to the next are put.
PARTS = 16


def origin(note=''):
    """Of which commit a measurement is, on what machine, and when."""
    here = os.path.dirname(os.path.abspath(__file__))
    told = subprocess.run(['git', 'rev-parse', '--short=8', 'HEAD'], cwd=here, capture_output=True, text=True)
    with open('/proc/cpuinfo') as file:
        model = next((line.partition(':')[2].strip() for line in file if line.startswith('model name')), platform.machine())
    memory = os.sysconf('SC_PAGE_SIZE') * os.sysconf('SC_PHYS_PAGES') / (1 << 30)
    parts = [f'commit {told.stdout.strip() or "unknown"}', note, f'{os.cpu_count()} processors {model}', f'{memory:.0f} GiB',
             f'Linux {platform.release()}', time.strftime('%-d %B %Y', time.gmtime())]
    return ', '.join(part for part in parts if part)


def share(times, part):
    """The time that this part of them doesn't pass, in milliseconds; nothing where there are none."""
    return f'{1000 * times[min(len(times) - 1, int(part * len(times)))]:.2f}' if times else ''


class Histogram:
    """Times by buckets, so many for each power of two."""

    def __init__(self):
        self.buckets, self.count, self.longest = Counter(), 0, 0.0

    def add(self, times):
        for one in times:
            part, power = math.frexp(one)
            self.buckets[PARTS * power + int(2 * PARTS * (part - 0.5))] += 1
        self.count += len(times)
        self.longest = max([self.longest, *times])

    def share(self, part):
        """A time that this part doesn't pass, at most a sixteenth too long."""
        left = part * self.count
        for bucket in sorted(self.buckets):
            left -= self.buckets[bucket]
            if left <= 0:
                power, part = divmod(bucket, PARTS)
                return min(self.longest, 2.0 ** power * (0.5 + (part + 1) / (2 * PARTS)))
        return self.longest


class Measures:
    """Samples of a run, each so many seconds behind the one before."""

    def __init__(self, path, every, note=''):
        self.file = open(path, 'w', newline='') if path else None
        self.rows = csv.writer(self.file) if self.file else None
        self.every, self.begun = every, time.monotonic()
        self.last, self.before = self.begun, (0, 0)
        self.times = defaultdict(list)
        self.histograms = {level: Histogram() for level in LEVELS}
        self.pause, self.pauses = 0.0, []
        self.most_memory = self.most_journal = 0
        if self.rows:
            self.file.write(f'# {origin(note)}\n')
            self.rows.writerow(FIELDS)

    def paused(self, seconds):
        self.pause = max(self.pause, seconds)
        self.pauses.append(seconds)

    def is_due(self):
        return time.monotonic() - self.last >= self.every

    def sample(self, place, messages, reference, station, starts):
        """A row; `place` is the day and the hour of the traffic."""
        now = time.monotonic()
        took, self.last = now - self.last, now
        frames = reference.counts['frames']
        rates = [(here - before) / max(took, 1e-9) for here, before in zip((reference.accepted, frames), self.before)]
        self.before = reference.accepted, frames
        shares = []
        for level in LEVELS:
            times = sorted(self.times[level])
            shares += [share(times, 0.5), share(times, 0.99), share(times, 1.0)]
            self.histograms[level].add(times)
        self.times.clear()
        journal, memory = station.journal_bytes(), station.memory()
        self.most_journal, self.most_memory = max(self.most_journal, journal), max(self.most_memory, memory)
        if self.rows:
            self.rows.writerow([
                f'{now - self.begun:.2f}', *place, messages, reference.accepted, frames, *(f'{rate:.0f}' for rate in rates),
                *shares, journal, memory, station.all_syncs(), starts, station.compactions, f'{1000 * self.pause:.1f}'])
            self.file.flush()
        self.pause = 0.0

    def latencies(self):
        """A line for each level that had frames: how long its frames took."""
        for level, of in self.histograms.items():
            if of.count:
                yield (f'level {level}: {of.count} frames, half of them within {1000 * of.share(0.5):.1f} ms, 99 of 100 within '
                       f'{1000 * of.share(0.99):.1f} ms, the longest {1000 * of.longest:.1f} ms')
