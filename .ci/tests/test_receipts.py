"""The receipts with their times (packaging/gts-switch-receipts): beside a writer of 20,000 lines a second the one who stamps them
is killed and started again and its log is renamed, and each line stands in the logs once, in order, at its place. Where its log was
removed, it goes on behind what was given back, and where somebody wrote into it, behind its own last line. Where the receipts are
renamed, those of the new file follow; zeros among them are passed over. Behind a loss of power, which took receipts that the log
has, those that are left aren't written twice, and zeros that it left behind them are cut off; of two at once the second ends, and says so; and a disk that is full is told in a
line.

    --break line    one line is taken out of a log"""
import os
import re
import resource
import signal
import subprocess
import threading
import time
from importlib.machinery import SourceFileLoader
from importlib.util import module_from_spec, spec_from_loader

import gate
import pytest

STAMPER = os.path.join(gate.TOP, 'packaging/gts-switch-receipts')
LINES, A_SECOND, KILLS, ROTATIONS = 200_000, 20_000, 12, 6
# A block of the file system has so many lines of 32 bytes, and so many lines are given back: a hole ends with a line, behind one,
# in front of one's end, and nowhere.
OF_A_BLOCK = 128
GIVEN_BACK = (5 * OF_A_BLOCK, 5 * OF_A_BLOCK + 1, 5 * OF_A_BLOCK - 1, 0)
# A loss of power takes so many lines: the last of two that a log has, all of these and one more, and many.
TAKEN = (1, 3, 2_500)
# A loss of power leaves zeros where so many of the last receipts had been, and so many of them.
ZEROS = ((1, 1), (3, 248), (5, 3 << 20))
STAMPED = re.compile(rb'\d{4}-\d\d-\d\dT\d\d:\d\d:\d\d\.\d{3}Z (\d+) (.*)')


def receipt(number):
    return b'ACC %d %d 1 SMVG%02d TVSV 28%02d00' % (number % 64, number, number % 100, number // 60 % 24)


def writes(path):
    """As many lines a second as that, in pieces of any size, as a program does that appends."""
    begun = time.monotonic()
    with open(path, 'ab', buffering=0) as file:
        text = b''
        for number in range(LINES):
            text += receipt(number) + b'\n'
            if number % 199 == 0:
                cut = number % len(text)
                file.write(text[:cut])
                text = text[cut:]
                time.sleep(max(0, begun + number / A_SECOND - time.monotonic()))
        file.write(text)
    return time.monotonic() - begun


def stamper(receipts, log, *more):
    return subprocess.Popen(['/usr/bin/python3', STAMPER, receipts, log, *more], cwd=os.path.dirname(receipts))


def read(path):
    with open(path, 'rb') as file:
        return file.read()


def test_no_receipt_is_lost_beside_twenty_thousand_a_second(tmp_path, chance, broken):
    receipts, log = str(tmp_path / 'receipts'), str(tmp_path / 'receipts.log')
    writer = threading.Thread(target=writes, args=(receipts,))
    writer.start()
    begun = time.monotonic()
    rotated = kills = 0
    running = stamper(receipts, log)
    while writer.is_alive():
        time.sleep(chance.random() * LINES / A_SECOND / (KILLS + ROTATIONS))
        if chance.random() < KILLS / (KILLS + ROTATIONS):
            running.send_signal(chance.choice([signal.SIGKILL, signal.SIGTERM]))
            running.wait(gate.SECONDS)
            kills += 1
            running = stamper(receipts, log)
        elif os.path.exists(log):
            # As logrotate does: the last one stands in `.1`, those before behind it.
            for number in range(rotated, 0, -1):
                os.rename(f'{log}.{number}', f'{log}.{number + 1}')
            os.rename(log, f'{log}.1')
            rotated += 1
    took = time.monotonic() - begun
    time.sleep(1)
    running.terminate()
    running.wait(gate.SECONDS)
    assert stamper(receipts, log, '--to-the-end').wait(gate.SECONDS) == 0
    logs = [f'{log}.{number}' for number in range(rotated, 0, -1)] + [log] * os.path.exists(log)
    lines = [line for path in logs for line in read(path).splitlines()]
    if broken == 'line':
        del lines[LINES // 2]
    print(f'receipts: {LINES} lines in {took:.1f} seconds, {kills} times ended, {rotated} times renamed')
    assert kills >= 3 and rotated >= 2
    place = 0
    for number, line in enumerate(lines):
        found = STAMPED.fullmatch(line)
        assert found and found[2] == receipt(number) and int(found[1]) == place, (number, line)
        place += len(found[2]) + 1
    assert len(lines) == LINES
    assert os.stat(receipts).st_size == place


@pytest.mark.parametrize('given_back', GIVEN_BACK)
def test_a_log_that_was_removed_is_begun_anew(tmp_path, broken, given_back):
    loader = SourceFileLoader('stamper', STAMPER)
    module = module_from_spec(spec_from_loader('stamper', loader))
    loader.exec_module(module)
    receipts, log = str(tmp_path / 'receipts'), str(tmp_path / 'receipts.log')
    lines = [b'ACC 0 %05d 1 SMVG01 TVSV 28000' % number for number in range(10 * OF_A_BLOCK)]
    size = len(lines[0]) + 1
    assert size * OF_A_BLOCK == module.BLOCK
    with open(receipts, 'w+b') as file:
        file.write(b''.join(line + b'\n' for line in lines))
        file.flush()
        if given_back:
            module.give_back(file.fileno(), given_back * size)
    assert stamper(receipts, log, '--to-the-end').wait(gate.SECONDS) == 0
    stamped = [STAMPED.fullmatch(line) for line in read(log).splitlines()]
    if broken == 'line':
        del stamped[-1]
    places = [int(found[1]) for found in stamped]
    # At least what wasn't given back is there, whole, and less than a block of what was.
    assert places == list(range(places[0], size * len(lines), size))
    assert given_back * size - module.BLOCK <= places[0] <= given_back * size
    assert [found[2] for found in stamped] == lines[places[0] // size:]


def test_what_somebody_wrote_into_the_log_is_passed_over(tmp_path, broken):
    receipts, log = str(tmp_path / 'receipts'), str(tmp_path / 'receipts.log')
    lines = [receipt(number) for number in range(20)]
    for line in lines:
        with open(receipts, 'ab') as file:
            file.write(line + b'\n')
        assert stamper(receipts, log, '--to-the-end').wait(gate.SECONDS) == 0
        with open(log, 'ab') as file:
            file.write(b'here the line was mended\n\nZ 7 x\n')
    stamped = [found[2] for found in map(STAMPED.fullmatch, read(log).splitlines()) if found]
    if broken == 'line':
        del stamped[-1]
    assert stamped == lines


def test_zeros_that_a_loss_of_power_left_are_passed_over(tmp_path, broken):
    receipts, log = str(tmp_path / 'receipts'), str(tmp_path / 'receipts.log')
    first, *others = [receipt(number) for number in range(20)]
    behind = len(first) + 1 + (3 << 20) + 1
    with open(receipts, 'wb') as file:
        file.write(first + b'\n' + bytes(3 << 20) + b'\n' + b'\n'.join(others) + b'\n')
    assert stamper(receipts, log, '--to-the-end').wait(gate.SECONDS) == 0
    stamped = [STAMPED.fullmatch(line) for line in read(log).splitlines()]
    if broken == 'line':
        del stamped[-1]
    assert stamped[0][2] == first and [found[2] for found in stamped[-len(others):]] == others
    assert int(stamped[-len(others)][1]) == behind


def awaits_lines(log, count):
    until = time.monotonic() + gate.SECONDS
    while not os.path.exists(log) or read(log).count(b'\n') < count:
        assert time.monotonic() < until, read(log)
        time.sleep(0.02)


@pytest.mark.parametrize('runs', [True, False])
def test_behind_receipts_that_were_renamed_come_those_of_the_new_file(tmp_path, broken, runs):
    """Also where no stamper runs meanwhile, and a line of the new file ends where the last one did that has its time."""
    receipts, log = str(tmp_path / 'receipts'), str(tmp_path / 'receipts.log')
    old, late, new = ([receipt(number) for number in range(first, first + 10)] for first in (10, 20, 30))
    new += old
    with open(receipts, 'ab', buffering=0) as file:
        file.write(b'\n'.join(old) + b'\n')
        running = stamper(receipts, log)
        try:
            awaits_lines(log, len(old))
            if not runs:
                running.terminate()
                running.wait(gate.SECONDS)
            os.rename(receipts, f'{receipts}.old')
            if runs:
                # Who appends to it goes on, until it is begun again.
                open(receipts, 'w').close()
                time.sleep(0.5)
                file.write(b'\n'.join(late) + b'\nhalf of a')
                awaits_lines(log, len(old + late))
            with open(receipts, 'ab') as other:
                other.write(b'\n'.join(new) + b'\n')
            if runs:
                awaits_lines(log, len(old + late + new))
        finally:
            running.kill()
            running.wait(gate.SECONDS)
    assert stamper(receipts, log, '--to-the-end').wait(gate.SECONDS) == 0
    stamped = [STAMPED.fullmatch(line) for line in read(log).splitlines()]
    if broken == 'line':
        del stamped[-1]
    assert [found[2] for found in stamped] == old + late * runs + new
    size = len(old[0]) + 1
    places = [*range(0, len(old + late * runs) * size, size), *range(0, len(new) * size, size)]
    assert [int(found[1]) for found in stamped] == places


def receipts_of(numbers):
    return b''.join(receipt(number) + b'\n' for number in numbers)


def appends(path, text):
    with open(path, 'ab') as file:
        file.write(text)


def stamps(receipts, *logs):
    """What the logs have behind all receipts that are there, each with its place."""
    assert stamper(receipts, logs[-1], '--to-the-end').wait(gate.SECONDS) == 0
    found = [STAMPED.fullmatch(line) for path in logs for line in read(path).splitlines()]
    return [(int(line[1]), line[2]) for line in found]


@pytest.mark.parametrize('taken', TAKEN)
def test_a_loss_of_power_has_no_receipt_written_twice(tmp_path, broken, taken):
    """The switch doesn't bring its receipts to the disk: of those that the log has, the last are gone, a part of a line is left, and
    the next run goes on behind it. The log was renamed before its last two lines."""
    receipts, log = str(tmp_path / 'receipts'), str(tmp_path / 'receipts.log')
    appends(receipts, receipts_of(range(3_000)))
    stamps(receipts, log)
    os.rename(log, f'{log}.1')
    appends(receipts, receipts_of(range(3_000, 3_002)))
    before = stamps(receipts, f'{log}.1', log)
    place, _ = before[-taken]
    os.truncate(receipts, place + 5)
    appends(receipts, b'\nSTART 2026-11-28T07:00:00Z\n' + receipts_of(range(4_000, 4_010)))
    behind = stamps(receipts, f'{log}.1', log)
    if broken == 'line':
        del behind[-1]
    is_kept, more, text = behind[:len(before)] == before, behind[len(before):], read(receipts)
    # The part of a line, the start, and what the new run says.
    assert is_kept and len(more) == 12
    assert b''.join(line + b'\n' for _, line in more) == text[place:]
    assert [at for at, line in more if not text.startswith(line + b'\n', at)] == []


@pytest.mark.parametrize('zeros', ZEROS)
@pytest.mark.parametrize('runs', [True, False])
def test_zeros_behind_the_receipts_are_cut_off(tmp_path, broken, zeros, runs):
    """Behind a loss of power: where receipts had been, some of which the log has, stand zeros. They are cut off before the next run, also
    beside a stamper that is at work already, and the log goes on."""
    receipts, log = str(tmp_path / 'receipts'), str(tmp_path / 'receipts.log')
    appends(receipts, receipts_of(range(3_000)))
    before = stamps(receipts, log)
    place, _ = before[-zeros[0]]
    os.truncate(receipts, place)
    os.truncate(receipts, place + zeros[1])
    running = stamper(receipts, log) if runs else None
    try:
        if runs:
            time.sleep(1)
        assert subprocess.run(['/usr/bin/python3', STAMPER, '--cut', receipts], timeout=gate.SECONDS).returncode == 0
        assert os.stat(receipts).st_size == place
        if runs:
            time.sleep(0.5)
        appends(receipts, b'START 2026-11-28T07:00:00Z\n' + receipts_of(range(4_000, 4_010)))
        if runs:
            awaits_lines(log, len(before) + 11)
    finally:
        if runs:
            running.kill()
            running.wait(gate.SECONDS)
    behind = stamps(receipts, log)
    if broken == 'line':
        del behind[-1]
    assert behind[:len(before)] == before and b'\0' not in read(receipts)
    more = behind[len(before):]
    assert [line for _, line in more] == [b'START 2026-11-28T07:00:00Z', *(receipt(number) for number in range(4_000, 4_010))]
    assert [at for at, _ in more] == [place, *(place + 27 + sum(len(receipt(number)) + 1 for number in range(4_000, last))
                                               for last in range(4_000, 4_010))]


def test_where_nothing_is_to_be_cut_off_the_receipts_stay(tmp_path, broken):
    receipts = str(tmp_path / 'receipts')
    for text, left in ((b'', b''), (b'ACC', b'ACC'), (b'ACC\n', b'ACC\n'), (b'A\0C\n', b'A\0C\n'), (bytes(5 << 20), b''), (b'ACC\n\0', b'ACC\n')):
        with open(receipts, 'wb') as file:
            file.write(text)
        assert subprocess.run(['/usr/bin/python3', STAMPER, '--cut', receipts], timeout=gate.SECONDS).returncode == 0
        assert read(receipts) == (left[1:] if broken == 'line' else left)
    done = subprocess.run(['/usr/bin/python3', STAMPER, '--cut', f'{receipts}.other'], stderr=subprocess.PIPE, timeout=gate.SECONDS)
    assert (done.returncode, done.stderr.decode()) == (1, f'gts-switch-receipts: {receipts}.other: No such file or directory\n')


def test_a_line_that_another_file_happens_to_have_there_is_not_gone_on_behind(tmp_path, broken):
    """The receipts were begun anew while no stamper ran, and have a refusal where the log has one in another file."""
    receipts, log = str(tmp_path / 'receipts'), str(tmp_path / 'receipts.log')
    old, new = ([b'START 2026-11-28T0%d:00:00Z' % hour] + [b'REF 0 Hour'] * count for hour, count in ((6, 20), (7, 10)))
    appends(receipts, b'\n'.join(old) + b'\n')
    before = stamps(receipts, log)
    os.remove(receipts)
    appends(receipts, b'\n'.join(new) + b'\n')
    behind = stamps(receipts, log)
    if broken == 'line':
        del behind[-1]
    assert [line for _, line in behind] == old + new and behind[:len(old)] == before


@pytest.mark.parametrize('behind_a_rename', [False, True])
def test_of_two_at_once_the_second_ends(tmp_path, broken, behind_a_rename):
    """It says so in a line, and writes nothing. The first has the new file of receipts too, where the old one is renamed."""
    receipts, log = str(tmp_path / 'receipts'), str(tmp_path / 'receipts.log')
    lines = [receipt(number) for number in range(20)]
    appends(receipts, receipts_of(range(10)))
    running = stamper(receipts, log)
    try:
        awaits_lines(log, 10)
        if behind_a_rename:
            os.rename(receipts, f'{receipts}.old')
        appends(receipts, receipts_of(range(10, 20)))
        awaits_lines(log, 20)
        done = subprocess.run(['/usr/bin/python3', STAMPER, receipts, log, '--to-the-end'], cwd=tmp_path, stderr=subprocess.PIPE,
                              timeout=gate.SECONDS)
        assert (done.returncode, done.stderr.decode()) == (1, f'gts-switch-receipts: {receipts}: another one is at work here\n')
    finally:
        running.kill()
        running.wait(gate.SECONDS)
    stamped = [line for _, line in stamps(receipts, log)]
    if broken == 'line':
        del stamped[-1]
    assert stamped == lines


def test_a_full_disk_is_told_in_a_line(tmp_path, broken):
    """And where there is room again, it goes on: each line is there once."""
    receipts, log = str(tmp_path / 'receipts'), str(tmp_path / 'receipts.log')
    lines = [receipt(number) for number in range(3_000)]
    appends(receipts, b'\n'.join(lines) + b'\n')
    for _ in range(2):
        done = subprocess.run(['/usr/bin/python3', STAMPER, receipts, log], cwd=tmp_path, stderr=subprocess.PIPE, timeout=gate.SECONDS,
                              preexec_fn=lambda: resource.setrlimit(resource.RLIMIT_FSIZE, (40_000, 40_000)))
        assert (done.returncode, done.stderr.decode()) == (1, f'gts-switch-receipts: {log}: File too large\n')
    done = subprocess.run(['/usr/bin/python3', STAMPER, receipts, str(tmp_path)], stderr=subprocess.PIPE, timeout=gate.SECONDS)
    assert (done.returncode, done.stderr.decode()) == (1, f'gts-switch-receipts: {tmp_path}: Is a directory\n')
    stamped = [line for _, line in stamps(receipts, log)]
    if broken == 'line':
        del stamped[-1]
    is_whole = stamped == lines
    assert is_whole
