"""The cases of cases/ on the built program, each in a new folder, and what a case that shows nothing comes to.

The session of README.md is pasted into a shell as it stands there, and is the case `the_session_of_the_first_page`. What `cases/spell`
can't read is told in a line.

    --break receipt    the last letter of what each run says is another one"""
import os
import subprocess
import sys

import pytest
from gate import TOP, case

FIRST_PAGE = 'the_session_of_the_first_page'
SPELL = os.path.join(TOP, 'cases/spell')
SECONDS = 60


@pytest.mark.parametrize('name', case.folders())
def test_case(name, program, broken):
    altered = case.another_letter if broken == 'receipt' else None
    differences = case.differences(name, program, altered)
    assert not differences, '; '.join(differences)


def test_a_case_without_a_run_and_a_folder_without_a_case_fail(program, tmp_path, monkeypatch):
    (tmp_path / 'a_case').mkdir()
    (tmp_path / 'a_case' / 'case').write_text('text directory.toml\n    centre = "TVSV"\n')
    (tmp_path / 'a_folder').mkdir()
    monkeypatch.setattr(case, 'CASES', str(tmp_path))
    assert case.folders() == ['a_case', 'a_folder']
    assert case.differences('a_case', program) == ['step 0: nothing is run']
    assert 'is not there' in case.differences('a_folder', program)[0]


def session():
    """What README.md has to paste, and the receipts that it shows."""
    with open(os.path.join(TOP, 'README.md'), encoding='utf-8') as file:
        _, _, behind = file.read().partition('\n## Try it\n')
    code = [line.removeprefix('    ') for line in behind.partition('\n## ')[0].split('\n') if line.startswith('    ')]
    end = next(place for place, line in enumerate(code) if line.startswith('gts_switch init')) + 1
    return '\n'.join(code[:end]) + '\n', [line.partition('    ')[0] for line in code[end:]]


def first_blocks(text):
    """The first lines of a case that have a block, each with it."""
    found = {}
    for head, block in case.elements(text):
        found.setdefault(head, block)
    return found


def test_the_session_of_the_first_page_is_its_case(program, broken, tmp_path):
    pasted, shown = session()
    at = tmp_path / 'checkout'
    (at / 'crates/gts_switch/out').mkdir(parents=True)
    os.symlink(program, at / 'crates/gts_switch/out/gts_switch')
    os.symlink(os.path.join(TOP, 'cases'), at / 'cases')
    done = subprocess.run(['bash', '-e', '-c', pasted], cwd=at, stdin=subprocess.DEVNULL, capture_output=True, timeout=SECONDS)
    wanted = first_blocks(case.Case(FIRST_PAGE, program).text())
    says = done.stdout.decode().splitlines()
    assert (done.returncode, done.stderr) == (0, b'')
    assert (says[:-1] if broken == 'receipt' else says) == shown == wanted['says'][:len(shown)]
    assert len(shown) >= 3
    assert (at / 'try/directory.toml').read_text().split() == ' '.join(wanted['text directory.toml']).split()
    assert (at / 'try/capture.gts').read_bytes() == case.spelled('\n'.join(wanted['capture']))
    assert (at / 'try/circuit.01.out').read_bytes() == case.spelled('\n'.join(wanted['circuit 01']))


@pytest.mark.parametrize('text', [b'<NO SUCH TAG>', b'<FRAME AN>', b'<REPEAT x></REPEAT>', b'a > b', b'<MARK directory.toml>',
                                  b'<99999999999999999999 x>', b'\xc3\xa9'])
def test_what_is_not_in_the_notation_is_told_in_a_line(text):
    done = subprocess.run([sys.executable, SPELL], input=text, capture_output=True, timeout=SECONDS)
    line, _, more = done.stderr.decode().partition('\n')
    assert (done.returncode, done.stdout, line.startswith('spell: '), more) == (1, b'', True, '')


def test_a_file_that_is_not_there_is_told_in_a_line(tmp_path):
    done = subprocess.run([sys.executable, SPELL, str(tmp_path / 'none')], capture_output=True, timeout=SECONDS)
    assert (done.returncode, done.stdout) == (1, b'')
    assert done.stderr.decode() == f'spell: {tmp_path}/none: No such file or directory\n'
