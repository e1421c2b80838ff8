"""The scripts of the gate that are one long run each, as tests: `pytest .ci/tests/test_scripts.py -k network`. The gate calls the
scripts themselves. `.ci/edge` isn't one of them: it tries no program that is there."""
import os
import subprocess

import gate
import pytest

LONG = ['always', 'lines', 'network', 'standby', 'year']


@pytest.mark.parametrize('name', [name for name in LONG if os.path.exists(os.path.join(gate.TOP, '.ci', name))])
def test_script(name, program):
    done = subprocess.run([os.path.join(gate.TOP, '.ci', name), program], capture_output=True, text=True, timeout=600)
    assert done.returncode == 0, done.stdout + done.stderr
