"""Each case of `.ci/peers` as a test: `pytest .ci/tests/test_peers.py -k garbage`."""
import os
import tempfile
from importlib.machinery import SourceFileLoader
from importlib.util import module_from_spec, spec_from_loader

import gate
import pytest

loader = SourceFileLoader('peers', os.path.join(gate.TOP, '.ci/peers'))
peers = module_from_spec(spec_from_loader('peers', loader))
loader.exec_module(peers)


@pytest.mark.parametrize('row', peers.CASES, ids=lambda row: row[0].__name__)
def test_neighbours(row, program, broken):
    with tempfile.TemporaryDirectory(dir=gate.IN_MEMORY) as folder:
        [(case, run)] = peers.cases_of(program, folder, [row], loses=broken is not None)
        peers.tried(case, run)
    assert not case.faults, '\n'.join(case.faults)
