"""What the tests begin with: the program that is tried, what is wrong on purpose, and a folder in which the program runs. They are
called by the scripts beside this folder, or by hand: `pytest .ci/tests/test_kills.py -k compact`."""
import os
import random
import sys

import pytest

sys.path.insert(0, os.path.dirname(os.path.dirname(os.path.abspath(__file__))))
import gate


def pytest_addoption(parser):
    parser.addoption('--program', help='another program than the built one')
    parser.addoption('--break', dest='broken', help='one thing is wrong on purpose, and a test fails')
    parser.addoption('--seed', type=int, default=1)
    parser.addoption('--each', type=int, default=1, help='each Nth of many comparisons alone, for a program that is slow')
    parser.addoption('--seconds', type=int, help='how long all of them may take')


def pytest_configure(config):
    if config.getoption('seconds'):
        gate.ends_within('pytest', config.getoption('seconds'))


@pytest.fixture(scope='session')
def program(pytestconfig):
    """Nothing is tried with a program that isn't there, or that does nothing."""
    try:
        return gate.program_of(pytestconfig.getoption('program'))
    except gate.Fault as fault:
        pytest.exit(str(fault), returncode=1)


@pytest.fixture(scope='session')
def broken(pytestconfig):
    return pytestconfig.getoption('broken')


@pytest.fixture(scope='session')
def each(pytestconfig):
    return pytestconfig.getoption('each')


@pytest.fixture
def chance(pytestconfig):
    return random.Random(pytestconfig.getoption('seed'))


@pytest.fixture
def folder(program):
    """A new folder in memory. What was wrong in it is told at the end."""
    with gate.tempfile.TemporaryDirectory(dir=gate.IN_MEMORY) as at:
        made = gate.Folder(program, at)
        yield made
        assert not made.faults, '\n'.join(made.faults[:20])
