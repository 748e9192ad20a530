"""What pytest hands to the tests of the scripts, by the names of their parameters.

`survey`, `plot`, `corpus`, `sample`, `convert`, `journal` and `reference` are the scripts, in a copy of tools/; `folder` is
one of the test's own; `program` is the built program. A test is a function `check_..` of a file `.._tests.py`: it fails by `assert`, or by what
frame.py has. Each module names in MISTAKES what its tests have to find: mistakes_tests.py tries them.
"""
import compileall
import os
import shutil
import sys
import tempfile
from pathlib import Path

import pytest

sys.dont_write_bytecode = True
TOP = Path(__file__).resolve().parent.parent.parent
NEEDED = "gnuplot", "parallel", "rsync", "ssh", "sshd", "zstd", "slurmctld"
sys.path += [str(TOP / "checks"), str(TOP / "tools")]


def pytest_addoption(parser):
    parser.addoption("--program", type=Path, default=TOP / "crates/cachesim/out/cachesim", help="the program that scripts call")


def pytest_terminal_summary(terminalreporter):
    lacking = [it for it in NEEDED if not shutil.which(it, path=f"{os.environ['PATH']}:/usr/sbin:/sbin")]
    if lacking:
        terminalreporter.write_line(f"passed over: what needs {', '.join(lacking)}")


@pytest.fixture(scope="session")
def program(pytestconfig):
    return pytestconfig.getoption("program").resolve()


@pytest.fixture(scope="session")
def tools(tmp_path_factory):
    """A copy of the scripts, in which what they import is compiled, so that not every call does it."""
    top = tmp_path_factory.mktemp("copy")
    for name in ("tools", "checks/cache_reference", "examples/policies"):
        shutil.copytree(TOP / name, top / name, ignore=shutil.ignore_patterns("__pycache__"))
    compileall.compile_dir(top, quiet=1)
    return top / "tools"


@pytest.fixture
def folder():
    # Its name is short: a line at a terminal has to take it.
    with tempfile.TemporaryDirectory() as name:
        yield Path(name)


def fixture_of(name):
    return pytest.fixture(lambda tools: tools / name, name=name)


SCRIPTS = "survey", "plot", "corpus", "sample", "convert", "journal", "reference"
survey, plot, corpus, sample, convert, journal, reference = map(fixture_of, SCRIPTS)
