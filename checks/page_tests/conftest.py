"""What pytest hands to the tests of the pages, by the names of their parameters: `browser`, Debian's Chromium without a
window; `tools`, the scripts; `program`, the built program; `folder`, one of the test's own."""
import shutil
import sys
import tempfile
from pathlib import Path

import pytest

sys.dont_write_bytecode = True
TOP = Path(__file__).resolve().parent.parent.parent
sys.path += [str(TOP / "checks"), str(TOP / "tools")]

from browsers import Browser


def pytest_addoption(parser):
    parser.addoption("--program", type=Path, default=TOP / "crates/cachesim/out/cachesim",
                     help="the program that scripts call")
    parser.addoption("--pictures", type=Path, help="the folder that pictures of the pages go to")


@pytest.fixture(scope="session")
def program(pytestconfig):
    return pytestconfig.getoption("program").resolve()


@pytest.fixture(scope="session")
def pictures(pytestconfig, tmp_path_factory):
    return pytestconfig.getoption("pictures") or tmp_path_factory.mktemp("pictures")


@pytest.fixture(scope="session")
def browser():
    it = Browser()
    yield it
    it.quit()


@pytest.fixture(scope="session")
def tools(tmp_path_factory):
    """A copy of the scripts, in which all tests pass: so a mistake in another one is what its test finds."""
    return shutil.copytree(TOP / "tools", tmp_path_factory.mktemp("copy") / "tools",
                           ignore=shutil.ignore_patterns("__pycache__"))


@pytest.fixture
def folder():
    with tempfile.TemporaryDirectory() as name:
        yield Path(name)
