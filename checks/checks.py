"""What the checks share: what is wrong, calls, changes of a text, and how a check itself is called."""
import os
import random
import re
import select
import signal
import subprocess
import sys
import tempfile
import time
from collections import namedtuple
from pathlib import Path

TOP = Path(__file__).resolve().parent.parent
SECONDS = 300

# How a call ended: its status, or that it did not end, its output and its standard error.
Ended = namedtuple("Ended", "status out error")
# A mistake in a script or a page: the test that finds it, the file of tools/ that it is in, what is replaced, and by what.
Mistake = namedtuple("Mistake", "test file old new")

# An interrupt ends a check, and what it began, without a word.
if signal.getsignal(signal.SIGINT) is signal.default_int_handler:
    signal.signal(signal.SIGINT, signal.SIG_DFL)


def start(main, about=None):
    """Runs a check, or says what it does where the call asks that. Where nobody reads what it prints, it ends as by a signal."""
    try:
        try:
            if about and sys.argv[1:] in (["-h"], ["--help"]):
                print(about.strip())
            else:
                main()
        finally:
            sys.stdout.flush()
    except BrokenPipeError as fault:
        # What was found wrong is said all the same.
        if isinstance(fault.__context__, SystemExit) and isinstance(fault.__context__.code, str):
            print(fault.__context__.code, file=sys.stderr)
        os._exit(128 + signal.SIGPIPE)


def conclude(wrong, right):
    """Ends a check: by what is wrong, line by line, or by what was found to be right."""
    if wrong:
        sys.exit("\n".join(f"{Path(sys.argv[0]).name}: {it}" for it in wrong))
    if right:
        print(right)


def run_pytest(folder, *words, jobs=os.cpu_count()):
    """Runs the tests of a folder beside this file, so many side by side, by Debian's pytest, and ends as it does."""
    with tempfile.TemporaryDirectory() as room:
        call = ["pytest-3", TOP / "checks" / folder, "-n", jobs, "--basetemp", f"{room}/tests", *words]
        sys.exit(subprocess.run([str(it) for it in call], check=False).returncode)


def named_program(own="crates/cachesim/out/cachesim"):
    """The program that the call names, or the repository's own."""
    program = Path(sys.argv[1] if len(sys.argv) > 1 else TOP / own).resolve()
    if not os.access(program, os.X_OK):
        sys.exit(f"there is no program {program}")
    return program


def patience(seconds):
    """How long a call is waited for that takes at most so many seconds of a quiet machine: longer on a busy one."""
    return seconds * (1 + os.getloadavg()[0] / os.cpu_count())


def becomes(is_so, seconds):
    """Whether something becomes so within so many seconds of a quiet machine."""
    end = time.monotonic() + patience(seconds)
    while not (found := is_so()) and time.monotonic() < end:
        time.sleep(0.01)
    return found


class Wrong(AssertionError):
    """What a file or a call does other than it should."""


def expect(what, found, wanted):
    if found != wanted:
        raise Wrong(f"{what}: {found} where this is right: {wanted}")


def fault_of(test, *words):
    """What a test has against what it tests, or None."""
    try:
        test(*words)
    except Wrong as wrong:
        return str(wrong)
    return None


def octets(text):
    return text if isinstance(text, bytes) else text.encode()


def ended(words, seconds=SECONDS, typed="", **how):
    """How a call of these words ended, which reads what is typed, or another standard input."""
    given = {} if "stdin" in how else {"input": octets(typed)}
    how = {**given, "stdout": subprocess.PIPE, "stderr": subprocess.PIPE, **how}
    words = [it if isinstance(it, bytes) else str(it) for it in words]
    try:
        found = subprocess.run(words, timeout=patience(seconds), check=False, **how)
    except subprocess.TimeoutExpired:
        return Ended(f"none within {seconds} seconds", b"", b"")
    return Ended(found.returncode, found.stdout or b"", found.stderr or b"")


def call(*words, **how):
    """The output of a call, its standard error and its status."""
    found = ended(words, **how)
    if isinstance(found.status, str):
        raise Wrong(f"{words}: the end is {found.status}")
    return found.out.decode(errors="replace"), found.error.decode(errors="replace"), found.status


def listed_policies(program):
    listed = re.search(r"\[possible values: (lru,\s[^]]*)\]", call(program, "run", "--help")[0])
    return re.split(r",\s+", listed[1]) if listed else []


def read_until(file, end, seconds):
    """What is written to an open file, by its number, up to this end, or within so many seconds of a quiet machine."""
    read, last = b"", time.monotonic() + patience(seconds)
    while end not in read and (left := last - time.monotonic()) > 0:
        if select.select([file], [], [], left)[0]:
            read += (more := os.read(file, 1))
            if not more:
                break
    return read


def skewed_keys(count, keys, seed=0):
    """Accesses of which small keys come more often: which one comes is as likely as one over its number."""
    rng = random.Random(seed)
    return [int((keys + 1) ** rng.random()) for _ in range(count)]


def replaced(old, new):
    """A change of a text: puts another part in the place of one that stands once."""
    def change(text):
        if text.count(old) != 1:
            raise ValueError(f"`{old}` stands {text.count(old)} times")
        return text.replace(old, new)
    return change
