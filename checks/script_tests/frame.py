"""What the tests of the scripts share: running one, comparing, files, programs whose reports are known, and a gnuplot. What
pytest hands to a test by the name of a parameter stands in conftest.py; checks/check_scripts PROGRAM -k WORD runs some alone.
"""
import csv
import io
import os
import re
import signal
import subprocess
import sys
import time
from pathlib import Path

from checks import SECONDS, Mistake, Wrong, call, expect, patience
from lib.policies import POLICIES as LISTED

POLICIES = ["lru", "slru", "tinylfu-lru", "tinylfu-slru", "wtinylfu", "clairvoyant"]
EVERY = [*POLICIES, *(it for it in LISTED if it not in POLICIES)]

# A name and a title of which gnuplot or a shell would run a part, if it read it as more than a text: each part makes a file
# `made` in the folder of the call.
UNSAFE = "'`touch made`' \\'`touch made`\\\" . system('touch made') @GPVAL_TERM \"`touch made`\n!touch made\n"


def run(script, *words, status=0, typed="", **how):
    """The standard output of a script, or of another program, that ends with this status, and its standard error."""
    # Without the search for packages, which takes as long again.
    command = [sys.executable, "-SE", script] if Path(script).parent.name == "tools" else [script]
    out, error, ended = call(*command, *words, typed=typed, **how)
    if ended != status:
        raise Wrong(f"{words}: status {ended} where {status} is right: {out}{error}")
    if "Traceback" in error:
        raise Wrong(f"{words}: {error}")
    return out, error


def expect_parts(what, text, *parts):
    missing = [part for part in parts if part not in text]
    if missing:
        raise Wrong(f"{what}: {missing} is not in: {text}")


def expect_full_disk(script, *words, typed=""):
    """A script whose output cannot be written ends with status 1 and says so; one whose reader is gone as by its signal."""
    with open("/dev/full", "wb") as full:
        _, error = run(script, *words, status=1, typed=typed, stdout=full)
    expect_parts("a full disk", error, "cannot be written: No space left on device")
    reader, writer = os.pipe()
    os.close(reader)
    run(script, *words, status=141, typed=typed, stdout=writer)
    os.close(writer)


def expect_quiet_interrupt(script, folder, *words):
    """An interrupt while a script reads its file ends it by the signal, without a word."""
    pipe = folder / "pipe"
    os.mkfifo(pipe)
    # A check that a shell has begun behind itself ignores interrupts, and what it calls would too.
    call = ["env", "--default-signal=INT", sys.executable, script, *words, pipe]
    with subprocess.Popen(call, stdin=subprocess.DEVNULL, stdout=subprocess.PIPE, stderr=subprocess.PIPE) as process:
        writer = opened_by_a_reader(pipe, process)
        process.send_signal(signal.SIGINT)
        _, error = process.communicate(timeout=patience(SECONDS))
        os.close(writer)
    expect("after an interrupt", (process.returncode, error), (-signal.SIGINT, b""))


def opened_by_a_reader(pipe, process):
    """The end of a pipe to write to, once a process reads the other one."""
    while process.poll() is None:
        try:
            return os.open(pipe, os.O_WRONLY | os.O_NONBLOCK)
        except OSError:
            time.sleep(0.01)
    raise Wrong(f"it does not read: {process.stderr.read().decode()}")


def file_of(folder, name, text):
    path = Path(folder) / name
    if isinstance(text, bytes):
        path.write_bytes(text)
    else:
        path.write_text(text)
    return path


# A gnuplot that keeps what it is given.
NOTING = "cat >given; echo '<svg></svg>'"


def gnuplot_by(folder, script):
    """The environment in which `gnuplot` is a script of the shell."""
    file = file_of(folder, "gnuplot", f"#!/bin/sh\n{script}\n")
    file.chmod(0o755)
    return {**os.environ, "PATH": f"{folder}:{os.environ['PATH']}"}


def without_texts(commands):
    """What gnuplot is given, without what stands in single quotes, and without what is put between such pieces."""
    piece = r"'[^'\n]*'"
    return re.sub(rf"{piece}(?: \. \"(?:'|\\n)\" \. {piece})*", "''", commands)


def rows_of(text):
    return list(csv.DictReader(io.StringIO(text)))


def looping(folder, blocks, accesses):
    """A trace of so many accesses to so many blocks, again and again."""
    return file_of(folder, "trace", "".join(f"{it % blocks}\n" for it in range(accesses)))


# A program whose reports are known: at capacities below `top` a policy hits as many hundredths as the expression gives, of
# `policy`, `capacity` and `main`; from there on, which is where all blocks of the trace are held, all but the first access to
# each.
FAKE = """#!{python} -SE
import sys
from collections import Counter
if "--help" in sys.argv:
    sys.exit(print("      --policy <POLICY>\\n          A policy\\n          \\n          [possible values: {policies}]"))
words = sys.argv[2:]
option = dict(zip(words, words[1:]))
lines = [line.split() for line in sys.stdin if line.strip()]
ranges = [(int(line[0]), int(line[1]) if option["--format"] == "arc" else 1) for line in lines]
accesses = sum(count for _, count in ranges)
distinct = top = 0
for first, count in sorted(ranges):
    distinct += max(0, first + count - max(first, top))
    top = max(top, first + count)
if sys.argv[1] == "footprint":
    times = Counter(block for first, count in ranges for block in range(first, first + count)).values()
    sys.exit(print(f"accesses,blocks,once\\n{{sum(times)}},{{len(times)}},{{[*times].count(1)}}"))
main = int(option["--main"])
rows = ["policy,capacity,accesses,hits,misses,evictions,rejections,rate"]
for policy in (word for before, word in zip(words, words[1:]) if before == "--policy"):
    for capacity in (int(word) for before, word in zip(words, words[1:]) if word.isdigit() and before[:2] != "--"):
        hits = accesses * ({percent}) // {parts} if capacity < {top} else accesses - distinct
        rate = 10000 * hits // accesses if accesses else 0
        rows.append(f"{{policy}},{{capacity}},{{accesses}},{{hits}},{{accesses - hits}},"
                    f"{{max(0, accesses - hits - capacity)}},0,{{rate // 100}}.{{rate % 100:02}}")
print("\\n".join(rows{cut}))
"""


def fake(folder, percent="0", cut="", policies=POLICIES, parts=100, top="distinct"):
    """The program whose hits are this expression; `cut` changes the list of its lines."""
    words = {"percent": percent, "cut": cut, "policies": ", ".join(policies), "parts": parts, "top": top}
    path = file_of(folder, "fake", FAKE.format(python=sys.executable, **words))
    path.chmod(0o755)
    return path
