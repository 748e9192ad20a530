"""The streams and the files of a call, and the commands of the debuggers."""
import os
import shutil
import subprocess

from checks import Ended, patience, read_until

from .calls import HEADER, PARTING, RECORDED, SECONDS, lines, part, shown
from .reports import FEW

# A put, and the maintenance that it brings, cut off after four steps.
CUT = """cachesim journal 2
0 look 1 = miss
0 put 1 = added 0
0 afterwrite = drain
0 begin = began
steps 4
"""
# A miss, whose write brings a whole round of maintenance.
ROUND = CUT.removesuffix("steps 4\n") + """\
0 drainread 0 = empty
0 drainwrite = applied 1 0
0 drainwrite = empty
0 evict = fits
0 end = idle
steps 9
"""
SINGLE = ("--capacity", 8, "--stripes", 1)
MOST_BYTES = 2**30
MOST_COMMANDS = 2**20


def sparse_file(check, name, size):
    """A file of a faulty line, and zeros up to this size, which take no room on the disk."""
    path = check.file(name, "x\n")
    os.truncate(path, size)
    return path


@part()
def streams(check):
    """The trace on standard input, and outputs that take nothing."""
    run = "run", "--capacity", 3, "lru"
    largest, large = sparse_file(check, "largest", MOST_BYTES), sparse_file(check, "large", MOST_BYTES + 1)
    folder = os.open(check.room, os.O_RDONLY)
    check.expect_fault("a folder for the input", "fault: Read", *run, stdin=folder)
    check.expect_fault("commands from a folder", "fault: Read", "debug", *PARTING, "--trace", check.trace, stdin=folder)
    os.close(folder)
    if not check.is_short:
        check.expect_fault("a trace at the limit", "fault: BadNumber line 1", *run, stdin=largest)
    check.expect_fault("a trace over the limit", "fault: TooLarge", *run, stdin=large)
    if not check.is_short:
        check.expect_fault("a long trace over that limit", "fault: BadNumber line 1", *run, "--long", stdin=large)
    with open("/dev/full", "wb") as full:
        check.compare("a fault to a full standard error", check.call(*run, typed="x\n", stderr=full), Ended(1, b"", b""))
        check.compare("the line of a sample to a full standard error", check.call("sample", "--rate", "1/1048576", stderr=full,
                                                                                  typed=lines(1, *FEW)), Ended(1, lines(*FEW).encode(), b""))
    check.expect_full("help to a full output", "--help")
    check.expect_full("a report to a full output", *run, stdin=check.trace)
    check.expect_full("a sample to a full output", "sample", "--rate", "1/2", typed=lines(*range(1, 21)))
    check.expect_full("answers to a full output", "debug", *PARTING, "--trace", check.trace, typed="part\n")
    check.expect_full("a cut journal to a full output", "drive", *SINGLE, "--workers", 1, "--limit", 4, typed="1\n")


@part()
def files(check):
    """The files that the words name."""
    def debug(name, file, commands, answers, **how):
        check.expect(name, "debug", *PARTING, "--trace", file, typed=commands, out=answers, **how)

    def no_debug(name, file, line, **how):
        check.expect_fault(name, line, "debug", *PARTING, "--trace", file, **how)

    journal, replay = check.file("journal", CUT), ("replay", *SINGLE, "--journal")
    largest, large = sparse_file(check, "largest", MOST_BYTES), sparse_file(check, "large", MOST_BYTES + 1)
    if not check.is_short:
        no_debug("a file at the limit", largest, "fault: BadNumber line 1")
        no_debug("a file over the limit", large, "fault: NoFile")
    no_debug("no file", check.room / "none", "fault: NoFile")
    no_debug("a folder for a trace", check.room, "fault: NoFile")
    check.expect_fault("a folder for a journal", "fault: NoFile", *replay, check.room)
    debug("an empty file for a trace", "/dev/null", "part\nrun\n", "part none\nfault: PastEnd\n")
    no_debug("a file in too little memory", largest, "fault: OutOfMemory",
             under=("bash", "-c", 'ulimit -v 400000; exec "$@"', "bash"))
    debug("a trace in a file", check.trace, "break part\nrun\n", "ok\nstop part\nat 5\n")
    for name in ("long" * 50, "ü", "a folder ü/ a trace", " trace"):
        path = check.room / name
        path.parent.mkdir(exist_ok=True)
        shutil.copy(check.trace, path)
        debug(f"the path '{name}'", path, "goto 5\n", "at 5\n")
    shutil.copy(check.trace, check.room / " first")
    debug("a path that begins with a blank", " first", "goto 5\n", "at 5\n",
          under=("bash", "-c", 'cd "$0" && exec "$@"', str(check.room)))
    piped = "bash", "-c", 'exec "${@:2}" <(cat "$1")', "bash"
    debug("a trace of half a megabyte", RECORDED, "goto 18000\ngoto 84333\nstep 1\n", "at 18000\nat 84333\nfault: PastEnd\n")
    check.expect("a pipe for a trace", "debug", *PARTING, "--trace", under=(*piped, check.trace), typed="goto 5\nstep 1\n",
                 out="at 5\nfault: PastEnd\n")
    check.expect("a pipe for a journal", *replay, under=(*piped, journal), typed="goto 3\n", out="at 3\n")
    check.expect("a journal in a file", *replay, journal, typed="goto 3\n", out="at 3\n")


@part()
def file_faults(check):
    """What is wrong with the file that the words name."""
    replay = "replay", *SINGLE, "--journal"
    check.expect_fault("a faulty trace in a file", "fault: BadNumber line 2", "debug", *PARTING, "--trace",
                       check.file("file", "1\n12a\n"), typed="show\n")
    for name, text, line in (
            ("an empty journal", "", "Header"), ("a version that there is not", "cachesim journal 9\n", "Header"),
            ("a journal without its end", "cachesim journal 2\n", "Unended"),
            ("a wrong count of steps", "cachesim journal 2\nsteps 1\n", "Count"),
            ("a key with a zero in front", "cachesim journal 2\n0 put 01 = added 0\nsteps 1\n", "Line step 1"),
            ("a false reply", "cachesim journal 2\n0 look 1 = hit 0\nsteps 1\n", "FalseReply step 1"),
            ("a step that is not accepted", "cachesim journal 2\n1 drainread 0 = empty\nsteps 1\n", "NotNow step 1")):
        check.expect_fault(name, f"fault: {line}", *replay, check.file("file", text), typed="show\n")
    check.expect_fault("a journal over its limit", "fault: JournalFull step 4", *replay, check.file("file", ROUND), "--limit", 3,
                       typed="show\n")


@part(2)
def answers(check):
    """The commands on standard input."""
    journal, cut = check.file("journal", ROUND), check.file("cut", CUT)
    debug, replay = ("debug", *PARTING, "--trace", check.trace), ("replay", *SINGLE, "--journal", journal)
    check.expect("no commands", *debug)
    check.expect("no commands about a journal", *replay)
    check.expect_fault("blanks over the limit", "fault: TooLarge", *debug, typed=b"\n" + b" " * MOST_COMMANDS)
    check.expect("commands over the limit", *debug, typed=b"part\n" + b" " * (MOST_COMMANDS - 4), status=1, out="part 5\n",
                 error="fault: TooLarge\n")
    check.expect("commands at the limit", *debug, typed=b"part\n" + b" " * (MOST_COMMANDS - 5), out="part 5\n")
    breaks = lines(*(f"break hit {key}" for key in range(901, 964)), "break part", "break halve", "run")
    check.expect("sixty-four breakpoints", *debug, typed=breaks, out="ok\n" * 64 + "fault: Breaks\nstop part\nat 5\n")
    expect_at_once(check, "two policies step by step", debug, [
        ("part", "part 5"), ("goto 5", "at 5"), ("goto 5", "at 5"), ("step 0", "at 5"), ("back 1", "at 4"), ("back 0", "at 4"),
        ("jump", "fault: Command")])
    expect_at_once(check, "a journal step by step", ("replay", *SINGLE, "--journal", cut), [
        ("step 0", "at 4"), ("goto 4", "at 4"), ("back 4", "at 0"), ("back 0", "at 0"), ("step 5", "fault: PastEnd"),
        ("goto 2", "at 2")])


def expect_at_once(check, name, words, dialogue):
    """A person at a terminal: each answer is there before the next command is written."""
    check.tried += 1
    pipe = subprocess.PIPE
    with subprocess.Popen([check.program, *map(str, words)], stdin=pipe, stdout=pipe, stderr=pipe) as child:
        for command, wanted in dialogue:
            child.stdin.write(f"{command}\n".encode())
            child.stdin.flush()
            answer = shown(read_until(child.stdout.fileno(), b"\n", SECONDS / 6).removesuffix(b"\n"))
            if answer != wanted:
                check.fail(name, f"{command} is answered by {answer} where {wanted} is right")
                child.kill()
                return
        rest, error = child.communicate(b"quit\n", timeout=patience(SECONDS))
    check.compare(name, Ended(child.returncode, rest, error), Ended(0, b"", b""))


@part()
def threads(check):
    """Threads that may not start where there is little memory: all of the output, or the fault and none."""
    drive = "drive", *SINGLE, "--workers", 1, "--limit"
    check.expect("a whole round", *drive, 9, "--spread", "plain", typed="1\n", out=ROUND)
    check.expect("a full journal", *drive, 4, typed="1\n", status=1, out=CUT, error="fault: JournalFull\n")
    whole = HEADER + lines(*(f"{it},3,5,2,3,0,0,40.00" for it in check.policies))
    sweep = HEADER + lines(*(f"lru,{it},5,2,3,0,0,40.00" for it in (3, 4, 5)))
    for name, out, *words in (("each policy", whole, "run", "--capacity", 3, *check.policies),
                              ("a sweep", sweep, "sweep", "--policy", "lru", 3, 4, 5)):
        for kilobytes in (10000, 20000, 40000, 80000):
            found = check.call(*words, stdin=check.trace, under=("bash", "-c", f'ulimit -v {kilobytes} && exec "$@"', "bash"))
            right = Ended(0, out.encode(), b"") if found.status == 0 else Ended(1, b"", b"fault: OutOfMemory\n")
            check.compare(f"{name} in {kilobytes} KB", found, right)
