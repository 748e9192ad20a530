"""Journals of workers on threads: each is read by the rule of walks, each reply compared with that of the reference, and
read back by the program."""
import re
import sys

from checks import TOP, Ended, ended, skewed_keys

from .calls import SECONDS_OF_A_LONG_CALL, lines, part

# How many steps of a cut journal are compared.
COMPARED = 20000


def crowd(check, name, times=1):
    """The accesses of a crowd: many workers access the same keys at once."""
    keys = [at // 64 * 13 % 97 + at % 64 * 7 % 97 for at in range(check.size(128000, 4000))]
    return check.file(name, lines(*keys) * times)


def check_walks(check, name, *words):
    """What checks/check_walks says, whose words these are."""
    call = [sys.executable, TOP / "checks/check_walks", *words]
    check.compare(f"{name}, its walks", ended(call, SECONDS_OF_A_LONG_CALL), Ended(0, b"", b""))


def steps_of(journal):
    """How many steps a journal has by its last line; none where that is no such line."""
    last = re.search(rb"(?:^|\n)steps ([0-9]+)\n$", journal)
    return int(last[1]) if last else 0


def check_journal(check, name, trace, workers, capacity, stripes, main, spread, *more):
    """The journal of workers: what it has, and what the program says that reads it back and forth."""
    cache = "--capacity", capacity, "--stripes", stripes, "--main", main, "--spread", spread, *more
    journal = check.answer(name, "drive", "--workers", workers, *cache, stdin=trace)
    path, steps = check.file(f"journal_of_{check.tried}", journal), steps_of(journal)
    middle = steps - steps // 2
    commands = lines("show", "goto 0", f"goto {steps}", f"back {steps // 2}", f"goto {steps}", "show", "save")
    answers = check.answer(f"{name}, read back", "replay", "--journal", path, *cache, typed=commands)
    show = answers[:answers.find(b"at 0\n")]
    check.expect_same(f"{name}, as it is shown", lines(show.count(b"\n")), lines(10 + stripes))
    moves = lines("at 0", f"at {steps}", f"at {middle}", f"at {steps}").encode()
    check.expect_same(f"{name}, read back", answers, show + moves + show + journal)
    check_walks(check, name, path, trace, workers, stripes, capacity, main, spread)


@part(30)
def crowd_at_one_buffer(check):
    """A crowd of workers, whose journal has some 400,000 steps."""
    trace = crowd(check, "crowd")
    check_journal(check, "a crowd at one read buffer", trace, 64, 50, 1, 99, "mixed", "--limit", 2**24)


@part(30)
def crowd_at_a_buffer_each(check):
    """The same with a read buffer for each worker."""
    trace = crowd(check, "crowd")
    check_journal(check, "a crowd at a read buffer each", trace, 64, 50, 64, 99, "mixed", "--limit", 2**24)


@part(20)
def workers(check):
    """Each number of workers, each number of read buffers, and limits of the journal."""
    trace = check.file("mixed.lirs", lines(*skewed_keys(400, 99)))
    for count in range(1, 65, check.size(1, 9)):
        check_journal(check, f"{count} workers", trace, count, 9, 1 << count % 7, count * 37 % 100,
                      ("mixed", "plain")[count % 2])
    alone = "drive", "--capacity", 9, "--workers", 1
    whole = check.answer("one worker", *alone, stdin=trace)
    steps = steps_of(whole)
    check.expect("a journal at its limit", *alone, "--limit", steps, stdin=trace, out=whole)
    for limit in (1, 1000, steps - 1):
        cut = b"".join(whole.splitlines(keepends=True)[:limit + 1])
        check.expect(f"a journal of {limit} steps", *alone, "--limit", limit, stdin=trace, status=1,
                     out=cut + f"steps {limit}\n".encode(), error="fault: JournalFull\n")
    defaults = check.answer("workers with the defaults", "drive", "--capacity", 50, stdin=trace)
    journal = check.file("default", defaults)
    check_walks(check, "two workers and four read buffers", journal, trace, 2, 4, 50, 99, "mixed")
    check.expect("workers with the defaults, read back", "replay", "--capacity", 50, "--journal", journal,
                 typed="save\n", out=defaults)


@part(20)
def full_journals(check):
    """Journals that are full, one at the default limit: so many steps of walks, the first of which are compared."""
    trace = crowd(check, "longer", 3)
    # The longer one of one worker: on a busy machine a turn that passes from one to the other takes a tenth of a millisecond.
    for workers, steps, *more in ((2, 2000, "--limit", 2000), (1, 2**20))[:check.size(2, 1)]:
        name = f"a full journal of {steps} steps"
        found = check.call("drive", "--workers", workers, "--capacity", 50, *more, stdin=trace, seconds=SECONDS_OF_A_LONG_CALL)
        rows = found.out.splitlines(keepends=True) or [b"none"]
        check.compare(name, Ended(found.status, rows[-1], found.error), Ended(1, f"steps {steps}\n".encode(), b"fault: JournalFull\n"))
        compared = min(steps, COMPARED)
        beginning = check.file("beginning", b"".join(rows[:compared + 1]) + f"steps {compared}\n".encode())
        check_walks(check, name, "--cut", beginning, trace, workers, 4, 50, 99, "mixed")
        answers = check.answer(f"{name}, read back", "replay", "--capacity", 50, "--journal", check.file("full", found.out), *more,
                               typed=lines("goto 0", f"goto {steps}", "save"))
        check.expect_same(f"{name}, read back", answers, lines("at 0", f"at {steps}").encode() + found.out)
