"""Calls of a program, and what is expected of them."""
import re
from pathlib import Path

from checks import TOP, Ended, ended, listed_policies, octets

RECORDED = TOP / "examples/sqlite.lirs"
SECONDS = 60
SECONDS_OF_A_LONG_CALL = 600
HEADER = "policy,capacity,accesses,hits,misses,evictions,rejections,rate\n"
INTERVALS_HEADER = "policy,capacity,first,last,hits,misses,evictions,rejections,rate\n"
COMPARE_HEADER = "first,second,capacity,accesses,both,first_only,second_only,neither\n"
# Two policies that part at the fifth of the accesses 1 1 2 3 1.
PARTING = ("--capacity", 2, "--first", "lru", "--second", "slru")
# The parts, and about how many seconds each takes: those that take long begin first.
PARTS = {}


def part(seconds=1):
    def named(function):
        PARTS[function.__name__] = seconds, function
        return function
    return named


def lines(*rows):
    return "".join(f"{row}\n" for row in rows)


class Check:
    """A part of the check of one program, in a folder of its own, and what went wrong in it."""

    def __init__(self, program, room, is_short):
        self.program, self.room, self.is_short = program, Path(room), is_short
        self.tried, self.faults, self.policies = 0, [], listed_policies(program)
        self.trace = self.file("trace", lines(1, 1, 2, 3, 1))

    def size(self, whole, short):
        """A size at which a user comes, or a small one where only the check itself is tried."""
        return short if self.is_short else whole

    def file(self, name, text):
        path = self.room / name
        path.write_bytes(octets(text))
        return path

    def fail(self, name, text):
        self.faults.append(f"{name}: {text}")

    def call(self, *words, stdin=None, seconds=SECONDS, under=(), **how):
        """A call of the program, whose words may follow those of another one."""
        if isinstance(stdin, Path):
            with open(stdin, "rb") as file:
                return self.call(*words, stdin=file, seconds=seconds, under=under, **how)
        given = {} if stdin is None else {"stdin": stdin}
        return ended([*under, self.program, *words], seconds, **given, **how)

    def compare(self, name, found, right):
        self.tried += 1
        if found != right:
            self.fail(name, "".join(f"\nthe {what} is\n{shown(was)}\nwhere this is right:\n{shown(wanted)}"
                                    for what, was, wanted in zip(Ended._fields, found, right) if was != wanted))

    def expect(self, name, *words, status=0, out="", error="", **how):
        """One call, its status, and all of its output and of its standard error."""
        self.compare(name, self.call(*words, **how), Ended(status, octets(out), octets(error)))

    def expect_report(self, name, rows, *words, **how):
        self.expect(name, *words, out=HEADER + rows, **how)

    def expect_fault(self, name, line, *words, **how):
        """A fault that is found before anything is written, and its line."""
        self.expect(name, *words, status=1, error=f"{line}\n", **how)

    def expect_usage_error(self, name, *words, error=None):
        """Status 2, no output, and a text on standard error that is there to its end, or that of a word which names no
        policy; or this text, whole."""
        found = self.call(*words, stdin=self.trace)
        whole = re.fullmatch(rb"error: .+\n\nFor more information, try '--help'\.\n", found.error, re.DOTALL)
        if error is None and (whole or found.error == octets(self.no_policy())):
            error = found.error
        self.compare(name, found, Ended(2, b"", octets(error or "error: ..\n\nFor more information, try '--help'.\n")))

    def no_policy(self):
        """What the program says of a word that names no policy, or has a size that the policy does not take."""
        return f"""\
error: a word names no policy, or a number is missing
  [possible values: {', '.join(self.policies)}]
  [with sizes of their own: wtinylfu:main=N, caffeine:main=N:period=N, 2q:in=P:out=P, s3-fifo:small=P]
"""

    def expect_full(self, name, *words, **how):
        with open("/dev/full", "wb") as full:
            self.compare(name, self.call(*words, stdout=full, **how), Ended(1, b"", b"fault: Write\n"))

    def answer(self, name, *words, seconds=SECONDS_OF_A_LONG_CALL, **how):
        """The output of a call that ends well and reports nothing."""
        found = self.call(*words, seconds=seconds, **how)
        self.compare(name, found, Ended(0, found.out, b""))
        return found.out

    def expect_same(self, name, answer, right):
        """An answer that was worked out otherwise."""
        self.compare(name, Ended(0, octets(answer), b""), Ended(0, octets(right), b""))


def shown(value):
    """The beginning of what a call printed, as text."""
    text = value.decode(errors="replace") if isinstance(value, bytes) else str(value)
    return text if len(text) < 3000 else f"{text[:1500]}\n.. {len(text)} characters ..\n{text[-1000:]}"
