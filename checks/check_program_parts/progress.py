"""The line of progress, on a terminal for standard error alone."""
import os
import pty
import re
import signal
import subprocess
import time
from concurrent.futures import ThreadPoolExecutor

from checks import Ended, octets, patience

from .calls import SECONDS, part
from .workers import crowd

# How long the trace rests in its middle: longer than the line waits, so that no machine is too fast for it.
REST = 1.5
# The call is stopped before it begins, so that it does not work unwatched however busy the machine is.
STOPPED = ["sh", "-c", 'kill -STOP "$$"; exec "$@"', "sh"]
# It works for so long, each time longer by as much, and then rests, longer than a line stands before it is drawn anew, and the
# first times longer than none is drawn: so a line is drawn again and again, however fast the machine is. Where the line went on
# by more than this part of the whole, it works half as long from there on: so the last line is near the end.
WORKING, RESTING, FIRST_RESTING, PART = 0.004, 0.25, 0.75, 0.08
# A machine may still rest at any time, or let the call work for too long, so of this many calls one has to be drawn to its end.
TRIES = 5
LINE = re.compile(rb"\r([a-z]+): (?P<number>[0-9]+) (?P<kind>% of the file|MB|% of accesses), ([0-9]+):([0-5][0-9])\x1b\[K")
READ, PIPED, MADE = b"% of the file", b"MB", b"% of accesses"
CLEARED = b"\r\x1b[K"


class Shown:
    """A call at a terminal of its own: how it ended, and what was drawn on the terminal, in pieces with the seconds after
    which they came, and by how much this process was late at most, as the machine is busy."""

    def __init__(self, words, trace, is_piped):
        terminal, error = pty.openpty()
        self.terminal, self.pieces, self.start, self.lag = terminal, [], time.monotonic(), 0
        self.megabytes = trace.stat().st_size // 10**6
        with trace.open("rb") as file:
            source = subprocess.PIPE if is_piped else file
            self.process = subprocess.Popen([*STOPPED, *words], stdin=source, stdout=subprocess.PIPE, stderr=error)
        os.close(error)
        os.waitpid(self.process.pid, os.WUNTRACED)
        with ThreadPoolExecutor(2) as readers:
            readers.submit(self.read_terminal)
            out = readers.submit(self.process.stdout.read)
            if is_piped:
                self.process.send_signal(signal.SIGCONT)
                self.feed(trace.read_bytes())
            self.pace()
        self.out, self.status = out.result(), self.process.returncode
        os.close(terminal)

    def feed(self, text):
        try:
            self.process.stdin.write(text[: len(text) // 2])
            self.process.stdin.flush()
            time.sleep(REST)
            self.process.stdin.write(text[len(text) // 2:])
            self.process.stdin.close()
        except BrokenPipeError:
            pass  # so a run that ends at a fault leaves its trace

    def drawn(self):
        return b"".join(piece for _, piece in self.pieces)

    def whole(self, kind):
        return self.megabytes if kind == PIPED else 100

    def numbers(self, kind=None):
        """The numbers of the lines, of one kind or of all."""
        return [int(it["number"]) for it in LINE.finditer(self.drawn()) if kind in (None, it["kind"])]

    def pace(self):
        """Has the process work and rest in turn, until the line is cleared."""
        end, working = time.monotonic() + patience(SECONDS), 0
        while self.process.poll() is None and not self.drawn().endswith(CLEARED):
            before, last = [0, 0, *self.numbers()][-2:]
            working = max(WORKING, working / 2) if last - before > PART * 100 else working + WORKING
            self.process.send_signal(signal.SIGCONT)
            time.sleep(working)
            if time.monotonic() > end:
                self.process.kill()
            self.process.send_signal(signal.SIGSTOP)
            resting = RESTING if self.pieces else FIRST_RESTING
            due = time.monotonic() + resting
            time.sleep(resting)
            self.lag = max(self.lag, time.monotonic() - due)
        self.process.send_signal(signal.SIGCONT)
        self.process.wait(patience(SECONDS))

    def read_terminal(self):
        try:
            while more := os.read(self.terminal, 4096):
                self.pieces.append((time.monotonic() - self.start, more))
        except OSError:
            pass  # so a terminal ends whose other side is closed


def fault_of_lines(shown, fault, name, kinds):
    """What is wrong with what was drawn: lines of the subcommand, of these kinds one after the other, cleared, and a fault."""
    drawn = shown.drawn()
    end = CLEARED + octets(fault).replace(b"\n", b"\r\n")
    found = list(LINE.finditer(drawn))
    if not found or b"".join(it[0] for it in found) + end != drawn:
        return "these are not lines of progress that are cleared in the end"
    seen = [it["kind"] for it in found]
    if any(it[1] != name.encode() for it in found) or seen != sorted(seen, key=[*kinds, *{*seen} - {*kinds}].index) or not fault and seen[-1] != kinds[-1]:
        return "a line is of another subcommand, or counts otherwise"
    lists, times = [shown.numbers(kind) for kind in kinds], times_of(found)
    if any(numbers != sorted(numbers) for numbers in lists) or {*seen} - {*kinds} or times != sorted(times):
        return "the lines go back"
    if any(numbers and numbers[-1] > shown.whole(kind) for kind, numbers in zip(kinds, lists)) or shown.numbers(MADE).count(100) > 1:
        return "a line is over the end"
    return None


def times_of(found):
    return [60 * int(it[4]) + int(it[5]) for it in found]


def fault_of_pace(shown, kind, first, last):
    """What is wrong with the times and the numbers: these go from below one part of the whole to above another."""
    seconds, numbers = max(at for at, piece in shown.pieces if LINE.search(piece)), shown.numbers(kind)
    if not max(1, seconds - 2 - shown.lag) <= times_of(LINE.finditer(shown.drawn()))[-1] <= seconds:
        return f"the last line shows another time than {seconds:.1f} seconds"
    if len(numbers) > 4 and not (numbers[0] <= first * shown.whole(kind) and numbers[-1] >= last * shown.whole(kind)):
        return f"the numbers do not go from the beginning to the end, which is {shown.whole(kind)}"
    return None


def expect_progress(check, trace, *words, kinds=(READ,), fault=""):
    """The line is drawn and cleared, and the reports are those of a call whose standard error is a file, where nothing is
    drawn. Where the call ends in a fault, that has the line to itself. The line counts to 100, or to the megabytes of a pipe."""
    name = f"the line of {' '.join(map(str, words))}"[:200]
    ends = (1, 0) if fault else (1, 0.25) if kinds == (PIPED,) else (0.5, 0.6)
    plain = check.call(*words, stdin=trace)
    for _ in range(TRIES):
        shown = Shown([check.program, *map(str, words)], trace, PIPED in kinds)
        wrong = fault_of_lines(shown, fault, words[0], kinds)
        slow = None if wrong else fault_of_pace(shown, kinds[-1], *ends)
        if wrong and shown.pieces or not wrong and not slow:
            break
    check.compare(name, Ended(shown.status, shown.out, plain.error), Ended(1 if fault else 0, plain.out, octets(fault)))
    if wrong or slow:
        check.fail(name, f"{wrong or slow}; there came\n{shown.pieces}")


@part(15)
def progress(check):
    """The line of each subcommand that has one. The calls rest for most of their time, so they are made side by side."""
    longer = crowd(check, "longer", check.size(25, 800))
    rows = longer.read_bytes().splitlines(keepends=True)
    driven = check.file("driven", b"".join(rows[:50000]))
    faulty = check.file("faulty", b"".join(rows) + b"x\n")
    cache, two, alone = ("--capacity", 50), ("wtinylfu", "caffeine"), ("--capacity", 1000, "--workers", 1, "--limit")
    kept = {"kinds": (READ, MADE)}
    calls = [
        (longer, ["run", *cache, *two], {}),
        (longer, ["run", *cache, *two], {"kinds": (PIPED,)}),
        (longer, ["sweep", "--policy", two[0], "--policy", two[1], 50, 60], {}),
        (longer, ["sweep", "--policy", two[0], "--policy", "clairvoyant", 50, 60], kept),
        (longer, ["intervals", *cache, "--every", 100000, *two], {}),
        (longer, ["part", *cache, "--first", "wtinylfu", "--second", "wtinylfu"], {}),
        (longer, ["compare", *cache, "--first", two[0], "--second", two[1]], {}),
        (longer, ["compare", *cache, "--first", two[0], "--second", two[1], "--every", 100000], {}),
        (longer, ["footprint"], {}),
        (driven, ["drive", *alone, 2**24], {"kinds": (PIPED, MADE)}),
        (driven, ["drive", *alone, 1000], {"fault": "fault: JournalFull\n", "kinds": (PIPED, MADE)}),
        (faulty, ["run", *cache, *two], {"fault": f"fault: BadNumber line {len(rows) + 1}\n"})]
    with ThreadPoolExecutor(len(calls)) as pool:
        list(pool.map(lambda it: expect_progress(check, it[0], *it[1], **it[2]), calls))
