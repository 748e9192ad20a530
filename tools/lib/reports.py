"""The program's reports for the scripts of tools/: how it is found and called, and what a report of a sample, or one
without the warm-up, comes to."""
import copy
import csv
import io
import os
import re
import subprocess
import sys
import tempfile
from collections import namedtuple
from functools import cached_property
from itertools import islice
from pathlib import Path

from .options import as_called
from .own import counts_of, is_own, outcomes_of
from .policies import tip_for
from .runs import Accesses
from .traces import FORMATS, TraceFile, Unreadable, beginning_of, read_blocks, shown

MAX_CAPACITY = 1 << 20
SWEEP = "policy,capacity,accesses,hits,misses,evictions,rejections,rate"
INTERVALS = "policy,capacity,first,last,hits,misses,evictions,rejections,rate"
FOOTPRINT = "accesses,blocks,once"

Row = namedtuple("Row", "policy capacity accesses hits misses evictions")
# The options of a call: the format of the trace, --main of wtinylfu, --spread, --long, and one's own policies, with how
# many processes run them side by side.
Options = namedtuple("Options", "format main spread is_long own processes", defaults=(False, {}, None))


def rate(hits, accesses):
    """A hit ratio in percent, with two decimals and rounded down, as the program prints it."""
    hundredths = 10000 * hits // accesses if accesses else 0
    return f"{hundredths // 100}.{hundredths % 100:02}"


class Program:
    def __init__(self, path, tool):
        self.path, self.tool = path, tool

    @staticmethod
    def beside(script):
        """`cachesim` beside the folder of a script, or where tools/install puts it, also where the folder or the script
        is a link; else that on the path."""
        tops = [it.parent.parent for it in (Path(script).absolute(), Path(script).resolve())]
        files = [*(top / "cachesim" for top in tops), tops[1].parent / "bin/cachesim"]
        return next((str(it) for it in files if it.is_file()), "cachesim")

    def output(self, words, **how):
        try:
            return subprocess.run([self.path, *map(str, words)], **{"stdout": subprocess.PIPE, "check": False, **how})
        except OSError as fault:
            sys.exit(f"{self.tool}: {self.path} cannot be called: {fault.strerror}")

    def policies(self):
        text = self.output(["sweep", "--help"], stdin=subprocess.DEVNULL).stdout.decode(errors="replace")
        words = re.search(r"--policy <POLICY>[^\[]*\[possible values: ([^]]*)\]", text)
        if not words:
            sys.exit(f"{self.tool}: {self.path} does not say which policies it takes")
        return re.split(r",\s*", words.group(1))

    def chosen(self, named, own=()):
        """Each policy of --policy once; a word that neither the program takes nor is one's own ends the script."""
        taken = [*self.policies(), *own] if named else []
        for policy in named or []:
            if policy not in taken:
                self.refuse_word("--policy", policy, taken, tip_for(policy, taken))
        return list(dict.fromkeys(named or []))

    def check_word(self, option, word):
        """Ends the script where a word names no policy of the program, or has sizes that this one does not take."""
        nothing = subprocess.DEVNULL
        if self.output(["run", "--capacity", 1, word], stdin=nothing, stderr=nothing).returncode == 2:
            taken, policy = self.policies(), word.partition(":")[0]
            more = ", or has a size that it does not take" if policy in taken else tip_for(policy, taken)
            self.refuse_word(option, word, taken, more)

    def refuse_word(self, option, word, taken, more):
        sys.exit(f"{self.tool}: {option} {word} is none of {', '.join(taken)}{more}")

    def rows(self, words, file, trace, header):
        """The rows of a report of a trace, of which this is an open file, as lists of words."""
        ended = self.output(words, stdin=file)
        if ended.returncode:
            raise Unreadable(f"{trace.name}: {self.refusal(ended, trace.faulty_line(), trace.options.format)}")
        found, *rows = csv.reader(ended.stdout.decode().splitlines())
        if found != header.split(","):
            self.refuse_reports(trace.name)
        return rows

    @staticmethod
    def refusal(_, faulty_line, form):
        """Why the program refused a trace. It has said which fault that is."""
        other = next(it for it in FORMATS if it != form)
        if not faulty_line:
            return as_called("the program refused it: of a longer trace tools/sample makes a sample")
        hint = f"another format is --format {other}, and docs/TRACES.md converts what is in none"
        return as_called(f"{faulty_line}: {hint}")

    def refuse_reports(self, name):
        sys.exit(f"{self.tool}: the program printed other reports of {name} than were asked for")


class Trace:
    """A trace, how the program is to read it, and what its reports stand for.

    Of a sample of one block in `inverse`, taken of a trace of `whole` accesses, a row estimates that trace: it has as
    many times the misses, and its other accesses are hits (the correction of SHARDS-adj, Waldspurger et al. 2015). A
    row's capacity stays that of the sample: `shown` is the trace's. With `after` a row leaves out the first accesses.
    """

    def __init__(self, program, name, options, inverse=1, whole=None, after=0):
        self.program, self.name, self.options = program, name, options
        self.inverse, self.whole, self.after = inverse, whole, after
        self.file, self.warm_up, self.left_out, self.accesses = TraceFile(name), None, 0, None

    def begun(self, is_warm_up):
        """The number of the open file of the trace, or of its warm-up, set to where it begins."""
        if not is_warm_up:
            return self.file.begun()
        os.lseek(self.warm_up.fileno(), 0, os.SEEK_SET)
        return self.warm_up.fileno()

    def report(self, words, header, is_warm_up=False):
        """The rows of a report of the trace, or of its warm-up."""
        rows = self.program.rows(words, self.begun(is_warm_up), self, header)
        self.file.begun()  # as at first, or it has changed meanwhile
        return rows

    def footprint(self, is_warm_up=False):
        """How many accesses the trace has, or its warm-up, how many distinct blocks, and how many that come once."""
        words = ["footprint", "--format", self.options.format, *["--long"] * self.options.is_long]
        (counts,) = self.report(words, FOOTPRINT, is_warm_up)
        accesses, blocks, once = map(int, counts)
        if not is_warm_up:
            self.accesses = accesses
        return accesses, blocks, once

    def leave_out(self, accesses):
        """Leaves the warm-up out of this trace of so many accesses from here on, and says whether any are left: of a
        sample as large a part is left out as of the whole trace."""
        after = self.after * accesses // self.whole if self.whole else self.after
        if 0 < after < accesses:
            self.warm_up, self.left_out = tempfile.TemporaryFile(), after
            self.warm_up.writelines(beginning_of(self.file.lines(), self.options.format, after))
            self.warm_up.flush()
        return after < accesses

    def without_half(self, accesses):
        """This trace of so many accesses without the first half of them, if there is one."""
        later = copy.copy(self)
        later.after = (self.whole or accesses) // 2
        later.leave_out(accesses)
        return later if later.warm_up else None

    def faulty_line(self):
        """The first line that the program refuses, if it refuses one: the number is what it says of the trace."""
        words = ["footprint", "--long", "--format", self.options.format]
        said = self.program.output(words, stdin=self.file.begun(), stderr=subprocess.PIPE).stderr
        number = re.search(rb"^fault: (?!TooLong)\w+ line ([0-9]+)$", said, re.MULTILINE)
        if not number:
            return None
        line = next(islice(self.file.lines(), int(number[1]) - 1, None))
        return f"line {int(number[1])} is no line of the format {self.options.format}: {shown(line)}"

    def shown(self, count):
        """A capacity, or another number of blocks, as it is of the trace that was sampled."""
        return count * self.inverse

    def sweep(self, policies, capacities, main=None, part=()):
        """A row of each policy at each capacity, keyed by both, with another main part, or another size of a part."""
        rows = self.reports(policies, capacities, main, part)
        if self.warm_up:
            # What a policy hits in the warm-up does not depend on what follows. Belady's policy knows that, but it has
            # the most hits of all up to every place, so these too are those of the warm-up alone.
            begun = self.reports(policies, capacities, main, part, is_warm_up=True)
            rows = {at: self.without(row, begun[at]) for at, row in rows.items()}
        return {at: self.estimated(row) for at, row in rows.items()}

    def reports(self, policies, capacities, main, part, is_warm_up=False):
        own = [it for it in policies if is_own(it)]
        rows = self.rows_of_own(own, capacities, is_warm_up) if own else {}
        known = [it for it in policies if it not in own]
        return {**(self.rows_of_program(known, capacities, main, part, is_warm_up) if known else {}), **rows}

    @cached_property
    def keys(self):
        keys = Accesses(read_blocks(self.file.lines(), self.options.format))
        self.file.begun()
        return keys

    def rows_of_own(self, policies, capacities, is_warm_up):
        keys, options = Accesses(self.keys[:self.left_out]) if is_warm_up else self.keys, self.options
        counts = counts_of(options.own, policies, capacities, keys, options.processes)
        return {at: Row(*at, *numbers) for at, numbers in counts.items()}

    def words(self, command, main=None, part=()):
        options = self.options
        words = [command, "--format", options.format, "--spread", options.spread]
        return [*words, "--main", main or options.main, *["--long"] * options.is_long, *part]

    def hits_of(self, policy, capacity):
        """Whether each access hits, as a byte 1 or 0. Other processes may ask that at the same time."""
        if is_own(policy):
            return bytes(it == "hit" for it in outcomes_of(policy, self.options.own[policy], capacity, self.keys))
        with self.file.apart() as file:
            words = [*self.words("intervals"), "--capacity", capacity, "--every", 1, policy]
            ended = self.program.output(words, stdin=file, stderr=subprocess.PIPE)
        if ended.returncode:
            raise Unreadable(f"{self.name}: the program refused it: {ended.stderr.decode(errors='replace').strip()}")
        _, *hits = (row.endswith(b",100.00\n") for row in io.BytesIO(ended.stdout))
        Accesses.count(len(hits))
        return bytes(hits)

    def rows_of_program(self, policies, capacities, main, part, is_warm_up):
        words = [*self.words("sweep", main, part), *(word for it in policies for word in ("--policy", it)), *capacities]
        rows = [Row(row[0], *map(int, row[1:6])) for row in self.report(words, SWEEP, is_warm_up)]
        accesses = self.left_out if is_warm_up else self.accesses
        if [row[:3] for row in rows] != [(policy, it, accesses) for policy in policies for it in capacities]:
            self.program.refuse_reports(self.name)
        return {row[:2]: row for row in rows}

    @staticmethod
    def without(row, begun):
        """A row without those accesses that another row of the same cache has of the beginning."""
        return row._replace(accesses=row.accesses - begun.accesses, hits=row.hits - begun.hits,
                            misses=row.misses - begun.misses)

    def estimated(self, row):
        if not self.whole:
            return row
        accesses = self.whole - self.after
        misses = min(accesses, row.misses * self.inverse)
        return row._replace(accesses=accesses, hits=accesses - misses, misses=misses)
