"""Tests of tools/journal, over journals that were counted by hand, and beside what `replay` counts."""
import re

from frame import (Mistake, expect, expect_full_disk, expect_parts, expect_quiet_interrupt, file_of,
                                rows_of, run)

# Worker 0 adds two blocks and takes the maintenance, while worker 1 finds blocks, offers one to a full read buffer, and
# is turned away from the maintenance; worker 63 writes, and is refused twice. No cache gives this journal: it has one
# step of each kind that is counted.
STEPS = """0 look 1 = miss
0 put 1 = added 0
0 afterwrite = drain
0 look 2 = miss
0 put 2 = added 1
0 begin = began
1 look 1 = hit 0
1 offer 3 1 0 = full
1 afterread full = drain
1 begin = busy
0 drainread 0 = drained 1 0
0 drainwrite = applied 1 0
0 drainwrite = cleared 2 1
0 evict = evicted 1 0
0 evict = rejected 2 1
0 end = idle
1 look 2 = hit 1
1 lose 0 2 1 = lost
1 look 2 = hit 1
1 offer 0 2 1 = kept
63 put 2 = present 1
63 put 2 = present 1
63 remove 2 = removed 1
63 put 9 = writesfull
63 remove 9 = writesfull
63 remove 9 = absent
"""
COUNTED = """worker,accesses,hits,rate,kept,dropped,added,updated,removed,refused,taken,busy,steps,steps an access
0,2,0,0.00,0,0,2,0,0,0,1,0,12,6.00
1,3,3,100.00,1,2,0,0,0,0,0,1,8,2.66
63,0,0,-,0,0,0,2,1,2,0,0,6,-
all,5,3,60.00,1,2,2,2,1,2,1,1,26,5.20
"""


def check_counts(journal, folder):
    """A journal of three workers, counted by hand, and where it may not be believed."""
    whole = f"cachesim journal 2\n{STEPS}steps 26\n"
    path = file_of(folder, "whole", whole)
    expect("the table", run(journal, "--csv", path)[0], COUNTED)
    rest = run(journal, path)[0]
    table = rest.splitlines()[:5]
    expect("in columns", ([re.split(" {2,}", line.strip()) for line in table], len({len(line) for line in table})),
           ([line.split(",") for line in COUNTED.splitlines()], 1))
    expect_parts("below the table", rest, "1 reads drained, 1 writes applied, 1 removals applied, 2 evictions, 1 of these rejections",
                 "most tasks waiting: 3, first after step 23", "workers named: 3, read buffers named: 2", "2 of 7 writes were refused")
    lines = whole.splitlines(keepends=True)
    for cut in ("", "cachesim journal 1", whole[:-1], *("".join(lines[:count]) for count in (1, 2, 14, len(lines) - 1)), whole[:200]):
        expect_parts("a journal that is cut", run(journal, file_of(folder, "cut", cut), status=1)[1], "cut short" if "\n" in cut else "header")
    for right, wrong in (("steps 26", "steps 25"), ("steps 26\n", "steps 26\n0 begin = busy\n"),
                         ("look 1 =", "look 01 ="), ("63 put 2", "64 put 2"), ("= idle", "= ideal"),
                         ("journal 2", "journal 3"), ("journal 2", "journal 1")):
        run(journal, file_of(folder, "wrong", whole.replace(right, wrong)), status=1)
    expect("version 1", "may be cut short" in run(journal, typed=f"cachesim journal 1\n{STEPS}")[0], True)


def check_beside_replay(journal, folder, program):
    """Journals of one worker and of several: their counts beside what `show` counts at their ends."""
    trace = "".join(f"{it * it % 91}\n" for it in range(500))
    for workers, stripes in ((1, 1), (5, 4), (64, 64)):
        cache = "--capacity", 20, "--stripes", stripes
        path = file_of(folder, "run.journal", run(program, "drive", *cache, "--workers", workers, typed=trace)[0])
        rows = rows_of(run(journal, "--csv", path)[0])
        whole, rest = rows[-1], run(journal, path)[0]
        most, step = re.search("most tasks waiting: ([0-9]+), first after step ([0-9]+)", rest).groups()
        commands = f"show\ngoto {step}\nshow\n"
        answers = run(program, "replay", "--journal", path, *cache, typed=commands)[0].splitlines()
        words = next(line for line in answers if line.startswith("hits ")).split()
        shown = dict(zip(words[::2], map(int, words[1::2])))
        names = "hits", "kept", "added", "updated", "removed", "refused", "busy"
        expect("what is counted", [int(whole[it]) for it in names], [shown[it] for it in names])
        expect("what has another name", [int(whole[it]) for it in ("accesses", "dropped", "taken")],
               [shown["hits"] + shown["misses"], shown["full"] + shown["lost"], shown["begun"]])
        expect("accesses", int(whole["accesses"]), 500)
        expect("evictions", f"{shown['evictions']} evictions, {shown['rejections']} of these rejections" in rest, True)
        waiting = [line for line in answers if line.startswith("writes")][-1]
        expect(f"the tasks after step {step}", waiting.count(":"), int(most))
        expect("by worker", [sum(int(row[it]) for row in rows[:-1]) for it in ("accesses", "hits", "steps", "busy")],
               [int(whole[it]) for it in ("accesses", "hits", "steps", "busy")])
        expect("steps", path.read_text().splitlines()[-1], f"steps {whole['steps']}")


def check_many(journal, folder):
    """All workers at all read buffers, a key of twenty digits, a worker of many steps, and the most tasks twice."""
    steps = [f"{it} offer {it} {2**64 - 1 - it} {it} = kept" for it in range(64)] + ["3 look 7 = miss"] + ["3 begin = busy"] * 1201
    steps += ["4 put 5 = added 0", "4 drainwrite = applied 5 0"] * 2
    whole = "cachesim journal 2\n" + "".join(f"{it}\n" for it in steps) + f"steps {len(steps)}\n"
    path = file_of(folder, "many", whole)
    rows, rest = rows_of(run(journal, "--csv", path)[0]), run(journal, path)[0]
    expect("the workers", [row["worker"] for row in rows], [*map(str, range(64)), "all"])
    expect("a worker", [rows[3][it] for it in ("steps", "steps an access", "taken", "busy")], ["1203", "1203.00", "0", "1201"])
    expect_parts("below the table", rest, "workers named: 64, read buffers named: 64", "most tasks waiting: 1, first after step 1267\n")
    for workers, are_apart in ("00", False), ("010", False), ("0011", True), ("7033", True):
        text = "".join(f"{it} begin = busy\n" for it in workers)
        said = run(journal, typed=f"cachesim journal 2\n{text}steps {len(workers)}\n")[0]
        expect(f"workers one after the other, {workers}", "went one after the other" in said, are_apart)


def check_large(journal, folder):
    for count in (120000, 250000):
        steps = "0 begin = busy\n" * count + "0 put 5 = added 0\n"
        expect_parts("many steps", run(journal, typed=f"cachesim journal 2\n{steps}steps {count + 1}\n")[0],
                     f" {count + 1} ", f"first after step {count + 1}\n")


def check_ways(journal, folder):
    """A journal by a file, by a pipe and on the standard input; one that cannot be read, and tables that cannot be written."""
    refused = "cachesim journal 2\n0 look 1 = miss\n0 put 1 = writesfull\nsteps 2\n"
    path = file_of(folder, "refused", refused)
    answers = [run(journal, *words, typed=refused)[0] for words in ([path], ["-"], [])]
    expect("the same", answers, answers[:1] * 3)
    expect_parts("refused writes", answers[0], "1 of 1 writes was refused")
    expect_full_disk(journal, path)
    expect_parts("no file", run(journal, folder / "none", status=1)[1], "cannot be read")
    expect_quiet_interrupt(journal, folder)


MISTAKES = {
    "a journal cut short": Mistake(check_counts, "journal", "if self.version == 2 and not self.is_ended:", "if False:"),
    "columns that are not in line": Mistake(check_counts, "journal", "widths = [max(", "widths = [min("),
    "a last line of version 1": Mistake(check_counts, "journal", 'if self.version == 2 and line.startswith', "if line.startswith"),
    "a count that is not compared": Mistake(check_counts, "journal", 'if line != f"steps {self.steps}\\n":', "if not line:"),
    "a dropped read that is not counted": Mistake(check_counts, "journal", ', ("lose", "lost")]', "]"),
    "a removal that is not refused": Mistake(check_counts, "journal", ', ("remove", "writesfull")]', "]"),
    "tasks that never wait": Mistake(check_counts, "journal", '("put", "present"): 1,', ""),
    "a worker's steps counted as another's": Mistake(check_counts, "journal", '"all" if worker is None else worker',
                                                     '"all" if worker is None else 0'),
    "workers named": Mistake(check_many, "journal", "workers named: {workers}", "workers named: {min(63, workers)}"),
    "one worker that is apart": Mistake(check_many, "journal", "if 1 < workers == self.pieces", "if workers == self.pieces"),
    "workers that came back": Mistake(check_many, "journal", "if 1 < workers == self.pieces", "if 1 < workers"),
    "read buffers named": Mistake(check_many, "journal", "read buffers named: {len(self.stripes)}",
                                  "read buffers named: {min(63, len(self.stripes))}"),
    "steps an access, many": Mistake(check_many, "journal", "ratio(steps, accesses)]", "ratio(steps % 1000, accesses)]"),
    "busy counted as taken": Mistake(check_many, "journal", '"taken": [("begin", "began")]', '"taken": [("begin", "began"), ("begin", "busy")]'),
    "keys of few digits": Mistake(check_many, "journal", "[1-9][0-9]*)", "[1-9][0-9]{0,18})"),
    "most tasks at a later step": Mistake(check_many, "journal", "if self.waiting > self.most:", "if self.waiting >= self.most:"),
    "an interrupt that is told": Mistake(check_ways, "lib/traces.py", "signal.SIG_DFL)", "signal.default_int_handler)"),
}
