"""Tests of tools/survey, over a program whose reports are known, and beside calls of the program itself."""
import contextlib
import gzip
import os
import pty
import random
import re
import shutil
import subprocess
import sys

from frame import (EVERY, NOTING, POLICIES, UNSAFE, Mistake, expect, expect_full_disk, expect_parts, expect_quiet_interrupt,
                   fake, file_of, gnuplot_by, looping, rows_of, run, without_texts)


def check_best(survey, folder):
    """A thousand accesses to twenty blocks, of which one comes once: all within half a point are the best, and of these that is the
    first which loses least here and at the capacity beside it."""
    trace = file_of(folder, "trace", "".join(f"{it % 19}\n" for it in range(999)) + "500\n")
    percent = {("lru", 2): 10, ("slru", 2): 12, ("tinylfu-lru", 2): 11, ("wtinylfu", 2): 12, ("clairvoyant", 2): 30,
               ("lru", 3): 40, ("slru", 3): 30, ("tinylfu-lru", 3): 11, ("wtinylfu", 3): 12, ("clairvoyant", 3): 45}
    program = fake(folder, f"{percent}.get((policy, max(2, min(3, capacity))), 0)")
    words = survey, trace, "--program", program, "--percent", "10", "--capacity", "3", "--csv"
    expect("traces", run(*words, "--table", "traces")[0],
           f"trace,accesses,footprint,used once,highest possible %\n{trace},1000,20,1,98.00\n")
    # At 3 entries lru has 600 misses, slru 700 and wtinylfu 880; at 2 entries lru 900 for the 880 of the best.
    expect("policies", run(*words, "--main", "99")[0],
           f"trace,% of footprint,capacity,{','.join(POLICIES)},below optimal,at worst,best\n"
           f"{trace},10.0,2,10.00,12.00,11.00,0.00,12.00,30.00,18.00,16.7,slru or wtinylfu --main 99\n"
           f"{trace},15.0,3,40.00,30.00,11.00,0.00,12.00,45.00,5.00,2.3,lru\n")
    expect("misses", run(*words, "--table", "misses", "--policy", "lru", "--policy", "slru")[0],
           "trace,% of footprint,capacity,lru,slru,% fewer than lru,best\n"
           f"{trace},10.0,2,900,880,2.2,slru\n{trace},15.0,3,600,700,0.0,lru\n")


def check_at_worst(survey, folder):
    """A policy within half a point goes first where it loses less beside its capacity, up to one capacity above and below."""
    trace = looping(folder, 500, 10000)
    hits = {2: (5000, 4990, 4995), 3: (5400, 5390, 4000), 4: (5400, 5420, 5380), 5: (5400, 6000, 5000), 6: (6000, 6000, 6000), 7: (9000, 9000, 9000)}
    program = fake(folder, f"dict(zip(('lru', 'slru', 'sieve'), {hits}.get(min(7, max(2, capacity))))).get(policy, 0)",
                   policies=["lru", "slru", "sieve"], parts=10000)
    words = survey, trace, "--program", program, "--csv", *(word for it in (2, 3, 4, 5, 6) for word in ("--capacity", it))
    # At 3 entries slru has 4610 misses for the 4600 of lru, 0.2 percent more, at 4 lru 4600 for 4580, 0.4, and at 5 for 4000, 15. Of
    # sieve what it has one entry above or below counts, where it loses.
    expect("the best", [(row["at worst"], row["best"]) for row in rows_of(run(*words)[0])],
           [("0.0", "lru or slru"), ("0.2", "slru or lru"), ("0.2", "slru or lru"), ("0.0", "slru"), ("0.0", "slru or lru")])


def check_between(survey, folder):
    """Between two capacities whose best policies disagree two more are measured, and the survey says which."""
    trace = looping(folder, 1000, 5000)
    program = fake(folder, "50 if policy == 'lru' else 40 if capacity < 250 else 60", policies=["lru", "slru"])
    words = survey, trace, "--program", program, "--capacity", "900", "--capacity", "100"
    out, said = run(*words, "--csv")
    expect("the rows", [(row["capacity"], row["best"], row["at worst"]) for row in rows_of(out)],
           [("100", "lru", "0.0"), ("173", "lru", "25.0"), ("300", "slru", "20.0"), ("900", "slru", "0.0")])
    expect("what is said", said, f"tools/survey: {trace}: also measured, between two whose best policies disagree: 173, 300\n")
    expect_parts("in a table", run(*words)[0], "(also measured, between two whose best policies disagree: 173, 300)\n")
    expect("without best", run(*words, "--csv", "--table", "windows")[1], "")
    expect("neighbours", rows_of(run(*words[:5], "249", "--capacity", "250", "--csv")[0])[1]["capacity"], "250")


def check_spans(survey, folder):
    """A policy that changes within a percent by more than what separates it from the next counts by its lowest hit ratio."""
    trace = looping(folder, 500, 5000)
    for slru, shown, best in (({198: 40, 200: 50, 202: 45}, "40.00-50.00", "lru"), ({198: 60, 200: 62, 202: 61}, "62.00", "slru"),
                              ({198: 49, 200: 50, 202: 51}, "49.00-51.00", "lru"), ({198: 48, 200: 48, 202: 48}, "48.00", "slru")):
        lru = 4990 if "49" in shown else 4700  # then slru rises by a point for each percent, and lru is half a point below
        program = fake(folder, f"{lru} if policy == 'lru' else {slru}.get(capacity, 30) * 100", policies=["lru", "slru"], parts=10000)
        words = survey, trace, "--program", program, "--capacity", "200", "--table", "policies"
        row = run(*words)[0].splitlines()[2].split()
        expect(f"of {slru}", (row[3], row[5]), (shown, best))
        expect("as CSV", rows_of(run(*words, "--csv")[0])[0]["slru"], f"{slru[200]}.00")


def check_others(survey, folder):
    """Where no policy is named, `best` looks at those without a column too."""
    trace = looping(folder, 300, 3000)
    program = fake(folder, "60 if policy == 'fifo' else 50", policies=EVERY)
    words = survey, trace, "--program", program, "--capacity", "30", "--csv"
    row = rows_of(run(*words)[0])[0]
    expect("the best", (row["best"], "fifo" in row, row["below optimal"]), ("fifo", False, "-10.00"))
    expect("of two", rows_of(run(*words, "--policy", "lru", "--policy", "arc")[0])[0]["best"], "lru or arc")
    row = rows_of(run(*words, "--main", "20", "--policy", "wtinylfu", "--policy", "caffeine")[0])[0]
    expect("as they are typed", row["best"], "wtinylfu --main 20 or caffeine --main 20")


def check_halves(survey, folder):
    """In the first half lru has 250 hits and slru 200, in all 450 and 600: so in the second lru has 300 misses and slru 100."""
    trace = looping(folder, 100, 1000)
    program = fake(folder, "(50 if policy == 'lru' else 40) if accesses == 500 else 45 if policy == 'lru' else 60",
                   policies=["lru", "slru"])
    words = survey, trace, "--program", program, "--halves", "--csv", "--capacity"
    wanted = f"trace,% of footprint,capacity,half,% more misses,best\n{trace},{{0}},first,-,lru\n{trace},{{0}},second,200.0,slru\n"
    expect("the halves", run(*words, "30")[0], wanted.format("30.0,30"))
    expect("of a sample", run(*words, "240", "--sampled", "1/8", "--accesses", "8000")[0], wanted.format("30.0,240"))
    expect_parts("for people", run(*words[:5], "--capacity", "30")[0], f"{trace}: best of each half\n", "second          200.0  slru\n")
    expect("no halves", run(survey, file_of(folder, "one", "1\n"), *words[2:5])[0], "no halves\n")
    run(*words, "30", "--after", "1", status=2)


def check_long(survey, folder):
    """--long is handed on, and leaves out Belady's policy, which may not be named beside it."""
    trace = looping(folder, 100, 1000)
    words = survey, trace, "--program", fake(folder, "60 if '--long' in words else 50"), "--csv", "--capacity", "30"
    expect("a short one", rows_of(run(*words)[0])[0]["lru"], "50.00")
    row = rows_of(run(*words, "--long")[0])[0]
    expect("a long one", (row["lru"], "clairvoyant" in row), ("60.00", False))
    expect_parts("clairvoyant", run(*words, "--long", "--policy", "clairvoyant", status=2)[1], "clairvoyant has to know the whole trace")


def check_nearly_best(survey, folder):
    """Half a point below the best is as good, more is not, nor are more than 5 percent more misses: of 20 misses 21 are, 22 are
    not."""
    trace = file_of(folder, "trace", "0 19\n" * 526 + "0 6\n")
    for hits, best, lost in (("lru=5000, slru=4950", "lru or slru", "-0.56"), ("lru=9980, slru=9979, wtinylfu=9978", "lru or slru", "-50.36"),
                             ("wtinylfu=9980 if main == 20 else 9978, lru=9979", "wtinylfu --main 20 or lru", "-50.36")):
        program = fake(folder, f"dict({hits}).get(policy, 4944)", parts=10000)
        words = survey, trace, "--format", "arc", "--program", program, "--capacity", "5"
        row = rows_of(run(*words, "--csv")[0])[0]
        expect("the best", (row["best"], row["below optimal"], row["% of footprint"]), (best, lost, "26.3"))
    expect_parts("the note", run(*words, "--table", "policies")[0], "(best: all within half a point of the best policy and 5 % of its misses,\n")
    expect("the best main part", rows_of(run(*words, "--csv", "--table", "windows")[0])[0]["best --main"], "20")


def check_windows(survey, folder):
    """The best window of wtinylfu counts, and is named."""
    trace = looping(folder, 300, 3000)
    program = fake(folder, ""
                   "dict(lru=40, wtinylfu={99: 20, 90: 21, 80: 39, 50: 60, 20: 59}.get(main, 0)).get(policy, 0)")
    words = survey, trace, "--program", program, "--capacity", "30", "--csv"
    row = rows_of(run(*words)[0])[0]
    expect("the best", (row["wtinylfu"], row["best"], row["below optimal"]), ("20.00", "wtinylfu --main 50", "-60.00"))
    expect("the windows", run(*words, "--table", "windows")[0],
           "trace,% of footprint,capacity,--main 99,--main 90,--main 80,--main 50,--main 20,best --main\n"
           f"{trace},10.0,30,20.00,21.00,39.00,60.00,59.00,50\n")
    expect("one window", rows_of(run(*words, "--main", "80")[0])[0]["best"], "lru")
    beside = *words[:3], fake(folder, "dict(caffeine=61).get(policy, main // 9)", policies=EVERY), *words[4:]
    expect("caffeine beside them", run(*beside, "--table", "windows")[0].splitlines()[1], f"{trace},10.0,30,11.00,10.00,8.00,5.00,2.00,61.00,99")


def check_parts(survey, folder):
    """Each part has its own sizes, beside the program's own, of the policies that have such parts."""
    trace = looping(folder, 300, 3000)
    program = fake(folder, "int(option.get('--small', 60)) if policy == 's3-fifo' else "
                   "int(option.get('--in', 30)) + int(option.get('--out', 40)) // 10", policies=EVERY)
    words = survey, trace, "--program", program, "--capacity", "30", "--csv", "--table", "parts"
    heads, rates = "s3-fifo --small 1,s3-fifo --small 5,s3-fifo --small 10,s3-fifo --small 25", "1.00,5.00,60.00,25.00"
    expect("one policy", run(*words, "--policy", "s3-fifo")[0], f"trace,% of footprint,capacity,{heads}\n{trace},10.0,30,{rates}\n")
    heads += "," + ",".join(f"2q --{part}" for part in ("in 5", "in 25", "in 50", "in 75", "out 10", "out 25", "out 50", "out 100"))
    expect("two policies", run(*words, "--policy", "2q", "--policy", "s3-fifo")[0],
           f"trace,% of footprint,capacity,{heads}\n"
           f"{trace},10.0,30,{rates},9.00,34.00,54.00,79.00,31.00,32.00,34.00,40.00\n")
    expect("no such policy", run(*words, "--policy", "lru")[0], "trace,% of footprint,capacity\n")


def check_columns(survey, folder):
    """The policies that are named, or at most eight of those that the program takes."""
    trace = file_of(folder, "trace", "1\n2\n1\n")
    heads = run(survey, trace, "--csv", "--program", fake(folder, policies=EVERY))[0].splitlines()[0].split(",")
    expect("the default columns", heads[3:-3],
           ["lru", "slru", "arc", "sieve", "s3-fifo", "wtinylfu", "caffeine", "clairvoyant"])
    words = survey, trace, "--csv", "--program", fake(folder), "--policy"
    expect("a column", run(*words, "slru")[0].splitlines()[0], "trace,% of footprint,capacity,slru,at worst,best")
    expect_parts("a policy that is none", run(*words, "none", status=1)[1], "--policy none is none of lru, slru")
    words = survey, trace, "--program", fake(folder, policies=EVERY), "--policy"
    for word, meant in (("opt", "clairvoyant"), ("min", "clairvoyant"), ("Belady", "clairvoyant"), ("LRU", "lru"), ("s3fifo", "s3-fifo")):
        expect_parts(word, run(*words, word, status=1)[1], f"--policy {word} is none of ", f"did you mean {meant}?\n")


def check_width(survey, folder):
    """No table is wider than 80 columns, and each column is in it, also of all policies where they are as good as each other; nor is the
    help."""
    trace = looping(folder, 320, 3200)
    # Of some of these numbers all columns but `best` fill a block, or leave room for it alone.
    for policies in (EVERY, EVERY[:-1], EVERY[:-2]):
        words = survey, trace, "--program", fake(folder, "50", policies=policies)
        words += "--reach", "99", *(word for it in policies for word in ("--policy", it))
        whole = run(*words)[0]
        sampled = run(*words, "--sampled", "1/1024", "--accesses", 3200 << 10, "--after", "9")[0]
        for text in (whole, sampled, run(survey, "--help", env={**os.environ, "COLUMNS": "80"})[0]):
            expect("too wide", [line for line in text.splitlines() if len(line) > 80 + len(str(trace)) * (str(trace) in line)], [])
        expect_parts("the tables", whole, f"{trace}: hit ratios in percent\n     % of\nfootprint  capacity    lru ", *policies)
        best = rows_of(run(*words, "--csv", "--table", "policies")[0])[0]["best"]
        names = [it.replace("wtinylfu", "wtinylfu --main 99") for it in policies if it != "clairvoyant"]
        expect("the best as CSV", sorted(best.split(" or ")), sorted([*names, *(f"wtinylfu --main {it}" for it in (90, 80, 50, 20))]))
        expect_parts("the names in a table", " ".join(whole.split()), best, "99 or 90 or 80 or 50 or 20")


def check_many_rows(survey, folder):
    many = [word for it in range(60) for word in ("--capacity", 211 + it)]
    rows = run(survey, file_of(folder, "trace", "1\n2\n1\n"), "--program", fake(folder), *many, "--policy", "slru", "--table", "policies")[0]
    expect("sixty rows", [row.split()[1] for row in rows.splitlines()[2:62]], [str(211 + it) for it in range(60)])


def check_small(survey, folder):
    """Each cache of one entry to twelve has its row: of 20 blocks an entry is 5 percent."""
    trace = looping(folder, 20, 400)
    many = [word for it in range(1, 13) for word in ("--capacity", it)]
    words = "--program", fake(folder, "4 * capacity"), "--policy", "lru", "--table", "policies", "--csv"
    expect("the rows", [(row["capacity"], row["% of footprint"], row["lru"]) for row in rows_of(run(survey, trace, *words, *many)[0])],
           [(f"{it}", f"{5 * it}.0", f"{4 * it}.00") for it in range(1, 13)])


def on_terminal(script, *words):
    """What a call of a script that ends well draws on a terminal."""
    terminal, error = pty.openpty()
    with subprocess.Popen([sys.executable, *map(str, (script, *words))], stdout=subprocess.PIPE, stderr=error) as process:
        os.close(error)
        drawn = b""
        with contextlib.suppress(OSError):  # as a terminal ends
            while piece := os.read(terminal, 4096):
                drawn += piece
        process.stdout.read()
    os.close(terminal)
    expect("the status", process.returncode, 0)
    return drawn.decode()


def check_progress(survey, folder):
    """At a terminal a survey says which of its steps is under way, of each trace, and leaves nothing there."""
    traces = [file_of(folder, name, "".join(f"{it % 50}\n" for it in range(500))) for name in ("one", "two")]
    words = "--program", fake(folder, "50"), "--policy", "lru", "--policy", "wtinylfu"
    drawn = on_terminal(survey, *traces, *words, "--table", "policies", "--main", "50")
    steps = re.findall("tools/survey: (.*), (.*)\r\n", drawn)
    expect("two traces", steps, [(f"{place} of 6: {step}", str(traces[place > 3]))
                                 for place, step in enumerate(["footprint", "policies", "between capacities"] * 2, 1)])
    expect("lines that are erased", drawn.count("\x1b[A\r\x1b[K"), 6)
    expect("the last line", drawn.endswith("\x1b[A\r\x1b[K"), True)
    odd = file_of(folder, "three\x1b[2J", "1\n2\n1\n")
    expect_parts("a name with other characters", on_terminal(survey, odd, *words, "--table", "traces"), "1 of 1: footprint, ", "/three?[2J\r\n")
    # The footprint, the policies, between these, jumps of lru, a search for each policy, powers of two.
    expect_parts("all tables", on_terminal(survey, traces[0], *words, "--reach", "9"), "1 of 7: footprint, ", "7 of 7: powers of two, ")


def check_cliffs(survey, folder):
    """Of policies that may lose by a larger capacity, changes within one percent of a capacity, or one entry. Of 8 entries one
    more is many percent: a gain of 10 points is no jump, a loss of 3 is one."""
    trace = looping(folder, 300, 3000)
    slru = {8: 10, 9: 20, 10: 17, 198: 60, 200: 40, 202: 61}
    words = survey, trace, "--capacity", "9", "--capacity", "200", "--program"
    words += fake(folder, f"90 if policy == 'lru' else {slru}.get(capacity, 30) if policy == 'slru' else 30"),
    expect("the jumps", run(*words, "--csv", "--table", "jumps")[0],
           f"trace,policy,jumps from,to,hit ratio from,to,points\n{trace},slru,9,10,20.00,17.00,-3.00\n"
           f"{trace},slru,198,200,60.00,40.00,-20.00\n{trace},slru,200,202,40.00,61.00,21.00\n")
    expect_parts("in a table", run(*words)[0], "others but clairvoyant: within a percent of the survey's\ncapacities)", "-20.00\n")
    expect_parts("no jump", run(*words, "--policy", "lru", "--table", "jumps")[0], "no jump (lru: at any capacity; others")
    run(*words, "--policy", "slru", "--table", "traces", "--plot", "picture.svg", cwd=folder, env=gnuplot_by(folder, NOTING))
    expect_parts("the picture", (folder / "given").read_text(), "\n198 60.000000\n200 40.000000\n202 61.000000\n")


def check_reach(survey, folder):
    """A program whose lru jumps, and whose Belady's policy gains two points by each five entries."""
    trace = looping(folder, 200, 1000)
    program = fake(folder, "(5 if capacity < 123 else 60) if policy == 'lru' else capacity * 2 // 5 if policy == 'clairvoyant' else 0")
    words = survey, trace, "--program", program, "--csv", "--table", "reach", "--policy", "lru", "--policy", "clairvoyant"
    expect("reach", run(*words, "--reach", "60", "--reach", "1")[0],
           "trace,to reach,policy,capacity,% of footprint,hit ratio,not at,hit ratio there\n"
           f"{trace},60,lru,123,61.5,60.00,122,5.00\n{trace},60,clairvoyant,150,75.0,60.00,149,59.00\n"
           f"{trace},1,lru,1,0.5,5.00,-,-\n{trace},1,clairvoyant,3,1.5,1.00,2,0.00\n")
    expect("no reach", run(*words, "--reach", "81")[0].splitlines()[1], f"{trace},81,lru,never,-,-,200,80.00")
    expect("jumps", run(survey, trace, "--program", program, "--csv", "--table", "jumps")[0],
           "trace,policy,jumps from,to,hit ratio from,to,points\n"
           f"{trace},lru,122,123,5.00,60.00,55.00\n{trace},lru,199,200,60.00,80.00,20.00\n")
    small = fake(folder, "100 * capacity if capacity < 5 else 500 + 19 * (capacity >= 91) + 20 * (capacity >= 180)", parts=1000)
    jumps = rows_of(run(survey, trace, "--program", small, "--csv", "--table", "jumps", "--policy", "lru")[0])
    expect("a rise of 1.9 points and one of 2", [(row["jumps from"], row["points"]) for row in jumps], [("179", "2.00"), ("199", "26.10")])
    row = run(survey, trace, "--program", small, *words[4:], "--reach", "20")[0].splitlines()[1]
    expect("one entry too few", row, f"{trace},20,lru,2,1.0,20.00,1,10.00")


def check_percent_of_reach(survey, folder):
    """Of a large trace the capacity that reaches a ratio is found to one percent, by over sixty readings."""
    trace = file_of(folder, "large", "0 30000\n0 30000\n0 30000\n")
    program = fake(folder, "(capacity >= 2000) * 40 + capacity // 1000", policies=[*POLICIES, "fifo", "arc"])
    words = survey, trace, "--program", program, "--csv", "--format", "arc", "--table", "reach"
    for row in rows_of(run(*words, "--reach", "42")[0]):
        found, below = int(row["capacity"]), int(row["not at"])
        expect(f"{row}", (below < 2000 <= found, (found - below) * 100 <= found, row["hit ratio"], row["hit ratio there"]),
               (True, True, "42.00", "1.00"))


def large(survey, folder):
    """A trace of more blocks than the largest cache has entries, and the words of a survey of it."""
    trace = file_of(folder, "large", "0 1200000\n7 300000\n")
    return trace, (survey, trace, "--format", "arc", "--csv", "--program", fake(folder), "--policy", "lru", "--policy", "tinylfu-lru")


def check_large(survey, folder):
    """The highest ratio of a large trace."""
    trace, words = large(survey, folder)
    # Of the last 500000 accesses 200000 are the first to their block.
    after = run(*words, "--table", "traces", "--after", "1000000")[0]
    expect("the ratio without a warm-up", after.splitlines()[1], f"{trace},500000,1200000,900000,60.00")
    # Of a sample the 3 accesses are none: 9600000 misses of 11999997.
    sample = run(*words, "--table", "traces", "--table", "reach", "--reach", "15", "--sampled", "1/8", "--accesses", "12000000", "--after", "3")[0]
    expect("the ratio of a sample", sample.splitlines()[1], f"{trace},11999997,9600000,7200000,19.99")
    expect("no reach in a sample", rows_of(sample.partition("19.99\n")[2])[0]["capacity"], "> 8388608")
    sample = run(*words, "--table", "traces", "--sampled", "1/64", "--accesses", "96000000")[0]
    expect("a sample of many blocks", sample.splitlines()[1], f"{trace},96000000,76800000,57600000,20.00")


def check_large_capacities(survey, folder):
    """Capacities of a large trace that are left out, and ratios that no cache reaches."""
    _, words = large(survey, folder)
    out, error = run(*words, "--percent", "1", "--percent", "95")
    expect("the part of the footprint", [row["% of footprint"] for row in rows_of(out)], ["1.0"])
    expect_parts("what is left out", error, "1140000 entries are left out: the largest cache has 1048576")
    expect("the largest", run(*words, "--capacity", "1048576", "--table", "jumps")[0].splitlines()[1:], [])
    reach = rows_of(run(*words, "--table", "reach", "--reach", "15", "--reach", "90")[0])
    expect("no reach", [row["capacity"] for row in reach], ["> 1048576"] * 2 + ["never"] * 2)


def check_jumps_and_powers(survey, folder):
    """A jump at many entries, and both sides of large powers of two."""
    small = file_of(folder, "small", "0 20000\n0 20000\n")
    words = survey, small, "--format", "arc", "--csv"
    for first, rates in ((15000, "5"), (14990, "5 if capacity < 14990 else 30")):
        jump = fake(folder, f"({rates}) if capacity < 15000 else 60")
        row = run(*words, "--program", jump, "--table", "jumps")[0].splitlines()[1].split(",")
        expect(f"a jump: {row}", (first - 10 <= int(row[2]) < first, 15000 <= int(row[3]) < 15010, row[4:]), (True, True, ["5.00", "60.00", "55.00"]))
    # Within a twentieth of each power of two, above and below; 975 is further from 1024.
    near = {1 << it: (1 << it) + (-1) ** it * ((1 << it) // 24) for it in range(1, 20) if it != 10}
    program = fake(folder, f"30 if capacity in {[*near]} else 31 if capacity - 1 in {[*near]} else 0", top="1 << 21")
    named = [word for it in (*near.values(), 975) for word in ("--capacity", it)]
    out = run(*words, "--program", program, "--table", "powers", *named)[0]
    expect("powers", out.splitlines()[1:], [f"{small},{it},{power},30.00,31.00,1.00" for power in near for it in POLICIES[2:5]])


def check_lost_row(survey, folder, program):
    """A program that leaves out its last report is not believed."""
    trace = file_of(folder, "trace", "1\n2\n1\n")
    _, error = run(survey, trace, "--program", fake(folder, cut="[:-1]"), status=1)
    expect_parts("a report that is left out", error, "other reports")
    failing = fake(folder)
    failing.write_text(f"{failing.read_text()}sys.exit(1)\n")
    expect_parts("a long trace", run(survey, trace, "--program", failing, status=1)[1], "of a longer trace tools/sample makes a sample")
    for name, part in ((folder / "none", "none: No such file"), (folder, "Is a directory")):
        expect_parts("no file", run(survey, name, "--program", program, status=1)[1], part)
    arc = file_of(folder, "arc", "0 7\n")
    for words, hint in ((("--format", "lirs"), "--format arc"), (("--format", "arc", "--capacity", "1"), "--format lirs")):
        text, line = (arc, "0 7") if "lirs" in words else (trace, "1")
        expect_parts("a trace in another format", run(survey, *words, text, "--program", program, status=1)[1],
                     f"tools/survey: {text}: line 1 is no line of the format {words[1]}: '{line}': another format is {hint}, and docs/TRACES.md converts")
    for word in ("1M", "1048577"):
        expect_parts("a word", run(survey, trace, "--capacity", word, "--program", program, status=2)[1], f"{word} is not a whole number")
    for option in ("--percent", "--reach"):
        expect_parts(option, run(survey, trace, option, "nan", status=2)[1], "nan is not a number from 0 to 100")
    expect_quiet_interrupt(survey, folder, "--program", program)
    expect_full_disk(survey, trace, "--program", fake(folder))


def check_other_reports(survey, folder):
    """Columns of another program, and accesses that the trace does not have, are not believed."""
    trace = file_of(folder, "trace", "1\n2\n1\n")
    for old, new in (("rejections,rate", "rejections,rate,more"), ("accesses = sum(", "accesses = -1 + sum(")):
        program = fake(folder)
        program.write_text(program.read_text().replace(old, new))
        expect_parts(new, run(survey, trace, "--program", program, "--table", "policies", status=1)[1], "other reports")


def check_searches(survey, folder):
    """A policy that jumps at any capacity is found to reach a ratio there, one entry above what does not."""
    trace = looping(folder, 400, 2000)
    places = {it: 40 + 7 * at for at, it in enumerate(EVERY)}
    program = fake(folder, f"60 if capacity >= {places}[policy] else 1", policies=EVERY)
    words = survey, trace, "--program", program, "--csv", "--table", "reach", "--reach", "42", *(word for it in EVERY for word in ("--policy", it))
    rows = [(row["policy"], int(row["capacity"]), int(row["not at"])) for row in rows_of(run(*words)[0])]
    expect("the capacities", [(it, low < places[it] <= high, high - low <= max(1, high // 100)) for it, high, low in rows], [(it, True, True) for it in EVERY])


def check_titles(survey, folder):
    """A picture says which options made it, begins at a hundredth of the footprint, and is of one trace."""
    trace = looping(folder, 400, 2000)
    words = survey, trace, "--program", fake(folder), "--table", "traces", "--plot", "picture.svg"
    run(*words, "--after", "9", "--main", "50", "--spread", "plain", cwd=folder, env=gnuplot_by(folder, NOTING))
    text = (folder / "given").read_text()
    expect_parts("its title", text, "without the first 9, --main 50, --spread plain", "$curve0 << END\n4 ", f"\n400 {160000 / 1991:.6f}\nEND")
    expect_parts("two traces", run(survey, trace, *words[1:], status=2, cwd=folder)[1], "--plot draws one trace")


def check_steep(survey, folder):
    """Of ten entries one more is a tenth: there nine and a half points are no jump, ten are one."""
    trace = looping(folder, 300, 3000)
    for high, jumps in ((2950, 0), (3000, 1)):
        program = fake(folder, f"{high} if capacity > 10 else 2000", policies=["lru", "slru"], parts=10000)
        rows = rows_of(run(survey, trace, "--program", program, "--csv", "--table", "jumps", "--policy", "slru", "--capacity", "10")[0])
        expect(f"jumps to {high}", len([row for row in rows if row["policy"] == "slru"]), jumps)


def check_rounded(survey, folder):
    """A capacity of a sample is the nearest one that its cache has."""
    words = looping(folder, 50, 500), "--program", fake(folder), "--csv", "--policy", "lru"
    row = rows_of(run(survey, *words, "--capacity", "1000", "--sampled", "1/64", "--accesses", "32000")[0])[0]
    expect("the row", (row["% of footprint"], row["capacity"]), ("32.0", "1024"))


def check_ways(survey, folder, program):
    """A trace is read from a file, packed or not, and from a pipe, and its tables are the same."""
    # More than a buffer has, packed by zstd too, since what stands before a number is not packed any smaller. Block 1000 comes
    # three times, written otherwise; of 91 residues x * x has 28.
    blanks, rng = bytes(b" \t"[it % 2] for it in range(256)), random.Random(1)
    text = b"".join(rng.randbytes(600).translate(blanks) + b"%d\n" % (it * it % 91) for it in range(2000)) + b"1000\n 1000\n001000\n"
    words = "--program", program, "--csv", "--capacity", "20", "--table", "traces", "--table", "policies", "--policy", "slru"
    plain = file_of(folder, "plain", text)
    wanted = run(survey, plain, *words)[0]
    expect("the trace", wanted.splitlines()[1], f"{plain},2003,29,0,98.55")
    packed = {"gz": gzip.compress(text, 1)}
    if shutil.which("zstd"):
        packed["zst"] = subprocess.run(["zstd", "-qc", "--fast=9999"], input=text, capture_output=True, check=True).stdout
    for name, data in packed.items():
        path = file_of(folder, name, data)
        expect(name, run(survey, path, *words)[0].replace(str(path), str(plain)), wanted)
        for broken in (data[:-9], data[:len(data) // 2] + bytes([data[len(data) // 2] ^ 0xff]) + data[len(data) // 2 + 1:]):
            run(survey, file_of(folder, "broken", broken), *words, status=1)
    for name, data in {**packed, "plain": text}.items():
        expect(f"{name} by a pipe", run(survey, "-", *words, typed=data)[0].replace("\n-", f"\n{plain}"), wanted)
    with plain.open("rb") as file:
        expect("the standard input", run(survey, "-", *words, stdin=file, input=None)[0].replace("\n-", f"\n{plain}"), wanted)


def check_beside_run(survey, folder, program):
    """Two traces in the program's own numbers: each row is that of a `run` of that trace alone, with its options."""
    first = file_of(folder, "first", "".join(f"{it * it % 91}\n" for it in range(400)))
    second = file_of(folder, "second", "".join(f"{it * it * it % 57}\n*\n" for it in range(300)))
    for options in ((), ("--main", "50", "--spread", "plain")):
        words = "--program", program, "--csv", "--capacity", "7", "--capacity", "20", *options
        named = [word for it in POLICIES for word in ("--policy", it)]
        printed = rows_of(run(survey, *words, *named, first, second)[0])
        expect("the rows", [(row["trace"], row["capacity"]) for row in printed],
               [(str(trace), size) for trace in (first, second) for size in ("7", "20")])
        for row in printed:
            with open(row["trace"], encoding="utf-8") as trace:
                call = program, "run", *options, "--capacity", row["capacity"], *POLICIES
                reports = rows_of(run(*call, typed=trace.read())[0])
            expect(f"{row}", [row[policy] for policy in POLICIES], [report["rate"] for report in reports])
    ranges = file_of(folder, "ranges", "1 3\n\n2 3\n9 1\n")
    printed = run(survey, "--program", program, "--format", "arc", "--csv", "--table", "traces", ranges)[0]
    # Blocks 1, 2, 3, 2, 3, 4, 9.
    expect("blocks in ranges", printed.splitlines()[1:], [f"{ranges},7,5,3,28.57"])


def check_after(survey, folder, program):
    """Without a warm-up each row is the sum of the intervals after it."""
    trace = file_of(folder, "trace", "".join(f"{it * it % 391}\n" for it in range(3000)))
    named = [word for it in POLICIES for word in ("--policy", it)]
    words = survey, trace, "--program", program, "--csv", "--capacity", "40", "--after", "1000", *named
    row, misses = (rows_of(run(*words, "--table", it)[0])[0] for it in ("policies", "misses"))
    for policy in POLICIES:
        rows = rows_of(run(program, "intervals", "--capacity", 40, "--every", 1000, policy, typed=trace.read_text())[0])[1:]
        hits = sum(int(it["hits"]) for it in rows)
        expect(f"{policy} after 1000", (row[policy], misses[policy]), (f"{hits * 10000 // 2000 / 100:.2f}", str(2000 - hits)))
    windows = rows_of(run(*words, "--table", "windows")[0])[0]
    for main in ("80", "20"):
        call = program, "intervals", "--capacity", 40, "--every", 1000, "--main", main, "wtinylfu"
        hits = sum(int(it["hits"]) for it in rows_of(run(*call, typed=trace.read_text())[0])[1:])
        expect(f"--main {main}", windows[f"--main {main}"], f"{hits * 10000 // 2000 / 100:.2f}")
    expect_parts("the note", run(*words[:4], *words[5:], "--table", "policies")[0], "(without the first 1000 accesses, where clairvoyant is no upper bound)\n")
    # Of 391 residues x * x has 0 and 8 * 11 + 8 + 11 others (391 is 17 times 23), all of them in the first 1000.
    expect("the trace", run(*words, "--table", "traces")[0].splitlines()[1], f"{trace},2000,108,0,100.00")
    arc = file_of(folder, "arc", "".join(f"{it * 7 % 90} 3\n" for it in range(100)))
    words = survey, arc, "--format", "arc", "--program", program, "--csv", "--capacity", "10", "--after", "100", "--policy", "lru"
    rows = rows_of(run(program, "intervals", "--format", "arc", "--capacity", 10, "--every", 100, "lru", typed=arc.read_text())[0])
    hits = sum(int(it["hits"]) for it in rows[1:])
    expect("its accesses", run(*words, "--table", "traces")[0].splitlines()[1].split(",")[1], "200")
    expect("of ranges", rows_of(run(*words)[0])[0]["lru"], f"{hits * 10000 // 200 / 100:.2f}")


def check_sampled(survey, folder, program):
    """Of a sample of one block in 8 the misses are those of the sample eight times, and the capacities too."""
    trace = looping(folder, 100, 1000)
    faked = fake(folder, "{'lru': 20, 'clairvoyant': 95}.get(policy, 0)")
    words = survey, trace, "--program", faked, "--sampled", "1/8", "--accesses", "16000", "--policy", "lru", "--policy", "clairvoyant"
    # 800 misses are 6400 of 16000, 50 are 400.
    expect("policies", run(*words, "--csv", "--capacity", "160", "--table", "policies", "--table", "misses")[0],
           "trace,% of footprint,capacity,lru,clairvoyant,below optimal,at worst,best\n"
           f"{trace},20.0,160,60.00,97.50,37.50,0.0,lru\n"
           "trace,% of footprint,capacity,lru,clairvoyant,% fewer than lru,best\n"
           f"{trace},20.0,160,6400,400,0.0,lru\n")
    few = run(*words[:7], "5000", "--csv", "--capacity", "160", "--policy", "lru")[0]
    expect("never below 0", rows_of(few)[0]["lru"], "0.00")
    expect_parts("the traces", run(*words, "--capacity", "160")[0], " 16000        800 ", "one block in 8")
    # A quarter of 16000 accesses is left out, so of the sample 250, with 200 misses and 13: 600 are 4800 of 12000, 37 are 296.
    after = run(*words, "--csv", "--capacity", "160", "--after", "4000", "--table", "traces", "--table", "policies")[0]
    expect("after a warm-up", after.splitlines()[1:], [
        f"{trace},12000,800,0,100.00", "trace,% of footprint,capacity,lru,clairvoyant,below optimal,at worst,best",
        f"{trace},20.0,160,60.00,97.53,37.53,0.0,lru"])
    expect("nothing after it", run(*words, "--after", "16000", "--table", "policies")[0], "no accesses\n\n(estimates by one block in 8)\n"
           "\n(without about the first 16000 accesses, where clairvoyant is no upper bound)\n")
    jump = fake(folder, "5 if capacity < 50 else 60")
    expect_parts("a jump", run(*words[:3], jump, *words[4:], "--table", "jumps")[0], "known to some percent", "  392  400 ")
    whole = file_of(folder, "whole", "".join(f"{it % 700}\n" for it in range(7000)))
    kept, line = run(survey.with_name("sample"), "--program", program, "--rate", "1/8", whole)
    kept, said = file_of(folder, "kept", kept), file_of(folder, "said", line)
    out = run(survey, kept, "--program", faked, "--sampled", said, "--csv", "--table", "traces")[0]
    expect("what the sample says", out.splitlines()[1].split(",")[1], "7000")
    for wrong in (["--sampled", "1/7"], ["--sampled", "0.5"], ["--accesses", "5"], ["--sampled", "1/8", "--accesses", "3999"],
                  ["--sampled", said], ["--sampled", said, "--accesses", "7000"], ["--sampled", trace]):
        run(survey, trace, "--program", faked, *wrong, status=2)


def check_sampled_once(survey, folder):
    """Of a sample with a block that comes once, all blocks and capacities are eight times its own: 808 misses of 16000."""
    program = fake(folder, "20")
    trace = file_of(folder, "once", "".join(f"{it % 100}\n" for it in range(1000)) + "100\n")
    words = survey, trace, "--program", program, "--sampled", "1/8", "--accesses", "16000", "--policy", "lru"
    expect("of one block once", run(*words, "--csv", "--table", "traces", "--table", "reach", "--reach", "90", "--reach", "95")[0].splitlines(), [
        "trace,accesses,footprint,used once,highest possible %", f"{trace},16000,808,8,94.95",
        "trace,to reach,policy,capacity,% of footprint,hit ratio,not at,hit ratio there",
        f"{trace},90,lru,808,100.0,94.95,800,59.95", f"{trace},95,lru,never,-,-,808,94.95"])
    said = file_of(folder, "said", "7 of 900 accesses, 3 blocks: --sampled 1/2 --accesses 900\n1001 of 16000 accesses, 101 blocks: --sampled 1/8 --accesses 16000\n")
    out = run(survey, trace, "--program", program, "--sampled", said, "--csv", "--table", "traces", "--policy", "lru")[0]
    expect("the last that is said", out.splitlines()[1], f"{trace},16000,808,8,94.95")
    expect("less than an entry of a sample", rows_of(run(*words, "--csv", "--capacity", "3")[0])[0]["capacity"], "8")
    text = run(*words[:-2], "--capacity", "1024")[0]
    expect("powers of two of a sample", "power of two" in text, False)
    run(*words, "--plot", folder / "picture.svg", env=gnuplot_by(folder, NOTING), cwd=folder)
    places = (folder / "given").read_text().partition("$curve0 << END\n")[2].partition("END")[0].split()[::2]
    expect("the picture's ends", (places[0], places[-1]), ("8", "808"))


def check_unsafe_name(survey, folder):
    """The name of a trace is no more than a text for gnuplot."""
    name = "-" + UNSAFE.replace("\n", "")
    trace = file_of(folder, name, "1\n2\n1\n").name
    words = survey, "--program", fake(folder), "--plot", "picture.svg", "--table", "traces", "--", trace
    run(*words, cwd=folder, env=gnuplot_by(folder, NOTING))
    expect("outside of texts", "`" in without_texts((folder / "given").read_text()), False)
    if shutil.which("gnuplot"):
        run(*words, cwd=folder)
    expect("a command that was run", (folder / "made").exists(), False)


def check_kept_picture(survey, folder):
    """Where no picture is drawn, or none can be written, what stood there stays, and nothing beside it."""
    trace, picture = file_of(folder, "trace", "1\n2\n1\n"), file_of(folder, "picture.svg", "an old picture")
    words = survey, trace, "--program", fake(folder), "--table", "traces", "--plot"
    broken = gnuplot_by(folder, "echo '<svg>'; exit 3")
    here = sorted(folder.iterdir())
    expect_parts("a gnuplot that fails", run(*words, picture, status=1, env=broken)[1], "drew no picture")
    out, error = run(*words, picture, status=1, env={**broken, "PATH": str(file_of(folder, "none", ""))})
    expect_parts("no gnuplot", error, "--plot needs gnuplot")
    expect("before anything is read", out, "")
    env = gnuplot_by(folder, "echo '<svg></svg>'")
    limited = "bash", "-c", 'trap "" XFSZ; ulimit -f 0; exec "$@"', "bash", sys.executable
    run(*limited, survey, trace, *words[2:], picture, status=1, env=env)
    expect("the old picture", picture.exists() and picture.read_text(), "an old picture")
    run(*words, "/dev/full", status=1, env=env)
    (folder / "link.svg").symlink_to(picture)
    run(*words, folder / "link.svg", env=env)
    expect_parts("the new picture, by a link", picture.read_text(), "<svg>")
    expect("what is there", sorted(folder.iterdir()), sorted([*here, folder / "none", folder / "link.svg"]))


def check_best_of_sample(survey, folder):
    """Of a sample half a point, and two points where one of both policies has a sketch. Of 1000 accesses 10 more misses are 80
    of 8000, a point."""
    trace = looping(folder, 100, 1000)
    for percent, best in (({"lru": 50, "slru": 51}, "slru"), ({"slru": 51, "wtinylfu": 50}, "slru or wtinylfu --main 99"),
                          ({"wtinylfu": 51, "lru": 50, "slru": 49, "tinylfu-lru": 48}, "wtinylfu --main 99 or lru or slru")):
        program = fake(folder, f"{percent}.get(policy, 0)")
        words = survey, trace, "--program", program, "--sampled", "1/8", "--accesses", "8000", "--capacity", "160"
        expect("the best", rows_of(run(*words, "--main", "99", "--csv")[0])[0]["best"], best)
    expect_parts("the note", " ".join(run(*words)[0].split()), "or two where one of both has a sketch,", "of sieve and slru near a jump", "one block in 8")


def check_drawn(survey, folder, program):
    """The picture has each policy at capacities from a hundredth of the footprint to all of it, in steps, and the trace's name. Of 91
    residues x * x has 28: 4 by 7 times 7 by 13."""
    trace = file_of(folder, "trace", "".join(f"{it * it % 91}\n" for it in range(3000)))
    words = survey, trace, "--program", program, "--table", "traces", *(word for it in POLICIES for word in ("--policy", it)), "--plot"
    how = {"cwd": folder, "env": gnuplot_by(folder, NOTING)}
    run(*words, "picture.svg", **how)
    text = (folder / "given").read_text()
    expect_parts("the picture", text, "terminal svg", "3000 accesses", "set xrange [1:28]", "$curve0 with steps ", str(trace), *POLICIES)
    lru = text.partition("$curve0 << END\n")[2].partition("END")[0].splitlines()
    for line in lru:
        capacity, height = line.split()
        row = rows_of(run(program, "run", "--capacity", capacity, "lru", typed=trace.read_text())[0])[0]
        expect(f"lru at {capacity}", f"{float(height):.6f}", f"{100 * int(row['hits']) / 3000:.6f}")
    run(*words, "picture.png", **how)
    expect_parts("a PNG", (folder / "given").read_text(), "terminal pngcairo")
    run(*words, "/dev/full", status=1, **how)
    expect_parts("nothing to draw", run(survey, "-", *words[2:], "picture.png", status=1, **how)[1], "no accesses to draw")


MISTAKES = {
    "a row dropped": Mistake(check_best, "lib/measures.py", "return sorted({capacity for _, capacity in rows})",
                             "return sorted({capacity for _, capacity in rows})[1:]"),
    "two traces joined": Mistake(check_beside_run, "survey", "Trace(program, name,", "Trace(program, args.trace[0],"),
    "a wrong best": Mistake(check_best, "lib/advice.py", "key=lambda it: -it[1].hits", "key=lambda it: it[1].hits"),
    "a best that knows the future": Mistake(check_best, "lib/advice.py", " and key != OPTIMAL]", "]"),
    "a sample's best by half a point": Mistake(check_best_of_sample, "lib/advice.py", "50 if is_rough", "200 if is_rough"),
    "two points between policies without a sketch": Mistake(check_best_of_sample, "lib/advice.py", "(has_sketch(row.policy) or", "(True or"),
    "two points by the other's sketch alone": Mistake(check_best_of_sample, "lib/advice.py", " or has_sketch(best.policy))", ")"),
    "a best by hundredths": Mistake(check_nearly_best, "lib/advice.py", "else 200", "else 20000"),
    "a best by a twenty-first of the misses": Mistake(check_nearly_best, "lib/advice.py", "* 20 <= best", "* 21 <= best"),
    "a window that is typed otherwise": Mistake(check_windows, "lib/measures.py", 'f"{WINDOWED} --main {main}"', 'f"{WINDOWED} {main}"'),
    "a window in the place of another": Mistake(check_windows, "lib/measures.py", "capacities, main)", "capacities, main - 1)"),
    "a part of another size": Mistake(check_parts, "lib/measures.py", 'part=(f"--{option}", size)', 'part=(f"--{option}", size + 1)'),
    "no part of another size": Mistake(check_parts, "lib/reports.py", "options.is_long, *part]", "options.is_long]"),
    "caffeine as a window": Mistake(check_windows, "lib/tables.py", "*(it.rows[policy, capacity] for policy in beside)", "*(rows[0][1] for policy in beside)"),
    "no window": Mistake(check_windows, "lib/measures.py", "for it in MAINS[1:] if is_windowed}", "for it in MAINS[1:] if not is_windowed}"),
    "a table that is too wide": Mistake(check_width, "lib/tables.py", "(*blocks[-1], at)) > most", "(*blocks[-1], at)) > 100"),
    "a column left out": Mistake(check_width, "lib/tables.py", "for at in range(KEYS, len(widths)):", "for at in range(KEYS + 1, len(widths)):"),
    "a name that is cut": Mistake(check_width, "lib/tables.py", 'it.replace(" ", "\\0") for', 'it.replace(" ", " -") for'),
    "names that are hidden": Mistake(check_width, "lib/tables.py", "for it in cell) or", "for it in cell[:3]) or"),
    "names cut in CSV": Mistake(check_width, "lib/tables.py", '" or ".join(it) or "-" if', '" or ".join(it[:3]) or "-" if'),
    "no tip": Mistake(check_columns, "lib/policies.py", "OTHER_NAMES.get(small)", "None"),
    "no tip for capital letters": Mistake(check_columns, "lib/policies.py", "word.lower()", "word"),
    "a step of another trace": Mistake(check_progress, "lib/progress.py", "self.done + self.plan.index(step)", "self.plan.index(step)"),
    "a name that a terminal obeys": Mistake(check_progress, "lib/progress.py", "it if it.isprintable() else", "it if it.isprintable() or True else"),
    "a line that stays": Mistake(check_progress, "lib/measures.py", "    progress.erase()\n    return survey", "    return survey"),
    "a step that is not planned": Mistake(check_progress, "lib/measures.py", '*["between capacities"] * bool(tables & ADVICE),', ""),
    "no cliffs": Mistake(check_cliffs, "lib/measures.py", "if policy not in MONOTONE and not main]", "if policy in MONOTONE and not main]"),
    "cliffs above alone": Mistake(check_cliffs, "lib/measures.py", "((below(it), it), (it, above(it)))", "((it, above(it)),)"),
    "cliffs below alone": Mistake(check_cliffs, "lib/measures.py", "((below(it), it), (it, above(it)))", "((below(it), it),)"),
    "cliffs two percent apart": Mistake(check_cliffs, "lib/measures.py", "capacity - max(1, capacity // 100)", "capacity - max(1, capacity // 50)"),
    "gains of small caches": Mistake(check_cliffs, "lib/measures.py", "rises_by(points, low, high) and is_steep(low, high) or", "rises_by(points, low, high) or"),
    "no loss": Mistake(check_cliffs, "lib/measures.py", " or high.hits < low.hits and rises_by(points, high, low)", ""),
    "a sample's warm-up of the whole trace's length": Mistake(check_sampled, "lib/reports.py", "self.after * accesses // self.whole if self.whole else self.after",
                                                              "self.after"),
    "a sample's accesses with its warm-up": Mistake(check_sampled, "lib/reports.py", "self.whole - self.after", "self.whole"),
    "a sample's jump to an entry": Mistake(check_sampled, "lib/tables.py", "NOTES_OF_SAMPLE if args.sampled else {}", "{}"),
    "points below of the last of the best": Mistake(check_nearly_best, "lib/tables.py", "it.rows[best[0].key, capacity])] if", "it.rows[best[-1].key, capacity])] if"),
    "forty rows": Mistake(check_many_rows, "lib/tables.py", "for row in rows[1:]]", "for row in rows[1:41]]"),
    "the part of a footprint below nine entries": Mistake(check_small, "lib/tables.py", "100 * capacity / survey.footprint", "100 * max(9, capacity) / survey.footprint"),
    "no row below nine entries": Mistake(check_small, "lib/measures.py", "return sorted({capacity for _, capacity in rows})",
                                         "return sorted({capacity for _, capacity in rows if capacity > 8})"),
    "ten million blocks of a sample": Mistake(check_large, "lib/reports.py", "return count * self.inverse", "return min(10**7, count * self.inverse)"),
    "the first that is said of a sample": Mistake(check_sampled_once, "lib/samples.py", "= said[-1]", "= said[0]"),
    "the best by hits alone": Mistake(check_at_worst, "lib/advice.py", "key=lambda it: worst[it[0]]", "key=lambda it: 0"),
    "the row below alone": Mistake(check_at_worst, "lib/advice.py", "more[max(0, at - 1):at + 2]", "more[max(0, at - 1):at + 1]"),
    "the row above alone": Mistake(check_at_worst, "lib/advice.py", "more[max(0, at - 1):at + 2]", "more[at:at + 2]"),
    "the least loss": Mistake(check_at_worst, "lib/advice.py", "max(it[key] for it in", "min(it[key] for it in"),
    "columns of another program": Mistake(check_other_reports, "lib/reports.py", "if found != header.split(\",\"):", "if False:"),
    "other accesses": Mistake(check_other_reports, "lib/reports.py", "else self.accesses\n", "else rows[0].accesses\n"),
    "a picture from one entry on": Mistake(check_titles, "lib/measures.py", "low = max(1, survey.footprint // 100)", "low = 1"),
    "a title without its spread": Mistake(check_titles, "survey", 'args.spread != "mixed"}', "False}"),
    "two traces in one picture": Mistake(check_titles, "survey", "if file and len(args.trace) > 1:", "if False:"),
    "a jump by the larger capacity": Mistake(check_steep, "lib/measures.py", "(high.hits - low.hits) * low.capacity >=", "(high.hits - low.hits) * high.capacity >="),
    "a capacity of a sample cut off": Mistake(check_rounded, "lib/measures.py", "max(1, round(it / trace.inverse))", "max(1, int(it / trace.inverse))"),
    "once between": Mistake(check_between, "lib/measures.py", "ROUNDS = 2", "ROUNDS = 1"),
    "between all": Mistake(check_between, "lib/advice.py", "if keys[low][0] not in", "if True or keys[low][0] not in"),
    "between in silence": Mistake(check_between, "survey", "if args.csv else []:", "if False else []:"),
    "a table that is silent about what is between": Mistake(check_between, "lib/tables.py", "also if name == first else {}", "{}"),
    "the ratio at the capacity alone": Mistake(check_spans, "lib/measures.py", "return {**rows, **{at: lowest for", "return {**{at: lowest for"),
    "the highest counts": Mistake(check_spans, "lib/measures.py", "{at: lowest for at, (lowest, _) in", "{at: lowest for at, (_, lowest) in"),
    "spans between policies that are far apart": Mistake(check_spans, "lib/measures.py", "if highest.hits - lowest.hits > min(apart, default=0):", "if True:"),
    "spans in CSV": Mistake(check_spans, "lib/tables.py", "if args.csv else surveys\n", "if False else surveys\n"),
    "the columns alone": Mistake(check_others, "survey", "and not args.policy]", "and False]"),
    "others than are named": Mistake(check_others, "survey", "it not in policies and not args.policy]", "it not in policies]"),
    "caffeine without its --main": Mistake(check_others, "lib/advice.py", ' or key == CAFFEINE and main != "99"', ""),
    "halves changed over": Mistake(check_halves, "lib/measures.py", "for it in (first, second)]", "for it in (second, first)]"),
    "the cost in the whole trace": Mistake(check_halves, "lib/measures.py", "more_misses({name: second[name, it]", "more_misses({name: rows[name, it]"),
    "a sample's half": Mistake(check_halves, "lib/reports.py", "(self.whole or accesses) // 2", "accesses // 2"),
    "--long that is not handed on": Mistake(check_long, "lib/reports.py", '*["--long"] * options.is_long, ', ""),
    "clairvoyant with --long": Mistake(check_long, "survey", "if not args.long or it != OPTIMAL]", "]"),
    "--percent beside --capacity dropped": Mistake(check_best, "lib/measures.py", "args.percent or map(Decimal, [] if args.capacity else PERCENTS)", "map(Decimal, [] if args.capacity else args.percent or PERCENTS)"),
    "a warm-up with another window": Mistake(check_after, "lib/reports.py", "main, part, is_warm_up=True", "None, part, is_warm_up=True"),
    "misses of the warm-up too": Mistake(check_after, "lib/reports.py", "misses=row.misses - begun.misses", "misses=row.misses"),
    "blocks of the warm-up as new ones": Mistake(check_large, "lib/measures.py", "footprint - known", "footprint"),
    "the largest cache of a sample": Mistake(check_large, "lib/tables.py", "> {it.trace.shown(MAX_CAPACITY)}", "> {MAX_CAPACITY}"),
    "blocks used once of a sample": Mistake(check_sampled_once, "lib/tables.py", "it.trace.shown(it.once)", "it.once"),
    "the powers of two of a sample": Mistake(check_sampled_once, "survey", ' and (name != "powers" or not args.sampled)', ""),
    "a picture by a sample's capacities": Mistake(check_sampled_once, "survey", "{shown(it.capacity)}", "{it.capacity}"),
    "the first part of a jump": Mistake(check_jumps_and_powers, "lib/measures.py", "parts[0][0], parts[-1][1]", "*parts[0],"),
    "powers of two below a capacity": Mistake(check_jumps_and_powers, "lib/measures.py", "if any(abs(it - (1 << bits))", "if any(0 <= (1 << bits) - it and ((1 << bits) - it)"),
    "powers of two that are not near": Mistake(check_jumps_and_powers, "lib/measures.py", "<< bits)) * 20 <= it", "<< bits)) * 19 <= it"),
    "a megabyte of a packed trace": Mistake(check_ways, "lib/traces.py", "shutil.copyfileobj(gzip.open(source) if first.startswith(GZIP) else source, copy, COPIED)",
                                            "copy.write((gzip.open(source) if first.startswith(GZIP) else source).read(COPIED))"),
    "a misses column of hits": Mistake(check_best, "lib/tables.py", "it.rows[policy, capacity].misses", "it.rows[policy, capacity].hits"),
    "a report of the program that is missing": Mistake(check_lost_row, "lib/reports.py", "if [row[:3] for row in rows] !=",
                                                       "if [] and [row[:3] for row in rows] !="),
    "a row at another capacity": Mistake(check_reach, "lib/measures.py", "return between(low, high, LRU_TRIES)",
                                         "return between(low + 1, high, LRU_TRIES)"),
    "sixty readings of a trace": Mistake(check_percent_of_reach, "lib/traces.py", "        return self.file.fileno()", "        self.read = getattr(self, 'read', 0) + 1\n"
                                         "        return self.file.fileno() if self.read <= 60 else os.open(os.devnull, os.O_RDONLY)"),
    "a search that ends early": Mistake(check_percent_of_reach, "lib/measures.py", "max(1, high // 100)", "max(1, high // 10)"),
    "each block as used once": Mistake(check_beside_run, "lib/reports.py", "return accesses, blocks, once", "return accesses, blocks, blocks"),
    "options that are not handed on": Mistake(check_beside_run, "lib/reports.py",
                                              ', "--spread", options.spread]\n        return [*words, "--main", main or options.main,',
                                              ']\n        return [*words, "--main", "99",'),
    "no main": Mistake(check_beside_run, "lib/reports.py", "main or options.main", '"99"'),
    "a power of two left out": Mistake(check_jumps_and_powers, "lib/measures.py", "range(1, 20)", "[*range(1, 15), *range(16, 20)]"),
    "a warm-up of a sample that is none": Mistake(check_large, "lib/measures.py", "if trace.warm_up else (0", "if trace.after else (0"),
    "capacities left out in silence": Mistake(check_large_capacities, "lib/measures.py", "if capacity > MAX_CAPACITY:", "if False:"),
    "two points that are no jump": Mistake(check_reach, "lib/measures.py", ">= points * low.accesses", "> points * low.accesses"),
    "a jump of less than two points": Mistake(check_reach, "lib/measures.py", "LEAST_JUMP = 50, 2", "LEAST_JUMP = 50, 1.5"),
    "the ratio before a jump after it": Mistake(check_jumps_and_powers, "lib/tables.py", "shown_rate(low), shown_rate(high),",
                                                "shown_rate(low), shown_rate(low if low.capacity > 9999 else high),"),
    "the next smaller capacity at 2 or 3 entries": Mistake(check_reach, "lib/tables.py", "shown_rate(below) if below else",
                                                           "shown_rate(below) if below and below.capacity > 2 else"),
    "the part of a large footprint": Mistake(check_large_capacities, "lib/tables.py", "100 * capacity / survey.footprint",
                                             "100 * capacity / min(survey.footprint, 99999)"),
    "never for more entries": Mistake(check_large_capacities, "lib/tables.py", "if is_possible else", "if True else"),
    "a warm-up that is not left out": Mistake(check_after, "lib/reports.py", "hits=row.hits - begun.hits", "hits=row.hits"),
    "ranges cut at their lines": Mistake(check_after, "lib/traces.py", "taken = min(count, accesses)", "taken = count"),
    "a sample that is not scaled": Mistake(check_sampled, "lib/reports.py", "row.misses * self.inverse", "row.misses"),
    "a sample below 0": Mistake(check_sampled, "lib/reports.py", "min(accesses, row.misses", "max(0, row.misses"),
    "a sample of another trace": Mistake(check_sampled, "lib/measures.py", 'check_accesses(args, f"{trace.name}: ", accesses)', "pass"),
    "the capacity of a sample": Mistake(check_sampled, "lib/measures.py", "round(it / trace.inverse)", "it"),
    "reports of a program that fails": Mistake(check_lost_row, "lib/reports.py", "        if ended.returncode:\n            raise Unreadable(f\"{trace.name}",
                                                "        if ended.returncode and not ended.stdout:\n            raise Unreadable(f\"{trace.name}"),
    "no number taken for one": Mistake(check_lost_row, "lib/options.py", "not number.is_finite() or ", ""),
    "a picture over the old one": Mistake(check_kept_picture, "lib/traces.py", "if is_file else name", "if False else name"),
    "a picture that is not drawn": Mistake(check_kept_picture, "survey", "    if ended.returncode:", "    if False:"),
    "half a picture left beside": Mistake(check_kept_picture, "lib/traces.py", "            Path(beside).unlink(missing_ok=True)", "            pass"),
    "gnuplot looked for at the end": Mistake(check_kept_picture, "survey", 'if args.plot and not shutil.which("gnuplot"):', "if False:"),
    "an output on a full disk": Mistake(check_lost_row, "lib/traces.py", "    except OSError as fault:\n        sys.exit(f\"{tool}",
                                        "    except OSError as fault:\n        print(f\"{tool}"),
    "the format that was tried as another": Mistake(check_lost_row, "lib/reports.py", "if it != form)", "if it == form)"),
    "a packed file read as it is": Mistake(check_ways, "lib/traces.py", "and not first.startswith((GZIP, ZSTD))", ""),
    "a megabyte of a pipe": Mistake(check_ways, "lib/traces.py", "else source, copy, COPIED)", "else __import__('io').BytesIO(source.read(COPIED)), copy, COPIED)"),
    **({"a megabyte of what zstd unpacks": Mistake(check_ways, "lib/traces.py", "shutil.copyfileobj(source, unpacking.stdin, COPIED)",
                                                   "unpacking.stdin.write(source.read(COPIED))")} if shutil.which("zstd") else {}),
    "a picture of one capacity": Mistake(check_drawn, "lib/measures.py", "(top / low) ** (at", "(top / low) ** (0 * at"),
    "a picture without the ends of jumps": Mistake(check_cliffs, "lib/measures.py", "for jump in survey.jumps for", "for jump in [] for"),
    "a picture of slopes": Mistake(check_drawn, "survey", '"plot", "--steps"]', '"plot"]'),
    "parts of the footprint rounded up": Mistake(check_nearly_best, "lib/tables.py", "{100 * capacity / survey.footprint:.1f}",
                                                 "{-(-1000 * capacity // survey.footprint) / 10:.1f}"),
    "a warm-up left out in silence": Mistake(check_after, "lib/tables.py", "    if args.after:\n", "    if args.after and args.sampled:\n"),
    "capacities over the largest one": Mistake(check_lost_row, "survey", "largest = MAX_CAPACITY *", "largest = 2 * MAX_CAPACITY *"),
}

