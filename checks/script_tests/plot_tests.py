"""Tests of tools/plot, over rows whose pictures are known."""
import re
import shutil
import subprocess
import sys
from xml.etree import ElementTree

from frame import (EVERY, NOTING, POLICIES, UNSAFE, Mistake, expect, expect_full_disk, expect_parts,
                                expect_quiet_interrupt, file_of, gnuplot_by, run, without_texts)

SWEEP = "policy,capacity,accesses,hits,misses,evictions,rejections,rate\n"
COMPARISONS = "first,second,capacity,from,to,both,first_only,second_only,neither\n"
INTERVALS = "policy,capacity,first,last,hits,misses,evictions,rejections,rate\n"
INSIDE = INTERVALS.replace("\n", ",queue,held,marked,left\n")


def sweep_rows(policy, *places, accesses=100):
    return "".join(f"{policy},{capacity},{accesses},{hits},{accesses - hits},0,0,{100 * hits // accesses}.00\n"
                   for capacity, hits in places)


def interval_rows(policy, length, *hits, capacity=9):
    return "".join(f"{policy},{capacity},{at * length + 1},{(at + 1) * length},{it},{length - it},0,0,{100 * it // length}.00\n"
                   for at, it in enumerate(hits))


def curves_in(commands):
    """The data of each curve in what gnuplot is given, and the rest of it."""
    curves, rest, lines = [], [], iter(commands.splitlines())
    for line in lines:
        if line.endswith("<< END"):
            data = [tuple(map(float, it.split())) for it in iter(lambda: next(lines), "END")]
            curves += [data] * line.startswith("$curve")
        else:
            rest.append(line)
    return curves, "\n".join(rest)


def named_curves(rest):
    """The number of each curve and its name, by the colour that its line, its markers and its place in the legend have."""
    parts = r"\$curve(\d+) .* linecolor rgb '(.*?)' .*\n(?:.*\$(?:sure|curve)\1 .* linecolor rgb '\2' .*\n)+.* linecolor rgb '\2' .* title '(.*)'"
    return [(number, name) for number, _, name in re.findall(parts, rest)]


def drawn(plot, *words):
    return curves_in(run(plot, "--commands", *words)[0])


def check_curves(plot, folder):
    """Two curves, in any order of their rows, and what stands around them."""
    path = file_of(folder, "two.csv", SWEEP + sweep_rows("lru", (40, 501), (10, 204), (20, 307), accesses=1000) +
                   sweep_rows("clairvoyant", (10, 450), (20, 500), (40, 600), accesses=1000))
    curves, rest = drawn(plot, "--trace", "a_'\"\\", "--options=--main 80", path)
    expect("the curves", curves, [[(10, 20.4), (20, 30.7), (40, 50.1)], [(10, 45), (20, 50), (40, 60)]])
    expect_parts("around them", rest, "set key outside", "set logscale x", "'10' 10", "'40' 40", "'20' 20", "'60' 60", "yrange [20:60]",
                 ' . "\\n" . \'a_\' . "\'" . \'"\\, 1000 accesses, --main 80, thin: over 2 points between two places\'', "title 'lru'", "title 'clairvoyant'", "terminal svg",
                 "capacity (entries, logarithmic)")
    expect("whose curves they are", named_curves(rest), [("0", "lru"), ("1", "clairvoyant")])
    curves, rest = drawn(plot, "--below-optimal", "--y", "0:50", path)
    expect("points below Belady's", curves, [[(10, 24.6), (20, 19.3), (40, 9.9)]])
    expect_parts("what was given", rest, "set yrange [0.0:50.0]", "set title 'Points below clairvoyant over capacity' . ")
    rest = [drawn(plot, *words, path)[1] for words in ((), ("--steps",))]
    expect("steps of three capacities", ["with steps" in it for it in rest], [False, True])
    expect_full_disk(plot, "--commands", path)


def check_dense(plot, folder):
    """Curves of many places have them all, in steps; one of a single place has that in its middle."""
    for count, ends, every in ((320, "200:3390", 27), (160, "200:1790", 14), (80, "200:990", 7), (30, "200:490", 3), (29, "200:480", 1), (1, "199.5:200.5", 1)):
        many = file_of(folder, "many.csv", SWEEP + sweep_rows("lru", *((200 + 10 * it, it) for it in range(count)), accesses=400))
        curves, rest = drawn(plot, many)
        expect("a dense sweep", curves, [[(200 + 10 * it, it / 4) for it in range(count)]])
        expect_parts("its ends and markers", rest, f"set xrange [{ends}]", f"$curve0 every {every}::0 with points ")
        expect("its steps", ("with steps" in rest, "unset logscale" in rest, "logarithmic" in rest), (count > 29, True, False))


def check_heights(plot, folder):
    """The vertical axis has all heights in it, of curves that are nearly level, at the bottom or at the top."""
    for hits in ((501, 502, 503), (0, 0, 0), (1000, 1000, 1000), (0, 3, 997)):
        rows = file_of(folder, "level.csv", SWEEP + sweep_rows("lru", *zip((10, 20, 40), hits), accesses=1000))
        curves, rest = drawn(plot, rows)
        low, high = map(float, re.search(r"set yrange \[(.*):(.*)\]", rest).groups())
        expect(f"heights of {hits}", (curves, low <= min(hits) / 10 and max(hits) / 10 <= high),
               ([[(place, it / 10) for place, it in zip((10, 20, 40), hits)]], True))


def check_marks(plot, folder):
    """On a logarithmic axis each power of ten has a mark."""
    for first, last in ((1000, 362038), (1000, 750378), (5, 1280), (1, 1000000)):
        places = sorted({round(first * (last / first) ** (at / 16)) for at in range(17)})
        rest = drawn(plot, file_of(folder, "log.csv", SWEEP + sweep_rows("lru", *((it, 5) for it in places))))[1]
        powers = [10 ** it for it in range(7) if first <= 10 ** it <= last]
        expect_parts(f"marks from {first} to {last}", rest, *(f"'{it}' {it}" for it in [first, *powers]))


def check_styles(plot, folder):
    """Each policy has a colour, a marker and a dash that no other one has, and its colour in every picture."""
    rows = file_of(folder, "all.csv", SWEEP + "".join(sweep_rows(it, (5, 1), (6, 2)) for it in EVERY))
    rest = drawn(plot, rows)[1]
    expect("whose curves they are", [name for _, name in named_curves(rest)], EVERY)
    legend = [line.split() for line in rest.splitlines() if "linespoints" in line]
    for word in ("rgb", "dashtype", "pointtype"):
        expect(f"how many have a {word} of their own", len({line[line.index(word) + 1] for line in legend}), len(EVERY))
    colours = {line[-1]: line[line.index("rgb") + 1] for line in map(lambda it: [w.strip("',\\") for w in it], legend)
               for line in [[w for w in line if w]]}
    one = file_of(folder, "one.csv", SWEEP + sweep_rows("slru", (5, 1), (6, 2)))
    expect_parts("the colour of slru alone", drawn(plot, one)[1], f"rgb '{colours['slru']}'")
    two = file_of(folder, "two.csv", INTERVALS + interval_rows("lru", 10, 5, 6) + interval_rows("slru", 10, 5, 6) +
                  interval_rows("lru", 10, 5, 6, capacity=20) + interval_rows("slru", 10, 5, 6, capacity=20))
    legend = re.findall(r"rgb '(#......)' dashtype (\S+) .* title '(\w+) (\d+)'", drawn(plot, two)[1])
    expect("the first capacities", [(it[0], it[2]) for it in legend if it[3] == "9"],
           [(colours["lru"], "lru"), (colours["slru"], "slru")])
    expect("curves of their own", [len({it[at] for it in legend}) for at in (0, 1)], [4, 2])


def check_unknown(plot, folder):
    """Up to four policies that no script knows are drawn beside all known ones, each in a style of its own."""
    names = [*EVERY, "mine", "yours", "a 'third", "fourth"]
    rest = drawn(plot, file_of(folder, "all.csv", SWEEP + "".join(sweep_rows(it, (5, 1), (6, 2)) for it in names)))[1]
    legend = re.findall(r"linespoints linecolor rgb '(.*?)' dashtype (\S+) .* pointtype (\d+) ", rest)
    expect("how many colours and dashes there are", [len({it[at] for it in legend}) for at in (0, 1)], [len(names)] * 2)
    expect("curves of one marker", max(sum(it[2] == marker for it in legend) for *_, marker in legend) < 3, True)
    many = SWEEP + "".join(sweep_rows(f"mine{it}", (5, 1)) for it in range(5))
    expect_parts("five", run(plot, "--commands", status=1, typed=many)[1], "mine0, mine1, mine2, mine3, mine4: 5 unknown policies are more than the 4 ")


def check_thin(plot, folder):
    """A curve is thin between two places that are over two points apart, and each place has a mark."""
    heights = 10, 12, 14.1, 14, 90, 91, 89.1
    for count, steps in ((1, "lines"), (6, "steps")):
        places = [(10 * at + 70 * it, height * 10 + it % 2) for it in range(count) for at, height in enumerate(heights, 1)]
        rows = file_of(folder, "steep.csv", SWEEP + sweep_rows("lru", *((place, round(height)) for place, height in places), accesses=1000))
        commands = run(plot, "--commands", rows)[0]
        sure = commands.partition("$sure0 << END\n")[2].partition("END")[0].split("\n\n")
        expect("its sure parts", [[int(line.split()[0]) for line in it.splitlines()] for it in sure[:3]], [[10, 20], [30, 40], [50, 60, 70]])
        expect_parts("its lines", commands, f"plot $curve0 with {steps} linecolor rgb '#0072b2' dashtype 1 linewidth 0.6 notitle",
                     f"$sure0 with {steps} linecolor rgb '#0072b2' dashtype 1 linewidth 2 notitle", "accesses, thin: over 2 points between two places'")
        expect("marks at each place", "$curve0 with points linecolor rgb '#0072b2' pointtype 7 pointsize 0.25 notitle" in commands, count > 5)
    sure = run(plot, "--commands", typed=SWEEP + sweep_rows("lru", (10, 20), (20, 22)))[0]
    expect("none", ("thin" in sure, "$sure" in sure, "linewidth 2 notitle" in sure), (False, False, True))


def check_refusals(plot, folder):
    """What is not drawn, and the line that is named."""
    for name, text, words, parts in (
            ("hidden", SWEEP + sweep_rows("lru", (10, 20), (20, 30)) + SWEEP + sweep_rows("lru", (20, 31)), [],
             ["line 5 is of lru at 20 entries, as line 3 is"]),
            ("traces", SWEEP + sweep_rows("lru", (10, 20)) + sweep_rows("lru", (20, 30), accesses=200), [],
             ["line 3 is of a trace of 200 accesses", "line 2 of one of 100"]),
            ("empty", SWEEP + "lru,10,0,0,0,0,0,0.00\n", [], ["line 2 has no hit ratio"]),
            ("cut", SWEEP + "lru,10,100,20\n", [], ["line 2 is no row"]),
            ("below 0", SWEEP + "lru,10,100,-20,120,0,0,-20.00\n", [], ["line 2 is no row"]),
            ("an interval below 0", INTERVALS + "lru,-9,1,10,5,5,0,0,50.00\n", [], ["line 2 is no row"]),
            ("a comparison below 0", COMPARISONS + "lru,arc,9,1,10,-2,6,3,3\n", [], ["line 2 is no row"]),
            ("19 digits", SWEEP + "lru,1000000000000000000,100,20,80,0,0,20.00\n", [], ["line 2 is no row"]),
            ("false", SWEEP + "lru,10,100,20,81,0,0,20.00\n", [], ["line 2 has hits and misses that are not"]),
            ("a false interval", INTERVALS + "lru,9,1,10,5,6,0,0,50.00\n", [], ["line 2 has hits and misses that are not"]),
            ("header", "1,2\n", [], ["line 1 is not the header"]), ("none", SWEEP, [], ["no reports"]),
            ("lonely", SWEEP + sweep_rows("lru", (10, 20)), ["--below-optimal"], ["line 2 has no row of clairvoyant"]),
            ("over", INTERVALS + "lru,9,1,10,5,5,0,0,50.00\nlru,9,10,12,1,2,0,0,33.33\n", [],
             ["line 3 is of lru at 9"]),
            ("a gap", INTERVALS + "lru,9,11,20,5,5,0,0,50.00\nclairvoyant,9,11,20,5,5,0,0,50.00\n", ["--below-optimal"],
             ["line 2 is of accesses from 11 on, and those from 1 on are missing"]),
            ("two kinds", SWEEP + sweep_rows("lru", (10, 20)), [file_of(folder, "other.csv", INTERVALS + interval_rows("lru", 10, 5))],
             ["rows of several kinds"]),
            ("more keys than there are", INSIDE + "sieve,4,1,10,5,5,0,0,50.00,ahead,4,5,0\n", [], ["line 2 has more keys that are marked"]),
            ("more keys that left than were evicted", INSIDE + "sieve,4,1,10,5,5,2,0,50.00,ahead,4,1,3\n", ["--left"], ["line 2 has more keys that left"]),
            ("keys that left of no queue", INTERVALS + interval_rows("lru", 10, 5), ["--left"], ["--left is of queues"]),
            ("a sample", INTERVALS + interval_rows("lru", 10, 5), ["--sampled", "1/8", "--accesses", "9"], ["intervals of a sample"])):
        path = file_of(folder, f"{name}.csv", text)
        expect_parts(name, run(plot, "--commands", *words, path, status=1)[1], *parts)
    for ends in ("5:5", "0:5e-324", "-1:5", "5:101", "5"):
        expect_parts(ends, run(plot, f"--y={ends}", path, status=2)[1], f"{ends} is no range LOW:HIGH")
    expect_quiet_interrupt(plot, folder, "--commands")


def check_files(plot, folder):
    """Curves of several files are named by these."""
    mains = [file_of(folder, f"main{it}.csv", SWEEP + sweep_rows("wtinylfu", (10, it), (20, 99))) for it in (80, 90)]
    curves, rest = drawn(plot, *mains)
    expect("two files", curves, [[(10, 80), (20, 99)], [(10, 90), (20, 99)]])
    expect("whose curves they are", [it for it, _ in named_curves(rest)], ["0", "1"])
    longer = file_of(folder, "longer.csv", SWEEP + sweep_rows("wtinylfu", (10, 20), accesses=400))
    expect_parts("of two lengths", drawn(plot, mains[0], longer)[1], "100/400 accesses")
    expect_parts("their names", rest, *(f"wtinylfu ({path.with_suffix('')})" for path in mains))
    run(plot, "--commands", mains[0], mains[0], status=1)


def check_intervals(plot, folder):
    """Intervals are drawn from their first access to their last one, the last and shorter one too."""
    rows = file_of(folder, "it.csv", INTERVALS + "lru,9,1,10,5,5,0,0,50.00\nlru,9,11,20,2,8,0,0,20.00\n"
                   "lru,9,21,24,3,1,0,0,75.00\n")
    curves, rest = drawn(plot, rows)
    expect("the intervals", curves, [[(0, 50), (10, 50), (10, 20), (20, 20), (20, 75), (24, 75)]])
    expect_parts("around them", rest, "set xrange [0:24]", "'24' 24", "24 accesses, capacity 9, intervals of 10'")
    two = file_of(folder, "two.csv", INTERVALS + interval_rows("lru", 10, 5, 6) + interval_rows("lru", 10, 7, 8, capacity=20))
    curves, rest = drawn(plot, two)
    expect("whose curves they are", (named_curves(rest), [[height for _, height in it[::2]] for it in curves]),
           ([("0", "lru 9"), ("1", "lru 20")], [[50, 60], [70, 80]]))
    expect_parts("of two capacities", rest, "20 accesses, intervals of 10")
    expect("without the warm-up", drawn(plot, "--after", "10", rows)[0], [[(10, 20), (20, 20), (20, 75), (24, 75)]])
    run(plot, "--commands", "--after", "24", rows, status=1)
    many = INTERVALS + interval_rows("lru", 10, *(it % 7 for it in range(300))) + interval_rows("slru", 10, *[5] * 300)
    commands = run(plot, "--commands", typed=many)[0]
    expect("many", [len(it) for it in curves_in(commands)[0]], [600, 600])
    expect("its lines", ("with steps" in commands, "with lines" in commands), (False, True))
    expect_parts("its markers", commands, "$curve0 every 50::1 with points ", "$curve1 every 50::25 with points ")


def check_queues(plot, folder):
    """Of queues the marked keys are drawn, where numbers stand beside them, and by --left those that left, where some did."""
    row = "sieve,4,{},5,5,{},0,50.00,{}\n"
    rows = file_of(folder, "queues.csv", INSIDE + row.format("1,10", 0, "passed,0,,0") + row.format("1,10", 0, "ahead,4,1,0") +
                   row.format("11,20", 5, "passed,3,3,1") + row.format("11,20", 5, "ahead,1,0,4") +
                   "lru,4,1,10,5,5,1,0,50.00,queue,4,,1\n")
    curves, rest = drawn(plot, rows)
    expect("the curves", (curves, named_curves(rest)), ([[(0, 25), (10, 25), (10, 0), (20, 0)], [(10, 100), (20, 100)]],
                                                        [("0", "sieve ahead"), ("1", "sieve passed")]))
    expect_parts("around them", rest, "Marked keys of each queue", "bit or count is set (%)", "20 accesses, capacity 4, intervals of 10'")
    curves, rest = drawn(plot, "--left", rows)
    expect("those that left", (curves, named_curves(rest)), ([[(10, 20), (20, 20)], [(10, 80), (20, 80)], [(0, 100), (10, 100)]],
                                                             [("0", "sieve passed"), ("1", "sieve ahead"), ("2", "lru queue")]))
    expect_parts("around those", rest, "Evicted keys by queue over accesses", "evicted keys that left it (%)")


def check_comparisons(plot, folder):
    """A comparison by interval: the part of the accesses that each policy alone hits."""
    rows = file_of(folder, "compare.csv", COMPARISONS + "lru,wtinylfu,9,1,10,2,3,1,4\nlru,wtinylfu,9,11,14,1,0,2,1\n")
    curves, rest = drawn(plot, rows)
    expect("the curves", curves, [[(0, 30), (10, 30), (10, 0), (14, 0)], [(0, 10), (10, 10), (10, 50), (14, 50)]])
    expect_parts("around them", rest, "alone over accesses", "it alone hits (%)", "14 accesses, capacity 9, intervals of 10")
    expect("whose curves they are", named_curves(rest), [("0", "lru"), ("1", "wtinylfu")])
    for line in ("lru,wtinylfu,9,1,10,2,3,1,5", "lru,wtinylfu,9,1,10,2,3,1", "lru,wtinylfu,9,1,0,0,0,0,0"):
        expect_parts(line, run(plot, "--commands", status=1, typed=COMPARISONS + line + "\n")[1], "line 2 ")
    run(plot, "--commands", "--below-optimal", rows, status=1)


def check_below_optimal_intervals(plot, folder):
    """Points below Belady's policy are those of all accesses up to the end of an interval."""
    rows = file_of(folder, "it.csv", INTERVALS + interval_rows("lru", 10, 5, 9, 0) + interval_rows("clairvoyant", 10, 9, 8, 3))
    curves, rest = drawn(plot, "--below-optimal", rows)
    # 4 of 10, 3 of 20, 6 of 30.
    expect("the sums", curves, [[(10, 40), (20, 15), (30, 20)]])
    expect_parts("the title", rest, "in all accesses up to there")
    two = "".join(interval_rows(policy, 10, *hits, capacity=capacity) for policy, capacity, hits in (
        ("lru", 9, (5, 9)), ("lru", 20, (6, 7)), ("clairvoyant", 9, (9, 8)), ("clairvoyant", 20, (10, 8))))
    # At 9 entries 4 of 10, 3 of 20; at 20 entries 4 of 10, 5 of 20.
    expect("at two capacities", drawn(plot, "--below-optimal", file_of(folder, "two.csv", INTERVALS + two))[0],
           [[(10, 40), (20, 15)], [(10, 40), (20, 25)]])


def check_sampled(plot, folder):
    """A sweep of one block in 8: eight times the misses at eight times the capacity."""
    rows = file_of(folder, "sample.csv", SWEEP + sweep_rows("lru", (10, 20), (20, 90), (40, 100)))
    curves, rest = drawn(plot, "--sampled", "1/8", "--accesses", "800", rows)
    expect("the whole trace", curves, [[(80, 20), (160, 90), (320, 100)]])
    expect_parts("its title", rest, "800 accesses, estimated by one block in 8")
    expect("corrected", drawn(plot, "--sampled", "1/8", "--accesses", "1000", rows)[0], [[(80, 36), (160, 92), (320, 100)]])
    expect("never below 0", drawn(plot, "--sampled", "1/8", "--accesses", "400", rows)[0], [[(80, 0), (160, 80), (320, 100)]])
    for rate, accesses in (("1/3", 9), ("1/8", 399), ("1/8", 1601), ("1/2", 100)):
        run(plot, "--commands", "--sampled", rate, "--accesses", accesses, rows, status=2)
    said = file_of(folder, "said", "100 of 9000 accesses, 7 blocks: --sampled 1/8 --accesses 9000\n")
    expect("of few blocks", drawn(plot, "--sampled", said, rows)[0][0][0], (80, round(100 - 640 / 90, 6)))
    run(plot, "--commands", "--sampled", file_of(folder, "said", said.read_text().replace("100", "99")), rows, status=2)
    run(plot, "--commands", "--sampled", "1/2", rows, status=2)


def check_unsafe_texts(plot, folder):
    """What a user names reaches gnuplot in single quotes alone, or not at all; and nothing of it is run."""
    environment = gnuplot_by(folder, NOTING)
    given, files = [], SWEEP + sweep_rows("lru", (5, 1), (6, 2))
    for text in ("plain", UNSAFE):
        paths = [file_of(folder, f"{text}{it}.csv", files).name for it in (1, 2)]
        words = f"--trace={text}", f"--options={text}", *paths
        run(plot, *words, cwd=folder, env=environment)
        given.append((folder / "given").read_text())
        expect("what gnuplot is given", given[-1], run(plot, "--commands", *words, cwd=folder)[0])
    expect("the commands around the texts", *map(without_texts, given))
    for option in ("--y", "--after", "--sampled", "--accesses"):
        run(plot, "--commands", f"{option}={UNSAFE}", paths[0], status=2, cwd=folder)
    name = UNSAFE.replace("\n", "")
    for field in ("5", "99", "capacity"):
        run(plot, "--commands", status=1, typed=files.replace(field, name, 1))
    named = [run(plot, "--commands", typed=SWEEP + sweep_rows(it, (5, 1), (6, 2)))[0] for it in ("plain", name)]
    expect("the commands around a policy's name", *map(without_texts, named))
    files = SWEEP + sweep_rows(name, (5, 1), (6, 2))
    words = [*words[:2], file_of(folder, "named.csv", files)]
    if shutil.which("gnuplot"):
        for kind in ([], ["--png"]):
            run(plot, *kind, *words, cwd=folder)
    expect("a command that was run", (folder / "made").exists(), False)


def check_pictures(plot, folder):
    """What gnuplot draws, where it is there: an SVG with every name and the data in it, and a PNG."""
    if not shutil.which("gnuplot"):
        print("no picture is drawn, since gnuplot is not on this machine", file=sys.stderr)
        return
    path = file_of(folder, "all.csv", SWEEP + "".join(sweep_rows(it, (5, 1), (6, 2)) for it in POLICIES))
    picture = ElementTree.fromstring(run(plot, path)[0])
    texts = "".join(picture.itertext())
    expect_parts("the SVG", texts, *POLICIES, "capacity (entries)", "hit ratio (%)")
    data = next(it.text for it in picture.iter() if it.tag.endswith("metadata"))
    expect("the data in it", data.lstrip("\n"), run(plot, "--commands", path)[0])
    for words in ([], ["--png"]):
        expect_full_disk(plot, *words, path)
    picture = subprocess.run([sys.executable, plot, "--png", path], capture_output=True, check=True).stdout
    expect("a PNG", picture[:8], b"\x89PNG\r\n\x1a\n")


MISTAKES = {
    "a logarithmic axis from 1000 on": Mistake(check_dense, "plot", '"set logscale x" if is_log else', '"set logscale x" if is_log or places[-1] >= 1000 else'),
    "thick where nothing is known": Mistake(check_thin, "plot", "SURE = 2", "SURE = 80"),
    "thin from one point on": Mistake(check_thin, "plot", "SURE = 2", "SURE = 1"),
    "thin where it falls": Mistake(check_thin, "plot", "abs(point[1] - before[1]) > SURE", "(before[1] - point[1]) > SURE"),
    "places without a mark": Mistake(check_thin, "plot", "if every > 1 and not is_stepped:", "if False:"),
    "unknown policies in one style": Mistake(check_unknown, "lib/policies.py", "OTHERS[at % len(OTHERS)]", "OTHERS[0]"),
    "a fifth unknown policy": Mistake(check_unknown, "plot", "if len(unknown) > len(OTHERS):", "if False:"),
    "two kinds in one picture": Mistake(check_refusals, "plot", "if len(headers) > 1:", "if False:"),
    "an axis of no height": Mistake(check_refusals, "plot", "low < low + 1e-6 <= high", "low < high"),
    "two curves of a policy in one colour": Mistake(check_styles, "plot", "VARIANTS = [(4, \"1\", 1), (6, \"(14,4)\", 0.45)", "VARIANTS = [(4, \"1\", 1), (6, \"(14,4)\", 1)"),
    "places over three hundred": Mistake(check_dense, "plot", "for _, end, height in curve.points]\n\n", "for _, end, height in curve.points[:300]]\n\n"),
    "a row that hides another": Mistake(check_refusals, "lib/curves.py", "other.begin < row.end if is_intervals else True", "False"),
    "slopes where steps are asked for": Mistake(check_curves, "plot", "(args.steps or places >= DENSE)", "places >= DENSE"),
    "a row below 0": Mistake(check_refusals, "lib/curves.py", "text.isdigit()", 'text.strip("-").isdigit()'),
    "a row of 19 digits": Mistake(check_refusals, "lib/curves.py", "len(text) < 19", "len(text) < 20"),
    "a row of an interval that is false": Mistake(check_refusals, "lib/curves.py", "else end - begin", "else counted"),
    "a row dropped": Mistake(check_curves, "lib/curves.py", "for row in sorted(rows, key=lambda row: row.begin):", "for row in rows[1:]:"),
    "two traces joined": Mistake(check_refusals, "lib/curves.py", "row.accesses != rows[0].accesses", "row.accesses < 0"),
    "the legend on the curves": Mistake(check_curves, "plot", "set key outside", "set key inside"),
    "the last interval left out": Mistake(check_intervals, "plot", "in curve.points for place in (begin, end)]\n    return", "in curve.points[:-1] for place in (begin, end)]\n    return"),
    "a policy in the dash of another": Mistake(check_styles, "lib/policies.py", '8, "(6,3)"', '8, "1"'),
    "a policy in the colour of another": Mistake(check_styles, "lib/policies.py", '"#a50f15"', '"#000000"'),
    "colours by the place of a curve": Mistake(check_styles, "plot", "shade_of(known[curve.policy].colour, part)",
                                               "shade_of(list(POLICIES.values())[marker].colour, part)"),
    "an axis without its last mark": Mistake(check_curves, "lib/pictures.py", "return sorted(marks)", "return sorted(marks)[:-1]"),
    "an axis without powers of ten": Mistake(check_marks, "lib/pictures.py", "for it in (1, 2, 5)]\n", "for it in (2, 5, 1)]\n"),
    "a policy beside Belady's at another capacity": Mistake(check_curves, "lib/curves.py", "best.get((row.begin,", "best.get((rows[0].begin,"),
    "heights of whole points": Mistake(check_curves, "plot", "{height:.6f}", "{round(height)}"),
    "every second place of a long curve": Mistake(check_dense, "plot", "for _, end, height in curve.points]",
                                                  "for _, end, height in curve.points[::2 if len(curve.points) > 60 else 1]]"),
    "--options ignored": Mistake(check_curves, "plot", ", args.options]", "]"),
    "points below the optimum of the first interval": Mistake(
        check_below_optimal_intervals, "lib/curves.py", "best.get((row.begin, row.end, row.capacity))",
        "best.get((0, rows[0].end, row.capacity))"),
    "points below the optimum of one interval": Mistake(check_below_optimal_intervals, "lib/curves.py", "lost + optimal.hits", "optimal.hits"),
    "all keys of a queue marked": Mistake(check_queues, "lib/curves.py", 'of["held"], of["marked"], queue', 'of["held"], of["held"], queue'),
    "keys that left of all misses": Mistake(check_queues, "lib/curves.py", 'of["evictions"], of["left"], queue', 'of["misses"], of["left"], queue'),
    "the hits of both": Mistake(check_comparisons, "lib/curves.py", "of[it] for it in", "of[it] + of['both'] * (it[0] == 's') for it in"),
    "a picture without its capacity": Mistake(check_intervals, "plot", 'yield f"capacity {', 'f"capacity {'),
    "texts in double quotes": Mistake(check_unsafe_texts, "lib/pictures.py", """return "'" + shown.replace(""", """return '"' + shown.replace('"', '\\\\"').replace("""),
    "an apostrophe that ends a text": Mistake(check_unsafe_texts, "lib/pictures.py", """.replace("'", """, """.replace("no", """),
    "a line feed that ends a text": Mistake(check_unsafe_texts, "lib/pictures.py", """.replace("\\n", """, """.replace("no", """),
    "each curve as another policy's": Mistake(check_curves, "plot", 'yield f"$curve{at} {how}', 'yield f"$curve{len(curves) - 1 - at} {how}'),
    "the names of two curves changed over": Mistake(check_curves, "plot", "in_legend(curve.name, curve.policy)", "curves[len(curves) - 1 - at].name"),
    "curves of over a hundred places cut": Mistake(check_dense, "plot", "for _, end, height in curve.points]", "for _, end, height in curve.points[:100]]"),
    "level curves outside of the axis": Mistake(check_heights, "plot", "low, high = max(0, (low + high) / 2 - 0.5), (low + high) / 2 + 0.5", "low, high = 0, 0.5"),
    "the accesses of the first file": Mistake(check_files, "plot", "'/'.join(map(str, ends))", "min(ends)"),
    "steps of intervals": Mistake(check_intervals, "plot", "places >= DENSE) and not is_stepped", "places >= DENSE)"),
    "markers at each place": Mistake(check_dense, "plot", "if places >= DENSE else 1", "if places < DENSE else 1"),
    "the markers of two curves over each other": Mistake(check_intervals, "plot", "first = at * every // len(curves)", "first = 0"),
    "steps from 31 capacities on": Mistake(check_dense, "plot", "DENSE, MARKERS = 30", "DENSE, MARKERS = 31"),
    "intervals after the hundredth left out": Mistake(check_intervals, "plot", "for begin, end, height in curve.points for place in (begin, end)]\n    return",
                                                      "for begin, end, height in curve.points[:100] for place in (begin, end)]\n    return"),
    "the names of three curves changed over": Mistake(check_styles, "plot", "in_legend(curve.name, curve.policy)",
                                                      "curves[len(curves) - 1 - at if len(curves) > 2 else at].name"),
    "one capacity of two": Mistake(check_intervals, "plot", "== 1:\n            yield f\"capacity", ">= 1:\n            yield f\"capacity"),
    "points below another capacity's optimum": Mistake(check_below_optimal_intervals, "lib/curves.py", "best.get((row.begin, row.end, row.capacity))",
                                                       "best.get((row.begin, row.end, rows[0].capacity))"),
    "a sample's capacity": Mistake(check_sampled, "lib/curves.py", "row.capacity * inverse", "row.capacity"),
    "a sample of far fewer accesses": Mistake(check_sampled, "lib/samples.py", "whole <= 2 * stands_for", "True"),
    "a sample of far more accesses": Mistake(check_sampled, "lib/samples.py", "stands_for <= 2 * whole", "True"),
    "the whole trace as a sample": Mistake(check_sampled, "lib/samples.py", "and accesses < whole", ""),
    "another sample than is said": Mistake(check_sampled, "lib/samples.py", "accesses != kept", "accesses < kept"),
    "a sample below 0": Mistake(check_sampled, "lib/curves.py", "min(accesses, (row", "max(0, (row"),
    "a closed reader with status 0": Mistake(check_curves, "lib/traces.py", "os._exit(141)", "os._exit(0)"),
}
