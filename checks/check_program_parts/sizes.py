"""Sizes that a user comes to: by contract the program may be out of memory at any of them."""
import itertools
import random

from checks import TOP, Ended

from .calls import COMPARE_HEADER, HEADER, INTERVALS_HEADER, PARTING, RECORDED, SECONDS_OF_A_LONG_CALL, lines, part

FILTERED = ("tinylfu-lru", "tinylfu-slru", "wtinylfu", "caffeine")
ACCESSES_OF_RECORDED = 84333


def there_and_back(check, first, second, trace, count, near, *cache):
    """Two policies back and forth over a whole trace, beside the same policies from its start, and beside a run of both."""
    debug = "debug", *cache, "--first", first, "--second", second, "--trace", trace
    name, far = f"{first} and {second} over {count} accesses", count - near
    found = check.answer(name, *debug, typed=lines(f"goto {count}", "show", f"back {far}", "show", f"step {far}", "show", "step 1",
                                                   "goto 0", f"goto {near}", "show", f"back {near + 1}")).decode()
    early = check.answer(name, *debug, typed=lines(f"goto {near}", "show")).decode()
    late = "".join(found.splitlines(keepends=True)[1:5])
    check.expect_same(f"{name}, back and forth", found,
                      f"at {count}\n{late}{early}at {count}\n{late}fault: PastEnd\nat 0\n{early}fault: PastStart\n")
    rows = check.answer(f"{name}, run", "run", *cache, first, second, stdin=trace).decode()
    wanted = [f"{letter} {row[0]} hits {row[3]} misses {row[4]} evictions {row[5]} rejections {row[6]}"
              for letter, row in zip("ab", (line.split(",") for line in rows.splitlines()[1:]))]
    check.expect_same(f"{name}, and a run", lines(*(it for it in late.splitlines() if " hits " in it)), lines(*wanted))


@part(6)
def far_back(check):
    """The debugger of two policies over a long trace."""
    rest = [it for it in check.policies if it not in ("lru", "slru", *FILTERED, "clairvoyant")]
    pairs = [("lru", "slru"), ("tinylfu-lru", "tinylfu-slru"), ("caffeine", "wtinylfu"), *zip(rest[::2], rest[1::2])]
    for first, second in pairs[:check.size(len(pairs), 1)]:
        there_and_back(check, first, second, RECORDED, ACCESSES_OF_RECORDED, 333, "--capacity", 20)
    if not check.is_short:
        there_and_back(check, "wtinylfu", "clairvoyant", TOP / "examples/sqlite.arc", ACCESSES_OF_RECORDED, 333, "--capacity", 20,
                       "--format", "arc")


@part(20)
def large_caches(check):
    """The debugger of large caches, there and back: keys are hit, ghosts recall others, and many turns are undone."""
    count, capacity, hot, loop = check.size((700000, 150000, 400000, 170000), (7000, 1500, 4000, 1700))
    dice = random.Random(7)
    trace = check.file("hit", lines(*(int(hot * dice.random() ** 2) if dice.random() < 0.5 else hot + at % loop
                                      for at in range(count))))
    for first, second in (("clock", "sieve"), ("s3-fifo", "2q"), ("arc", "wtinylfu")):
        there_and_back(check, first, second, trace, count, 2 * count // 7, "--capacity", capacity)


@part(6)
def late_faults(check):
    """Faults and stops in a late line, step or access."""
    many = check.size(1234566, 12345)
    late = b"1 1\n" * many
    run = "run", "--capacity", 3
    check.expect_fault("a late faulty number", f"fault: BadNumber line {many + 1}", *run, "lru", typed=b"1\n" * many + b"x\n")
    check.expect_fault("a late missing field", f"fault: MissingField line {many + 1}", *run, "--format", "arc", "lru",
                       typed=late + b"7\n")
    journal = check.file("false", b"cachesim journal 2\n" + b"0 look 1 = miss\n" * many + b"0 look 1 = hit 0\n")
    replay = "replay", "--journal", journal, "--capacity", 3, "--limit"
    check.expect_fault("a late false reply", f"fault: FalseReply step {many + 1}", *replay, 2000000)
    check.file("false", b"cachesim journal 2\n" + b"0 look 1 = miss\n" * (many + 1) + f"steps {many + 1}\n".encode())
    check.expect_fault("a late full journal", f"fault: JournalFull step {many + 1}", *replay, many)
    trace = check.file("late", b"1\n" * 150000 + b"2\n3\n1\n")
    check.expect("two policies that part late", "part", *PARTING, stdin=trace, out="part 150003\n")
    check.expect("a late breakpoint", "debug", *PARTING, "--trace", trace, typed="break part\nrun\nback 150002\nrun\n",
                 out="ok\nstop part\nat 150003\nat 1\nstop part\nat 150003\n")


@part(3)
def tables(check):
    """A large table, many words, and long paths."""
    count = check.size(12000, 1200)
    wide = "--stripes", 1, "--capacity", 20000
    journal = check.answer("a large table", "drive", "--workers", 1, *wide, typed=lines(*range(10**12, 10**12 + count)))
    show = check.answer("a large table, shown", "replay", *wide, "--journal", check.file("journal", journal), typed="show\n")
    table = [line for line in show.decode().splitlines() if line.startswith("table ")]
    check.expect_same("a large table", lines(*table), "table " + " ".join(f"{10**12 + at}:{at}" for at in range(count)) + "\n")
    many = check.size(100000, 3000)
    capacities = [3 + at % 7 for at in range(many)]
    check.expect_report(f"{many} words", lines(*(f"lru,{it},5,2,3,0,0,40.00" for it in capacities)), "sweep", "--policy", "lru",
                        *capacities, stdin=check.trace)
    folder = check.room / ("long" * 60) / ("long" * 60)
    folder.mkdir(parents=True)
    (folder / "trace").write_bytes(check.trace.read_bytes())
    (folder / "journal").write_text("cachesim journal 2\n0 look 1 = miss\nsteps 1\n")
    check.expect("a trace at a path of over 400 bytes", "debug", *PARTING, "--trace", folder / "trace", typed="goto 5\n",
                 out="at 5\n")
    check.expect("a journal at a path of over 400 bytes", "replay", "--capacity", 8, "--journal", folder / "journal",
                 typed="goto 1\n", out="at 1\n")


@part(4)
def large_file(check):
    """A file of 35 MB is read to its end."""
    first, count = 10**7, check.size(3900001, 3901)
    trace = check.file("big", "\n".join(map(str, range(first, first + count))) + "\n")
    check.expect("the end of a large file", "debug", *PARTING, "--trace", trace, typed=f"goto {count}\nstep 1\n",
                 out=f"at {count}\nfault: PastEnd\n")


@part(15)
def lengths(check):
    """Each policy over more than 2^22 accesses, four of each key: each subcommand counts the same."""
    count, keys, capacity = check.size((4200000, 1000003, 100000), (42000, 10007, 1000))
    patient = {"seconds": SECONDS_OF_A_LONG_CALL}
    trace = check.file("long", lines(*(at * 7919 % keys for at in range(count))))
    found = check.answer("a long run", "run", "--capacity", capacity, *check.policies, stdin=trace).decode()
    rows = {line.split(",")[0]: line for line in found.splitlines()[1:]}
    # Between two accesses to a key come all others, so Lru has none of them.
    check.expect_same("a long run of Lru", rows["lru"], f"lru,{capacity},{count},0,{count},{count - capacity},0,0.00")
    two = rows["wtinylfu"], rows["clairvoyant"]
    check.expect_report("a long sweep", lines(*two), "sweep", "--policy", "wtinylfu", "--policy", "clairvoyant", capacity,
                        stdin=trace, **patient)
    curve = check.answer("a long curve", "sweep", "--policy", "lru", *range(capacity - 15, capacity + 1), stdin=trace).decode()
    check.expect_same("a long run and a long curve", curve.splitlines()[-1], rows["lru"])
    pieces = check.answer("long intervals", "intervals", "--capacity", capacity, "--every", 700001, "lru", "wtinylfu", stdin=trace)
    sums = {}
    for line in pieces.decode().splitlines()[1:]:
        policy, _, _, _, *counts, _ = line.split(",")
        sums[policy] = [a + int(b) for a, b in zip(sums.get(policy, [0] * 4), counts)]
    for policy in ("lru", "wtinylfu"):
        check.expect_same(f"a long run and long intervals of {policy}", ",".join(map(str, sums.get(policy, []))),
                          ",".join(rows[policy].split(",")[3:7]))
    pair = "--capacity", capacity, "--first", "lru", "--second", "clairvoyant"
    hits = int(rows["clairvoyant"].split(",")[3])
    check.expect("a long comparison", "compare", *pair, stdin=trace, **patient,
                 out=f"{COMPARE_HEADER}lru,clairvoyant,{capacity},{count},0,0,{hits},{count - hits}\n")
    # Each key comes for the second time after all others, and Belady's policy has some of them then.
    parted = check.answer("a long part", "part", *pair, stdin=trace).decode()
    check.expect_same("a long part", str(parted.startswith("part ") and keys < int(parted[5:]) < 2 * keys), "True")
    check.expect("a long part of one policy", "part", "--capacity", capacity, "--first", "slru", "--second", "slru", stdin=trace,
                 **patient, out="part none\n")


@part(40)
def limits(check):
    """All policies at the largest capacity over 16,000,000 accesses, each to a key of its own."""
    count, capacity = check.size((16000000, 2**20), (20000, 1000))
    trace = check.room / "limits"
    with open(trace, "w", encoding="ascii") as file:
        for start in range(0, count, 10**6):
            file.write(lines(*range(start, min(count, start + 10**6))))
    found = check.call("run", "--capacity", capacity, *check.policies, stdin=trace, seconds=SECONDS_OF_A_LONG_CALL)
    rows = [line.split(",") for line in found.out.decode().splitlines()[1:]]
    for row in rows:
        # No key comes twice; a filter may let in one whose counters others have raised.
        if row[0] in FILTERED and 0 < int(row[6]) <= int(row[5]):
            row[6] = "some"
    wanted = [[it, capacity, count, 0, count, count - capacity, "some" if it in FILTERED else 0, "0.00"] for it in check.policies]
    check.compare("the limits", Ended(found.status, lines(*map(",".join, rows)).encode(), found.error),
                  Ended(0, lines(*(",".join(map(str, row)) for row in wanted)).encode(), b""))
    how = {"stdin": trace, "seconds": SECONDS_OF_A_LONG_CALL}
    for policies, capacities in ((["lru"], range(capacity - 15, capacity + 1)), (["lru", "clairvoyant"], (capacity - 1, capacity))):
        rows = (f"{policy},{it},{count},0,{count},{count - it},0,0.00" for policy, it in itertools.product(policies, capacities))
        check.expect_report(f"a sweep of {' and '.join(policies)} at the limits", lines(*rows), "sweep",
                            *(f"--policy={it}" for it in policies), *capacities, **how)
    check.expect("a comparison at the limits", "compare", "--capacity", capacity, "--first", "lru", "--second", "slru", **how,
                 out=f"{COMPARE_HEADER}lru,slru,{capacity},{count},0,0,0,{count}\n")


@part(2)
def many_rows(check):
    """Intervals of one access, of which there are more than 100,000, each to a key of its own, and comparisons by interval."""
    count = check.size(150000, 1500)
    typed = lines(*range(count))
    rows = (f"lru,10,{at},{at},0,1,{int(at > 10)},0,0.00" for at in range(1, count + 1))
    check.expect("many intervals", "intervals", "--capacity", 10, "--every", 1, "lru", typed=typed,
                 out=lines(INTERVALS_HEADER.strip(), *rows))
    every = count // 15
    rows = (f"lru,slru,10,{at},{at + every - 1},0,0,0,{every}" for at in range(1, count, every))
    check.expect("a comparison by interval", "compare", "--capacity", 10, "--first", "lru", "--second", "slru", "--every", every,
                 typed=typed, out=lines(COMPARE_HEADER.strip().replace("accesses", "from,to"), *rows))


@part(8)
def batches(check):
    """Batches of one access, of which there are many, and a sweep of seven policies at as many capacities as go by a curve."""
    count = check.size(60000, 600)
    trace = check.file("alternating", "1\n2\n" * (count // 2))
    rate = f"{(count - 2) * 10000 // count // 100}.{(count - 2) * 10000 // count % 100:02}"
    row = f"lru,3,{count},{count - 2},2,0,0,{rate}\n"
    check.expect_report("batches of one access", row * 2, "run", "--capacity", 3, "--batch", 1, "lru", "lru", stdin=trace)
    capacities = range(3, 19)
    check.expect_report("seven policies at sixteen capacities",
                        lines(*(f"slru,{it},5,2,3,0,0,40.00" for _, it in itertools.product(range(7), capacities))),
                        "sweep", *["--policy=slru"] * 7, *capacities, stdin=check.trace)
    header = HEADER.strip()
    check.expect_same("the header", check.answer("a run", "run", "--capacity", 3, "lru").decode().splitlines()[0], header)
