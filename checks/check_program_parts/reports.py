"""The words of a call, and reports of as much as a call takes; checks/check_random has the others."""
import itertools
import re

from checks import TOP

from .calls import COMPARE_HEADER, INTERVALS_HEADER, PARTING, lines, part

ABOUT = "Simulates cache policies over recorded block traces\n\nUsage: cachesim <COMMAND>"
REQUIRED = """error: the following required arguments were not provided:
  --capacity <N>
  --first <POLICY>
  --second <POLICY>
  --trace <FILE>

Usage: cachesim debug [OPTIONS] --capacity <N> --first <POLICY>
                      --second <POLICY> --trace <FILE>

For more information, try '--help'.
"""
# The blocks below 16777217 whose hash is below 2^44.
FEW = (5876302, 6024624, 7203822, 7493493, 7752209, 8027875, 8701426, 9325862, 9567911, 11238764, 11928856, 12481084, 12566159,
       12659979, 13463424, 14228372, 16088728)
# Words of which each call has something wrong, by the subcommand.
WRONG_WORDS = {
    "walk": [""],
    "run": ["lru", "--capacity 3", "--capacity 0 lru", "--capacity 1048577 lru", "--capacity 3 --main 100 lru",
            "--capacity 3 --small 0 s3-fifo", "--capacity 3 --small 100 s3-fifo", "--capacity 3 --in 0 2q",
            "--capacity 3 --in 100 2q", "--capacity 3 --out 0 2q", "--capacity 3 --out 101 2q", "--capacity 3 mru",
            "--capacity 3 --spread even lru", "--capacity 3 --batch 0 lru", "--capacity 3 --batch 65537 lru",
            "--capacity 3 --long=3 lru", "--capacity 3 2q:in", "--capacity 3 2q:in=0", "--capacity 3 2q:in=100",
            "--capacity 3 2q:out=101", "--capacity 3 2q:small=9", "--capacity 3 2q:in=1:in=1", "--capacity 3 2q:",
            "--capacity 3 lru:main=1", "--capacity 3 :main=1", "--capacity 3 wtinylfu:main=100",
            "--capacity 3 caffeine:period=0", "--capacity 3 s3-fifo:small=1,small=2"],
    "sweep": ["--policy lru", "3", "--policy lru 3 0", "--policy lru --capacity 3 4"],
    "part": ["--capacity 2 --first lru"],
    "compare": ["--capacity 2 --second lru", "--first lru --second lru"],
    "intervals": ["--capacity 3 lru", "--every 3 lru", "--capacity 3 --every 3", "--capacity 3 --every 0 lru",
                  "--capacity 3 --every 4294967296 --long lru"],
    "debug": ["--long --trace none --capacity 3 --first lru --second lru"],
    "drive": ["--long --capacity 3"],
    "footprint": ["lru", "--capacity 3", "--format csv", "--every 3"],
    "sample": ["", "--rate 8", "--rate 1/1", "--rate 1/3", "--rate 1/2097152", "--rate 1/8 --seed -1",
               "--rate 1/8 --seed 18446744073709551616", "--rate 1/8 --capacity 3", "--rate 1/8 --long"]}


@part()
def words(check):
    """The words of the call, and the status and the texts that answer them."""
    version = re.search(r"^## ([0-9.]+)$", (TOP / "CHANGELOG.md").read_text(), re.M)[1]
    check.expect("the version", "--version", out=f"cachesim {version}\n")
    check.expect_same("the help", check.answer("the help", "--help").partition(b"\n\nCommands:\n")[0], ABOUT)
    check.expect("a usage error", "drive", "--capacity", 8, "--stripes", 3, status=2, error="fault: Stripes\n", typed="1\n")
    check.expect("a usage error of replay", "replay", "--journal", check.room / "none", "--capacity", 8, "--stripes", 3,
                 status=2, error="fault: Stripes\n")
    check.expect("a word that is not UTF-8", "run", "--capacity", 3, b"\xff", status=2,
                 error="error: a word of the call is not UTF-8 text\n", typed="1\n")
    check.expect_usage_error("an empty word", "run", "--capacity", 3, "lru", "")
    check.expect_usage_error("a blank before a policy", "run", "--capacity", 3, " lru")
    check.expect_usage_error("blanks around a number", "run", "--capacity", " 3 ", "lru")
    check.expect_report("a number with a sign and a zero", "lru,3,5,2,3,0,0,40.00\n", "run", "--capacity", "+03", "lru",
                        stdin=check.trace)
    # The second and the third access to 1 hit: a cache of three keeps all that comes.
    check.expect_report("sizes in the words", lines("2q:in=50:out=1,3,5,2,3,0,0,40.00", "2q,3,5,2,3,0,0,40.00",
                                                    "caffeine:main=7:period=300,3,5,2,3,0,0,40.00"),
                        "run", "--capacity", 3, "--in", 9, "2q:out=01:in=+50", "2q", "caffeine:period=300:main=7", stdin=check.trace)
    check.expect_report("over a hundred words", lines(*(f"lru,{it},5,2,3,0,0,40.00" for it in range(3, 123))),
                        "sweep", "--policy", "lru", *range(3, 123), stdin=check.trace)


@part()
def usage_errors(check):
    """What is wrong with the words, each by itself."""
    check.expect_usage_error("no words")
    for call in (f"{sub} {words}" for sub, calls in WRONG_WORDS.items() for words in calls):
        check.expect_usage_error(f"the words '{call}'", *call.split())
    check.expect_usage_error("the text of a usage error", "run", "--capacity", 3, "--format", "csv", "lru", error="""\
error: invalid value 'csv' for '--format <FORMAT>'
  [possible values: lirs, arc]

For more information, try '--help'.
""")
    check.expect_usage_error("the text of a long usage error", "run", "--capacity", 3, "zzzz-zzzz-zzzz-zzzz", error=check.no_policy())
    pair = "--capacity", 3, "--first"
    for call in (["run", "--capacity", 3, "clairvoyant"], ["run", "--capacity", 3, "lru", "clairvoyant", "lru"],
                 ["run", "--capacity", 3, *["clairvoyant"] * 65], ["sweep", "--policy", "lru", "--policy", "clairvoyant", 3],
                 ["intervals", "--capacity", 3, "--every", 5, "clairvoyant"], ["part", *pair, "clairvoyant", "--second", "lru"],
                 ["compare", *pair, "lru", "--second", "clairvoyant"]):
        check.expect_usage_error(f"a {call[0]} of {len(call)} words over a long trace", *call, "--long", error="""\
error: clairvoyant has to know the whole trace, which --long does not keep: take a sample of it
""")
    for call in (["intervals", "--capacity", 3, "lru"], ["compare", *pair, "lru", "--second", "lru"]):
        check.expect_usage_error(f"{call[0]} of a long trace alone", *call, "--every", 16777217, error="""\
error: an interval has at most 16777216 accesses without --long
""")
    check.expect_usage_error("the text of what is missing", "debug", error=REQUIRED)


@part()
def queues(check):
    """The rows of intervals once a queue, of a trace that is kept and of one that is not. After 1, 2, 3, 1 the hand of SIEVE is at
    1, whose bit is set; at 4 it clears that bit, passes 1 and evicts 2, which stood ahead of it."""
    call = "intervals", "--inside", "--capacity", 3, "--every", 4
    header = INTERVALS_HEADER.replace("\n", ",queue,held,marked,left\n")
    rows = lines("sieve,3,1,4,1,3,0,0,25.00,passed,0,,0", "sieve,3,1,4,1,3,0,0,25.00,ahead,3,1,0",
                 "sieve,3,5,5,0,1,1,0,0.00,passed,1,0,0", "sieve,3,5,5,0,1,1,0,0.00,ahead,2,0,1")
    for long in ((), ("--long",)):
        name = " ".join(("the queues of sieve", *long))
        check.expect(name, *call, *long, "sieve", typed=lines(1, 2, 3, 1, 4), out=header + rows)
        check.expect(f"{name} over no access", *call, *long, "sieve", out=header)
        check.expect_fault(f"{name} over a faulty trace", "fault: BadNumber line 2", *call, *long, "sieve", typed="1\nx\n")
        check.expect_full(f"{name} to a full output", *call, *long, "sieve", stdin=check.trace)


@part()
def many_policies(check):
    """As many policies as there may be, of a trace that is kept and of one that is not; faulty traces and full outputs."""
    pair, rows = ("compare", *PARTING), {"run": "lru,3,1,0,1,0,0,0.00\n", "sweep": "lru,3,1,0,1,0,0,0.00\nlru,2,1,0,1,0,0,0.00\n"}
    calls = {"run": ("--capacity", 3), "sweep": (3, 2), "intervals": ("--capacity", 3, "--every", 3)}
    for count, sub in itertools.product(range(1, 65, check.size(1, 9)), rows):
        many = ["--policy=lru" if sub == "sweep" else "lru"] * count
        check.expect_report(f"a {sub} of {count} policies", rows[sub] * count, sub, *calls[sub], *many, typed="1\n")
    check.expect("intervals of sixty-four policies", "intervals", *calls["intervals"], *["lru"] * 64, typed="1\n",
                 out=INTERVALS_HEADER + "lru,3,1,1,0,1,0,0,0.00\n" * 64)
    for (sub, words), long in itertools.product(calls.items(), ((), ("--long",))):
        name, call, policy = " ".join((sub, *long)), (sub, *words, *long), "--policy=lru" if sub == "sweep" else "lru"
        check.expect_fault(f"{name} of sixty-five", "fault: Actors", *call, *[policy] * 65, typed="1\n")
        check.expect_fault(f"{name} of sixty-five over a faulty trace", "fault: BadNumber line 1", *call, *[policy] * 65, typed="x\n")
        check.expect_fault(f"{name} over a faulty trace", "fault: BadNumber line 2", *call, policy, typed="1\nx\n")
        check.expect_full(f"{name} to a full output", *call, policy, stdin=check.trace)
    check.expect("no access to compare at", *pair, out=f"{COMPARE_HEADER}lru,slru,2,0,0,0,0,0\n")
    check.expect_fault("a faulty trace to compare over", "fault: BadNumber line 2", *pair, typed="1\nx\n")
    check.expect_fault("a long one", "fault: BadNumber line 2", *pair, "--long", typed="1\nx\n")
    check.expect_full("a comparison to a full output", *pair, stdin=check.trace)


@part()
def long_traces(check):
    """Traces that are too long to be kept, by `--long`."""
    scan, kept = ("--long", "--format", "arc"), "0 16777216\n16777213 1"
    run, pair = ("run", "--capacity", 3, "--long"), ("--capacity", 3, "--first", "lru", "--second", "fifo")
    check.expect_report("a last line without its end", "lru,3,2,0,2,0,0,0.00\n", *run, "lru", typed="1\n2")
    check.expect_report("one access more than is kept", "lru,3,16777217,0,16777217,16777214,0,0.00\n" * 2, *run, "--format", "arc",
                        "lru", "lru", typed="0 16777217")
    check.expect_report("batches of an access", "fifo,3,300000,299997,3,0,0,99.99\n", *run, "--batch", 1, "fifo",
                        typed=lines(1, 2, 3) * 100000)
    check.expect_fault("one access more than a long trace may have", "fault: TooLong line 2", *run, "--format", "arc", "lru",
                       typed="7 0\n0 4294967296\n1\n")
    check.expect_report("a sweep of more caches than threads", "lru,3,6,1,5,2,0,16.66\n" * 90, "sweep", "--long", "--policy", "lru",
                        *[3] * 90, typed=lines(1, 2, 3, 1, 4, 2))
    check.expect_report("a sweep of one access more than is kept", "fifo,2,16777217,0,16777217,16777215,0,0.00\n" * 2, "sweep",
                        *scan, "--policy", "fifo", 2, 2, typed="0 16777217")
    check.expect("intervals, the last of them short", "intervals", "--capacity", 3, "--every", 12000000, *scan, "fifo",
                 typed="0 16777217", out=INTERVALS_HEADER + lines("fifo,3,1,12000000,0,12000000,11999997,0,0.00",
                                                                  "fifo,3,12000001,16777217,0,4777217,4777217,0,0.00"))
    check.expect("a part of one access more than is kept", "part", *pair, *scan, typed=kept, out="part none\n")
    past = f"{kept}\n5 1\n16777213 1"
    check.expect("a part past the accesses that are kept", "part", *pair, *scan, out="part 16777219\n", typed=past)
    check.expect("a comparison", "compare", *pair, *scan, typed=past, out=f"{COMPARE_HEADER}lru,fifo,3,16777219,1,1,0,16777217\n")
    check.expect("the footprint of one access more than is kept", "footprint", "--long", "--format", "arc",
                 out="accesses,blocks,once\n16777219,16777217,16777215\n", typed="0 16777217\n5 2")
    few = ("sample", "--rate", "1/1048576", "--format", "arc")
    check.expect("a sample of one access more than is kept", *few, out=lines(*FEW), typed="0 16777217",
                 error="17 of 16777217 accesses, 17 blocks: --sampled 1/1048576 --accesses 16777217\n")
    check.expect_fault("a sample of one access more than a long trace may have", "fault: TooLong line 2", *few,
                       typed="7 0\n0 4294967296\n1\n")
