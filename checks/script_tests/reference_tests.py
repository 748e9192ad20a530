"""Tests of tools/reference, beside calls of the program."""
from cache_reference import policy_of
from cache_reference.caffeine import Caffeine
from lib.policies import POLICIES
from frame import Mistake, expect, expect_full_disk, run

CACHE, PAIR = ("--capacity", 20), ("--first", "arc", "--second", "wtinylfu")
# Calls over a trace that both answer alike, with the status of each.
CALLS = [
    (0, "run", *CACHE, *POLICIES), (0, "run", "--capacity=+07", "lru", "--main", 50, "wtinylfu", "--batch", 7),
    (0, "run", *CACHE, "--spread", "plain", "tinylfu-slru"), (0, "run", *CACHE, "--format", "arc", "lru"),
    (0, "sweep", "--policy", "lru", "--policy=2q", 3, 20, 5), (0, "sweep", 9, "--policy", "wtinylfu", "--main", 0),
    (0, "intervals", *CACHE, "--every", 70, "lru", "arc"), (0, "intervals", *CACHE, "--every", 70, "--inside", "lru", "arc"),
    (0, "part", *CACHE, *PAIR), (0, "compare", *CACHE, *PAIR),
    (0, "compare", *CACHE, *PAIR, "--every", 70, "--main", 50), (1, "run", *CACHE, *["lru"] * 65),
    (0, "run", *CACHE, "2q:out=+7:in=030", "2q", "--in", 60), (0, "sweep", "--policy", "wtinylfu:main=20", 3, 20),
    (0, "compare", *CACHE, "--first", "s3-fifo", "--second", "s3-fifo:small=50"), (0, "footprint"), (0, "footprint", "--format", "arc", "--long"),
    (2, "run", *CACHE, "2q:in=0"), (2, "run", *CACHE, "2q:small=5"), (2, "run", *CACHE, "slru:"), (2, "run", *CACHE, "wtinylfu:main=1:main=1"),
    (2, "run", *CACHE, "lru2"), (2, "footprint", *CACHE), (0, "sample", "--rate", "1/4"), (0, "sample", "--rate=1/2", "--seed", 2**64 - 1, "--format", "arc"),
    (2, "sample"), (2, "sample", "--rate", "1/3"), (2, "sample", "--rate", "1/2", "--seed", 2**64),
    (2, "run", "lru"), (2, "run", "--capacity", 0, "lru"), (2, "run", *CACHE), (2, "sweep", "--policy", "lru"), (2, "debug"),
    (2, "intervals", *CACHE, "lru"), (2, "part", *CACHE, "--first", "lru"), (2, "run", *CACHE, "--main", 100, "lru"), (2, "walk")]
TEXTS = [(1, "lirs", "5\n7 x\n"), (1, "arc", "5 1\n\n7\n"), (1, "arc", "5 1\n-7 1\n"), (1, "arc", "18446744073709551615 2\n"),
         (1, "arc", "1 16777217\n"), (0, "arc", "5 0 x\n"), (0, "lirs", f" {'0' * 5000}7\r\n*\n"), (0, "lirs", "")]


def check_beside_program(reference, program):
    """The same rows, faults and statuses, and a note that they are not proved."""
    ranges = [(it * it % 391, it % 3) for it in range(300)]
    for status, *words in CALLS:
        typed = "".join(f"{block} {count}\n" if "--format" in words else f"{block}\n" for block, count in ranges)
        out, error = run(reference, *words, status=status, typed=typed)
        wanted, fault = run(program, *words, status=status, typed=typed)
        expect(f"{words}", out, wanted)
        if status < 2:
            expect(f"what is said of {words}", error, "tools/reference: the unproved reference that the program is tested against\n" + fault)
    for status, form, text in TEXTS:
        words = "run", *CACHE, "--format", form, "fifo"
        (out, error), wanted = (run(it, *words, status=status, typed=text) for it in (reference, program))
        expect(f"{text} as {form}", (out, error.partition("\n")[2]), wanted)
    expect_full_disk(reference, "run", *CACHE, "lru", typed="1\n")


def check_caffeine():
    """The age of its sketch: after a halving over 160 new keys, and over 80 that come twice; of a key that comes 20 times, of
    which 15 raise a counter. And how large the window is at the end of each period."""
    for capacity, keys, age in ((16, range(160), 64), (16, [*range(80)] * 2, 80), (100, [7] * 20, 15)):
        cache = Caffeine(capacity, 99, "mixed", None)
        for key in keys:
            cache.access(key)
        expect(f"the age of {capacity} entries", cache.frequency.age, age)
    cache, sizes = Caffeine(16, 99, "mixed", None), []
    for at, key in enumerate([1] * 160 + [*range(100, 260)] + [1] * 160, 1):
        cache.access(key)
        sizes += [cache.queues.window_size] * (at % 160 == 0)
    expect("the window", sizes, [1, 2, 3])


def check_words():
    """How reports print a policy's word, or that it is none."""
    for word, printed in (("2q:out=+7:in=030", "2q:in=30:out=7"), ("caffeine:period=20000:main=050", "caffeine:main=50:period=20000"),
                          ("s3-fifo:small=1", "s3-fifo:small=1"), ("lru", "lru"), ("wtinylfu:main=99", "wtinylfu:main=99"),
                          *dict.fromkeys(("slru:", "2q:in", "2q:in=", "2q:in=0", "2q:in=100", "2q:in=3,out=4", "2q:small=1", "2q :in=1", ":main=3",
                                          "2q:in=1:in=1", "wtinylfu:Main=3", "wtinylfu:main=100", "wtinylfu:period=9", "caffeine:period=0",
                                          "caffeine:period=4294967296", "s3-fifo:small=-1", "arc:in=1", "lru2")).items()):
        expect(word, policy_of(word), printed)


MISTAKES = {
    "reports that may pass for the program's": Mistake(check_beside_program, "reference", "    print(NOTE, file=sys.stderr)\n", ""),
    "a spread that is not handed on": Mistake(check_beside_program, "reference", "**asked}", '**asked, "spread": "mixed"}'),
    "sizes that do not count": Mistake(check_beside_program, "../checks/cache_reference/options.py", "{**options, **own}", "options"),
    "a size twice": Mistake(check_beside_program, "../checks/cache_reference/options.py", "len(numbers) < len(sizes) or ", ""),
    "the second policy as the first": Mistake(check_beside_program, "../checks/cache_reference/reports.py",
                                              'options.get("first"), options.get("second")', 'options.get("second"), options.get("first")'),
    "a sample by one seed": Mistake(check_beside_program, "../checks/cache_reference/reports.py", 'options["seed"])', "1)"),
    "more policies than a call takes": Mistake(check_beside_program, "reference", "> MAX_POLICIES", "> 99"),
}
