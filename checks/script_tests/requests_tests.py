"""Tests of the table of tools/survey that says how many requests hit whole, over requests that were gone through by hand."""
from frame import Mistake, expect, expect_parts, fake, file_of, rows_of, run
from own_tests import own_of

# At 4 entries each block stays once it came: the last three requests hit, and of the third block 2 misses. At 3 entries 2 pushes
# 5 out, that 0, which pushes 1 out, and that 5: the fifth request alone hits.
REQUESTS = "0 2\n5 1\n0 3\n5 1\n2 1\n0 3\n"


def check_requests(survey, folder, program):
    """Of how many requests all blocks hit, in what is left of a trace too, and by a policy of one's own."""
    trace = file_of(folder, "trace", REQUESTS)
    call = "--program", program, "--format", "arc", "--capacity", 3, "--capacity", 4, *own_of(folder)
    call = *call, "--policy", "lru", "--policy", "clairvoyant", "--policy", "own:lru", "--table", "requests"
    # The second request begins with access 3, the third with 4 and the fourth with 7.
    for after, wanted in ((0, ["16.66", "50.00"]), (2, ["20.00", "60.00"]), (3, ["25.00", "75.00"]), (4, ["33.33", "100.00"])):
        rows = rows_of(run(survey, *call, "--csv", *["--after", after][:2 * bool(after)], trace)[0])
        expect(f"after {after}", [[row[it] for row in rows] for it in ("lru", "own:lru")], [wanted, wanted])
        expect("the best", {row["best"] for row in rows}, {"lru or own:lru"})
    expect_parts("the note", run(survey, *call, trace)[0], "requests that hit whole, in percent", "clairvoyant is no bound")
    begun = run("/bin/sh", "-c", 'read -r _; exec "$@"', "sh", survey, *call, "--csv", "-", stdin=open(trace, "rb"))[0]
    expect("without a line", [row["lru"] for row in rows_of(begun)], ["20.00", "60.00"])


def check_none(survey, folder):
    """There is no table of single blocks, nor where the accesses are too many, which is said, nor of half a report."""
    program = "--program", fake(folder, "10")
    call = *program, "--policy", "lru", "--capacity", 1, "--table", "requests", "--csv"
    for form, text in (("arc", "5 1\n6 1\n"), ("lirs", "5\n")):
        expect(form, rows_of(run(survey, *call, "--format", form, file_of(folder, "trace", text))[0]), [])
    out, error = run(survey, *call, "--format", "arc", file_of(folder, "trace", "0 1000\n" * 8389))
    expect_parts("too many", error, "trace: requests are left out: it has over 8388608 accesses\n")
    expect("no rows", rows_of(out), [])
    error = run(survey, *call, "--format", "arc", file_of(folder, "trace", REQUESTS), status=1)[1]
    expect_parts("another report", error, "trace: the program printed other intervals than were asked for\n")


MISTAKES = {
    "any block": Mistake(check_requests, "lib/measures.py", "0 not in hits[first:end]", "any(hits[first:end])"),
    "requests of the warm-up": Mistake(check_requests, "lib/measures.py", " if end - count >= trace.left_out]", "]"),
    "a trace from its first line on": Mistake(check_requests, "lib/traces.py", "        file.seek(self.start)\n", ""),
    "half a report": Mistake(check_none, "lib/measures.py", "        if len(hits) != accesses:", "        if False:"),
    "in silence": Mistake(check_none, "lib/measures.py", "        if counts and accesses > MAX_ROWS:", "        if False:"),
}
