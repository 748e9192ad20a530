"""Tests of tools/sample, which calls the program: each block's accesses are kept or not, in their order, and about one block
in N is."""
import gzip

from frame import Mistake, expect, expect_parts, expect_quiet_interrupt, file_of, run


def by(program, sample):
    """A call of the script that calls this program."""
    return lambda *words, **how: run(sample, "--program", program, *words, **how)


def check_blocks(sample, folder, program):
    """Of each block all accesses are there or none, in their order; a pipe of over a megabyte too."""
    sampled = by(program, sample)
    for count, inverse, least, most in ((140000, 2, 60000, 80000), (300000, 8, 10000, 80000)):
        blocks = [it * it % 40009 for it in range(count)]
        trace = file_of(folder, "trace", "*\n\n" + "".join(f"{it}\n" for it in blocks))
        out, error = sampled("--rate", f"1/{inverse}", trace)
        kept = list(map(int, out.split()))
        distinct = set(kept)
        expect("the accesses", kept == [it for it in blocks if it in distinct] and least < len(kept) < most, True)
        expect_parts("what is said", error, f"{len(kept)} of {count} accesses, {len(distinct)} blocks: --sampled 1/{inverse} --accesses {count}")
    expect("a pipe", sampled("--rate", "1/8", typed=trace.read_text())[0], out)
    expect("gzip", sampled("--rate", "1/8", "-", typed=gzip.compress(trace.read_bytes(), 1))[0], out)
    other = sampled("--rate", "1/8", "--seed", "2", trace)[0]
    expect("another seed", other != out and bool(other), True)


def check_rate(sample, folder, program):
    """One block in N, within five standard deviations, of neighbours, of multiples of 64 and of large numbers alike, each once."""
    for step, first, inverse, count in ((1, 0, 2, 140000), (1, 0, 32, 20000), (64, 0, 8, 20000), (64, 0, 32, 20000),
                                        (1 << 20, 1 << 60, 2, 20000), (1 << 32, 0, 8, 20000), (1, 0, 1024, 200000)):
        text = "".join(f"{first + it * step} 1\n" for it in range(count)) if step > 1 else f"{first} {count}\n"
        out, error = by(program, sample)("--rate", f"1/{inverse}", "--format", "arc", typed=text)
        kept = len(out.split())
        expect_parts("what is said", error, f"{kept} of {count} accesses, {kept} blocks: ")
        most = 5 * (count * (inverse - 1)) ** 0.5 / inverse
        expect(f"{kept} of {count} at 1/{inverse}", abs(kept - count / inverse) < most, True)


def check_ranges(sample, folder, program):
    """The blocks of ranges are the same as those of a trace with one block a line."""
    ranges = [(it * 97 % 5003, it % 17) for it in range(3000)]
    arc = file_of(folder, "arc", "".join(f"{first}\t{count} 0 {it}\n" for it, (first, count) in enumerate(ranges)))
    lirs = file_of(folder, "lirs", "".join(f"{first + at}\n" for first, count in ranges for at in range(count)))
    expect("the accesses", by(program, sample)("--rate", "1/4", "--format", "arc", arc)[0], by(program, sample)("--rate", "1/4", lirs)[0])


def check_refusals(sample, folder, program):
    sampled = by(program, sample)
    trace = file_of(folder, "trace", "1\n2\n-x\n")
    expect("a faulty line", sampled("--rate", "1/2", trace, status=1)[1], "fault: BadNumber line 3\n")
    expect_parts("no file", sampled("--rate", "1/2", folder / "none", status=1)[1], "No such file")
    expect_parts("no program", by(folder / "none", sample)("--rate", "1/2", trace, status=1)[1], "cannot be called: No such file")
    for rate in ("1/3", "0.125", "1/1", "2/4", "1/"):
        expect_parts("a rate", sampled("--rate", rate, trace, status=2)[1], f"{rate} is no rate")
    expect_parts("a seed", sampled("--rate", "1/2", "--seed", "x", trace, status=2)[1], "invalid value 'x'")
    expect_quiet_interrupt(sample, folder, "--program", program, "--rate", "1/2")
    with open("/dev/full", "wb") as full:
        expect("a full disk", sampled("--rate", "1/2", typed="".join(f"{it}\n" for it in range(99)), status=1, stdout=full)[1], "fault: Write\n")


MISTAKES = {
    "a seed without effect": Mistake(check_blocks, "sample", '"--seed={args.seed}"', '"--seed=1"'),
    "another rate": Mistake(check_rate, "sample", '"--rate={args.rate}"', '"--rate=1/2"'),
    "lines of one format": Mistake(check_ranges, "sample", '"--format={args.format}"', '"--format=lirs"'),
    "a status that is lost": Mistake(check_refusals, "sample", "else ended.returncode)", "else 0)"),
    "a rate of no power of two": Mistake(check_refusals, "lib/samples.py", "number & number - 1 or", "False or"),
}
