"""The tables of tools/survey: what was measured of its traces as rows of cells, and these as CSV or in columns for
people. A cell that names several policies is a tuple of them, from the best one on."""
import csv
import io
import textwrap
from itertools import groupby, zip_longest

from .advice import nearly_best
from .own import note_of
from .measures import ADVICE, MAINS, PARTS, capacities_in, window
from .policies import CAFFEINE, OPTIMAL
from .reports import MAX_CAPACITY, rate

# How wide a table for people is at most, but for a trace's name.
MAX_WIDTH = 80
# So many columns say what a row is of: where a table is too wide for one block of lines, each block has them. The gap
# is what stands between two columns.
KEYS, GAP = 2, 2


def points(upper, lower):
    """By how many points the hit ratio of the lower row is below that of the upper one."""
    return f"{100 * (upper.hits - lower.hits) / upper.accesses:.2f}"


def place_of(survey, capacity):
    """A capacity as a part of the footprint, and as it is of the whole trace."""
    return f"{100 * capacity / survey.footprint:.1f}", survey.trace.shown(capacity)


def shown_rate(row):
    return rate(row.hits, row.accesses)


def rate_of(survey, policy, capacity):
    """The hit ratio at a capacity, or the lowest and the highest one near to it."""
    return "-".join(map(shown_rate, survey.spans.get((policy, capacity), [survey.rows[policy, capacity]])))


def places_of(surveys):
    """Each survey with each of its capacities, and the cells that stand before a row of it."""
    pairs = ((it, capacity) for it in surveys for capacity in capacities_in(it.rows))
    return ((it, capacity, (it.trace.name, *place_of(it, capacity))) for it, capacity in pairs)


def traces_table(surveys):
    yield "trace", "accesses", "footprint", "used once", "highest possible %"
    for it in surveys:
        yield it.trace.name, it.accesses, it.trace.shown(it.footprint), it.trace.shown(it.once), it.highest


def policies_table(surveys):
    is_bounded = OPTIMAL in surveys[0].policies
    bound = ["below optimal"] * is_bounded
    yield "trace", "% of footprint", "capacity", *surveys[0].policies, *bound, "at worst", "best"
    for it, capacity, place in places_of(surveys):
        best = it.choices.get(capacity, [])
        below, worst = ["-"] * is_bounded, "-"
        if best:
            below = [points(it.rows[OPTIMAL, capacity], it.rows[best[0].key, capacity])] if is_bounded else []
            worst = f"{best[0].worst:.1f}"
        yield *place, *(rate_of(it, policy, capacity) for policy in it.policies), *below, worst, names_of(best)


def names_of(choices):
    return tuple(it.name for it in choices)


def misses_table(surveys):
    yield "trace", "% of footprint", "capacity", *surveys[0].policies, "% fewer than lru", "best"
    for it, capacity, place in places_of(surveys):
        best, lru, fewer = it.choices.get(capacity, [])[:1], it.rows.get(("lru", capacity)), "-"
        if best and lru and lru.misses:
            fewer = f"{100 * (lru.misses - it.rows[best[0].key, capacity].misses) / lru.misses:.1f}"
        yield *place, *(it.rows[policy, capacity].misses for policy in it.policies), fewer, names_of(best)


def halves_table(surveys):
    yield "trace", "% of footprint", "capacity", "half", "% more misses", "best"
    for it in surveys:
        for capacity, (first, second, more) in it.halves.items():
            yield it.trace.name, *place_of(it, capacity), "first", "-", names_of(first)
            yield it.trace.name, *place_of(it, capacity), "second", f"{more[first[0].key]:.1f}", names_of(second)


def windows_table(surveys):
    beside = [CAFFEINE] if CAFFEINE in surveys[0].policies else []
    yield "trace", "% of footprint", "capacity", *(f"--main {it}" for it in MAINS), *beside, "best --main"
    for it, capacity, place in places_of(surveys):
        if (window(MAINS[-1]), capacity) in it.rows:
            rows = [(str(main), it.rows[window(main), capacity]) for main in MAINS]
            rates = map(shown_rate, (*(row for _, row in rows), *(it.rows[policy, capacity] for policy in beside)))
            yield *place, *rates, tuple(main for main, _ in nearly_best(it.trace, rows))


def parts_table(surveys):
    parts = [(policy, option, size) for policy, option, own, others in PARTS if policy in surveys[0].policies
             for size in sorted([own, *others])]
    yield "trace", "% of footprint", "capacity", *(f"{policy} --{option} {size}" for policy, option, size in parts)
    for it, capacity, place in places_of(it for it in surveys if it.parts):
        yield *place, *(shown_rate(it.parts[*part, capacity]) for part in parts)


def requests_table(surveys):
    yield "trace", "% of footprint", "capacity", *surveys[0].policies, "best"
    for it, capacity, place in places_of(it for it in surveys if it.requests):
        rows = [(policy, it.requests[policy, capacity]) for policy in it.policies]
        best = nearly_best(it.trace, [(policy, row) for policy, row in rows if policy != OPTIMAL])
        yield *place, *(shown_rate(row) for _, row in rows), tuple(policy for policy, _ in best)


def jumps_table(surveys):
    yield "trace", "policy", "jumps from", "to", "hit ratio from", "to", "points"
    for it in surveys:
        for low, high in it.jumps:
            places = it.trace.shown(low.capacity), it.trace.shown(high.capacity)
            yield it.trace.name, low.policy, *places, shown_rate(low), shown_rate(high), points(high, low)


def reach_table(surveys):
    yield "trace", "to reach", "policy", "capacity", "% of footprint", "hit ratio", "not at", "hit ratio there"
    for it in surveys:
        for policy, ratio, row, below, is_possible in it.reaches:
            if row:
                part, capacity = place_of(it, row.capacity)
            else:
                part, capacity = "-", f"> {it.trace.shown(MAX_CAPACITY)}" if is_possible else "never"
            yield (it.trace.name, ratio, policy, capacity, part, shown_rate(row) if row else "-",
                   it.trace.shown(below.capacity) if below else "-", shown_rate(below) if below else "-")


def powers_table(surveys):
    yield "trace", "policy", "power of two", "hit ratio", "with one more", "gained"
    for it in surveys:
        for at, above in it.powers:
            rates = shown_rate(at), shown_rate(above)
            yield it.trace.name, at.policy, it.trace.shown(at.capacity), *rates, points(above, at)


TABLES = {"traces": traces_table, "policies": policies_table, "misses": misses_table, "halves": halves_table,
          "windows": windows_table, "parts": parts_table, "requests": requests_table, "jumps": jumps_table,
          "reach": reach_table, "powers": powers_table}
# What stands above the part of a table that is of one trace.
TITLES = {"policies": "hit ratios in percent", "misses": "misses", "halves": "best of each half",
          "windows": "hit ratios of wtinylfu in percent", "parts": "hit ratios in percent by the sizes of parts",
          "requests": "requests that hit whole, in percent", "jumps": "jumps of the hit ratio",
          "reach": "capacities that reach a hit ratio", "powers": "on both sides of a power of two"}
AT_WORST = ("clairvoyant left out, in the order of how many percent more misses than the best they have at worst, there "
            "or at the capacities beside it. LOW-HIGH: the policy changes so much within a percent of the capacity; its "
            "lowest counts)")
NOTES = {
    "policies": f"(best: all within half a point of the best policy and 5 % of its misses, {AT_WORST}",
    "halves": "(% more misses: of the first half's first name, in the second half, than the best policy there)",
    "windows": "(--main 99 has a window of 1 percent, --main 20 one of 80)",
    "parts": "(the program's own sizes, those of the papers: --small 10, --in 25 and --out 50)",
    "requests": "(a request is a line of the trace, and hits where all its blocks do; best: as above, by these; "
                "clairvoyant is no bound of them)",
    "jumps": "(lru: at any capacity; others but clairvoyant: within a percent of the survey's capacities)",
    "reach": "(the smallest capacity found, to one percent; of other policies than lru and clairvoyant a smaller one "
             "may reach the ratio too, and a larger one may not; never: no cache of any size has that ratio)",
    "powers": "(near a capacity of the survey: past it the sketch doubles its width, so look at both sides)",
}
# What stands behind a column of caffeine.
OF_CAFFEINE = ("(caffeine: its sketch, whom it lets in and a fixed window were measured beside the library; how its "
               "window moves is from the library's source)")
NOTES_OF_SAMPLE = {
    "policies": "(best: all within half a point of the best policy, or two where one of both has a sketch, and 5 % of "
                f"its misses, {AT_WORST}\n(of sieve and slru near a jump, and of any policy where two samples by other "
                "seeds disagree, a sample says nothing)",
    "jumps": f"{NOTES['jumps']}\n(where a sample jumps is known to some percent: 3 at 1000 entries of its cache, 10 at "
             "100)",
}
# What is said in place of an empty table.
NONE = {"policies": "no accesses", "halves": "no halves", "jumps": "no jump " + NOTES["jumps"]}
FOLDED = {"best", "best --main"}
LEFT = {"trace", "policy", "half", *FOLDED}


def width_of(widths):
    return sum(width + GAP for width in widths) - GAP


def column_blocks(widths, most):
    """The columns of a table in blocks that are not too wide, each of which has the first columns."""
    blocks = [[*range(KEYS)]]
    for at in range(KEYS, len(widths)):
        if len(blocks[-1]) > KEYS and width_of(widths[it] for it in (*blocks[-1], at)) > most:
            blocks.append([*range(KEYS)])
        blocks[-1].append(at)
    return blocks


def folded(cell, width):
    """The lines of a cell: of names as many on each as there is room for."""
    if not isinstance(cell, tuple):
        return [str(cell)]
    text = " or ".join(it.replace(" ", "\0") for it in cell) or "-"
    return [it.replace("\0", " ") for it in textwrap.wrap(text, width, break_long_words=False, break_on_hyphens=False)]


def lines_of(cells, is_left, widths):
    """The lines of a row whose cells are lists of lines: names to the left and numbers to the right."""
    for texts in zip_longest(*cells, fillvalue=""):
        placed = [text.ljust(width) if left else text.rjust(width) for text, left, width in zip(texts, is_left, widths)]
        yield (" " * GAP).join(placed).rstrip()


def in_two(head):
    """A head in two lines, which are about as long as each other."""
    words = head.split()
    pairs = ([" ".join(words[:at]), " ".join(words[at:])] for at in range(len(words)))
    return min(pairs, key=lambda it: max(map(len, it)))


def block_of(block, rows, heads, least):
    """Some of the columns one beside the other, the last of which takes the room that is left where it has names."""
    widths = [least[at] for at in block]
    if rows[0][block[-1]] in FOLDED:
        widths[-1] = max(widths[-1], MAX_WIDTH - width_of(widths[:-1]) - GAP)
    cells = [[folded(row[at], width) for at, width in zip(block, widths)] for row in rows[1:]]
    is_left = [rows[0][at] in LEFT for at in block]
    return "\n".join(line for row in ([heads[at] for at in block], *cells) for line in lines_of(row, is_left, widths))


def aligned(rows, most=MAX_WIDTH):
    """Rows of cells, the first of which are heads, in as many blocks of columns as are needed. Where they do not fit as
    they are, heads have two lines and names as many as they need."""
    rows = list(rows)
    for heads, width in (([[head] for head in rows[0]], 1 << 20), ([in_two(head) for head in rows[0]], 1)):
        least = [max(len(line) for lines in (head, *(folded(it, width) for it in cells)) for line in lines)
                 for head, (_, *cells) in zip(heads, zip(*rows))]
        if width_of(least) <= most:
            break
    return "\n\n".join(block_of(block, rows, heads, least) for block in column_blocks(least, most))


def for_people(name, rows, notes, also):
    """A table: of each trace a part with its name and the table's title above it, but of traces all together."""
    head, *rows = rows
    if not rows:
        return folded_note(NONE[name])
    if name == "traces":
        parts = [aligned([head, *rows], MAX_WIDTH + max(len(row[0]) for row in rows)) + "\n"]
    else:
        parts = [f"{trace}: {TITLES[name]}\n{aligned([head[1:], *(row[1:] for row in group)])}\n{also.get(trace, '')}"
                 for trace, group in groupby(rows, key=lambda row: row[0])]
    return "\n".join(parts) + folded_note(notes.get(name, ""))


def folded_note(text):
    return "".join(textwrap.fill(line, MAX_WIDTH) + "\n" for line in text.splitlines())


def also_measured(surveys):
    """What is said of each trace of which capacities were measured that nobody asked for."""
    return {it.trace.name: "also measured, between two whose best policies disagree: "
            + ", ".join(str(it.trace.shown(capacity)) for capacity in it.between) for it in surveys if it.between}


def text_of(args, surveys):
    # Of CSV a number is one.
    surveys = [it._replace(spans={}) for it in surveys] if args.csv else surveys
    tables = {name: list(TABLES[name](surveys)) for name in args.table}
    if args.csv:
        out, every = io.StringIO(), (row for rows in tables.values() for row in rows)
        rows = ([" or ".join(it) or "-" if isinstance(it, tuple) else it for it in row] for row in every)
        csv.writer(out, lineterminator="\n").writerows(rows)
        return out.getvalue()
    notes = {**NOTES, **(NOTES_OF_SAMPLE if args.sampled else {})}
    if CAFFEINE in surveys[0].policies:
        notes["policies"] += "\n" + OF_CAFFEINE
    also = {trace: folded_note(f"({text})") for trace, text in also_measured(surveys).items()}
    first = next((name for name in tables if name in ADVICE), None)
    parts = [for_people(name, rows, notes, also if name == first else {})
             for name, rows in tables.items() if len(rows) > 1 or name in NONE]
    if note := note_of(surveys[0].policies):
        parts.append(folded_note(note))
    if args.sampled:
        parts.append(f"(estimates by one block in {args.sampled})\n")
    if args.after:
        left_out = f"{'about ' * bool(args.sampled)}the first {args.after} accesses"
        parts.append(folded_note(f"(without {left_out}, where clairvoyant is no upper bound)"))
    return "\n".join(parts)
