"""What tools/survey measures of a trace: its footprint, every policy at several capacities, the windows of wtinylfu,
jumps of the hit ratio, the capacities that reach one, and both sides of powers of two."""
import math
import os
import sys
from collections import namedtuple
from decimal import Decimal
from itertools import accumulate

from .advice import choices_of, middles_of, more_misses
from .policies import MONOTONE, OPTIMAL, WINDOWED, has_sketch
from .reports import MAX_CAPACITY, Row, rate
from .runs import side_by_side
from .samples import check_accesses
from .traces import Unreadable, ranges_of

PERCENTS = ["1", "2", "5", "10", "20", "50"]
# The main parts of wtinylfu that are tried, in percent of the capacity, as --main names them; the rest is its window.
# The first is the program's own.
MAINS = [99, 90, 80, 50, 20]
# The sizes of parts that are tried, in percent of the capacity, as the option names them: those of the papers, which
# are the program's own, and three others.
PARTS = [("s3-fifo", "small", 10, [1, 5, 25]), ("2q", "in", 25, [5, 50, 75]), ("2q", "out", 50, [10, 25, 100])]
# The curve of lru is read at neighbouring capacities that differ by one in so many, or by one entry; a jump of it, and
# of another policy near a capacity, has so many points at least.
FINENESS, LEAST_JUMP = 50, 2
# How many capacities are tried at once between two capacities of lru.
LRU_TRIES = 64
# How often the capacities between two whose best policies disagree are measured, each time nearer to them.
ROUNDS = 2
# A policy changes near a capacity where it does by so many points.
LEAST_SPAN = Decimal("0.5")
# How many capacities in equal ratios a picture has, from 1 percent of the footprint on.
DRAWN = 30
# The most accesses of which it is looked up how many requests hit, and of all that are looked up at once.
MAX_ROWS = 1 << 23
# The tables with `best`.
ADVICE = {"policies", "misses", "halves"}

# `rows` has those of `policies` and of what else is asked for `best`, `spans` the lowest and the highest row near a
# capacity at which a policy moves; `between` are the capacities that nobody asked for. `parts` has a row for each
# policy, option, size and capacity, `requests` one for each policy and capacity, `reaches` the row that reaches a ratio
# and one that does not.
Survey = namedtuple("Survey",
                    "trace accesses footprint once highest policies rows spans between choices halves parts requests "
                    "jumps reaches powers", defaults=({}, {}, [], {}, [], {}, {}, [], [], []))
Reach = namedtuple("Reach", "policy ratio row below is_possible")


def plan_of(policies, args):
    """The steps of a survey of one trace that are planned, in their order and as a terminal names them."""
    tables, has_jumps = {*args.table}, "jumps" in args.table or args.is_drawn
    return ["footprint",
            *["policies"] * bool(tables & {*ADVICE, "windows", "parts", "powers", "requests"} or has_jumps),
            *["between capacities"] * bool(tables & ADVICE),
            *["halves"] * ("halves" in tables),
            *(part_step(policy, option, size) for policy, option, size in tried_parts(policies) if "parts" in tables),
            *["requests"] * ("requests" in tables and args.format == "arc"),
            *["jumps of lru"] * bool(has_jumps),
            *(map(reach_step, policies) if "reach" in tables else []),
            *["powers of two"] * ("powers" in tables),
            *["picture"] * args.is_drawn]


def tried_parts(policies):
    """Each part with each size other than the program's own, of these policies."""
    return [(policy, option, size) for policy, option, _, sizes in PARTS if policy in policies for size in sizes]


def part_step(policy, option, size):
    return f"{policy} --{option} {size}"


def reach_step(policy):
    return f"--reach of {policy}"


def survey_of(trace, policies, args, progress):
    """Everything that is printed of one trace."""
    progress.begin_trace(trace.name)
    progress.begins("footprint")
    accesses, footprint, once = trace.footprint()
    check_accesses(args, f"{trace.name}: ", accesses)
    if not trace.leave_out(accesses):
        progress.erase()
        return Survey(trace, 0, footprint, 0, "0.00", policies, {})
    highest, top = highest_of(trace, accesses, footprint), min(footprint, MAX_CAPACITY)
    asked = asked_of(policies, args)
    rows, near, between = rows_of(trace, asked, footprint, args, progress)
    survey = Survey(trace, highest.accesses, footprint, once, rate(highest.hits, highest.accesses), policies, rows,
                    spans_of(rows, near), between, choices_of(trace, counted(rows, near)),
                    halves_of(trace, asked, rows, accesses, progress), parts_of(trace, rows, policies, progress),
                    requests_of(trace, rows, policies, accesses, progress),
                    [*jumps_of_lru(trace, top, progress), *other_jumps(rows, near)],
                    reaches_of(trace, rows, policies, args.reach, top, highest, progress),
                    powers_of(trace, rows, policies, progress))
    progress.erase()
    return survey


def highest_of(trace, accesses, footprint):
    """The row of a cache that holds the whole footprint: it misses the first access to each block, after a warm-up to
    each that did not come there."""
    begun, known, _ = trace.footprint(is_warm_up=True) if trace.warm_up else (0, 0, 0)
    accesses, misses = accesses - begun, footprint - known
    return trace.estimated(Row(OPTIMAL, footprint, accesses, accesses - misses, misses, 0))


def asked_of(policies, args):
    """What is run at each capacity by its name: a policy, and its main part where it is not the call's. These are the
    columns, and for `best` the windows of wtinylfu, and the policies without a column where none is named."""
    asked = [*policies, *(it for it in args.others if {*args.table} & ADVICE)]
    is_windowed = WINDOWED in asked and not args.main and {*args.table} & {*ADVICE, "windows"}
    return {**{it: (it, None) for it in asked}, **{window(it): (WINDOWED, it) for it in MAINS[1:] if is_windowed}}


def window(main):
    """The name of the rows of wtinylfu with a main part."""
    return WINDOWED if main == MAINS[0] else f"{WINDOWED} --main {main}"


def rows_of(trace, asked, footprint, args, progress):
    """The rows at the capacities of a survey, those near to them, and the capacities between two whose best policies
    disagree, which are measured too."""
    rows, near, between = {}, {}, []

    def measure(capacities):
        rows.update(measured(trace, asked, capacities))
        near.update(rows_near(trace, asked, capacities) if {*args.table} & {*ADVICE, "jumps"} or args.is_drawn else {})

    measure(capacities_of(trace, footprint, args, progress) if progress.begins("policies") else [])
    if rows and progress.begins("between capacities"):
        for _ in range(ROUNDS):
            middles = middles_of(choices_of(trace, counted(rows, near)))
            measure(middles)
            between += middles
    return rows, near, sorted(between)


def measured(trace, asked, capacities):
    """The rows of what is asked, by name and capacity."""
    rows = {}
    for main in dict.fromkeys(main for _, main in asked.values()) if capacities else []:
        names = {policy: name for name, (policy, it) in asked.items() if it == main}
        swept = trace.sweep([*names], capacities, main)
        rows.update({(names[policy], capacity): row for (policy, capacity), row in swept.items()})
    return rows


def rows_near(trace, asked, capacities):
    """The rows a percent, or an entry, below and above each capacity of the policies that may lose by a larger one."""
    others = [policy for policy, main in asked.values() if policy not in MONOTONE and not main]
    tries = sorted({near for it in capacities for near in (below(it), above(it))}.difference(capacities))
    return trace.sweep(others, tries) if others and tries else {}


def spans_of(rows, near):
    """The lowest and the highest row near a capacity where a policy changes there by half a point at least, and by more
    than what separates it from the next policy."""
    known, spans = {**near, **rows}, {}
    for (policy, capacity), row in rows.items():
        around = [known.get((policy, it)) for it in (below(capacity), capacity, above(capacity))]
        if None not in around and any(is_jump(LEAST_SPAN, *pair) for pair in zip(around, around[1:])):
            lowest, *_, highest = sorted(around, key=lambda it: it.hits)
            others = (it for it in rows.values() if it.capacity == capacity and it.policy not in (policy, OPTIMAL))
            apart = [abs(it.hits - row.hits) for it in others]
            if highest.hits - lowest.hits > min(apart, default=0):
                spans[policy, capacity] = lowest, highest
    return spans


def counted(rows, near):
    """The rows that count for `best`: of a policy that changes near a capacity the lowest."""
    return {**rows, **{at: lowest for at, (lowest, _) in spans_of(rows, near).items()}}


def capacities_in(rows):
    return sorted({capacity for _, capacity in rows})


def capacities_of(trace, footprint, args, progress):
    """The capacities that are given, or those parts of the footprint, of which none is over the largest capacity."""
    percents = args.percent or map(Decimal, [] if args.capacity else PERCENTS)
    found = {part_of(footprint, percent) for percent in percents}
    found |= {max(1, round(it / trace.inverse)) for it in args.capacity or []}
    for capacity in sorted(found):
        if capacity > MAX_CAPACITY:
            progress.erase()
            print(f"{trace.program.tool}: {trace.name}: {trace.shown(capacity)} entries are left out: the largest "
                  f"cache has {trace.shown(MAX_CAPACITY)}", file=sys.stderr)
    return sorted(it for it in found if it <= MAX_CAPACITY)


def part_of(footprint, percent):
    return max(1, int(footprint * percent / 100))


def parts_of(trace, rows, policies, progress):
    """The rows of each policy with each size of its parts at each capacity, if that is planned."""
    found, capacities = {}, capacities_in(rows)
    for policy, option, size in tried_parts(policies):
        if progress.begins(part_step(policy, option, size)) and capacities:
            swept = trace.sweep([policy], capacities, part=(f"--{option}", size))
            found.update({(policy, option, size, capacity): row for (_, capacity), row in swept.items()})
    own = {(policy, option, size, it): rows[policy, it]
           for policy, option, size, _ in PARTS if policy in policies for it in capacities}
    return {**own, **found} if found else {}


def requests_of(trace, rows, policies, accesses, progress):
    """The rows of each policy at each capacity that count requests in place of blocks, if a request has several: one is
    a line of the trace, and hits where all its blocks do."""
    counts = [count for _, count in ranges_of(trace.file.lines(),
                                              trace.options.format)] if progress.begins("requests") else []
    if accesses > MAX_ROWS or max(counts, default=1) == 1:
        if counts and accesses > MAX_ROWS:
            progress.erase()
            print(f"{trace.program.tool}: {trace.name}: requests are left out: it has over {MAX_ROWS} accesses",
                  file=sys.stderr)
        return {}
    parts = [(end - count, end) for end, count in zip(accumulate(counts), counts) if end - count >= trace.left_out]

    def counted(job):
        hits = trace.hits_of(*job)
        if len(hits) != accesses:
            raise Unreadable(f"{trace.name}: the program printed other intervals than were asked for")
        whole = sum(0 not in hits[first:end] for first, end in parts)
        return Row(*job, len(parts), whole, len(parts) - whole, 0)

    jobs, most = [(policy, it) for policy in policies for it in capacities_in(rows)], max(1, MAX_ROWS // accesses)
    found = side_by_side(counted, jobs, "requests", accesses * len(jobs), min(most, len(os.sched_getaffinity(0))))
    return dict(zip(jobs, found))


def between(low, high, count):
    """So many capacities above one capacity and below another, evenly apart, or all of them."""
    return sorted({low + (high - low) * at // (count + 1) for at in range(1, count + 1)} - {low, high})


def is_steep(low, high):
    """Whether the hit ratio rises by a point or more for each percent that the cache grows."""
    return (high.hits - low.hits) * low.capacity >= (high.capacity - low.capacity) * high.accesses


def steep_parts(rows):
    """The longest parts of a curve whose neighbours are all steep, as pairs of their first and last row."""
    parts = []
    for low, high in zip(rows, rows[1:]):
        if is_steep(low, high):
            first, _ = parts.pop() if parts and parts[-1][1] == low else (low, None)
            parts.append((first, high))
    return parts


def jumps_of_lru(trace, top, progress):
    """Where the hit ratio of lru jumps: the curve at capacities near to each other, then each jump closer by."""
    if not progress.begins("jumps of lru"):
        return []
    capacities = [1]
    while capacities[-1] < top:
        capacities.append(min(top, capacities[-1] + max(1, capacities[-1] // FINENESS)))
    curve = [row for _, row in sorted(trace.sweep(["lru"], capacities).items())]
    found = [part for part in steep_parts(curve) if rises_by(LEAST_JUMP, *part)]
    inside = [capacity for first, last in found for capacity in between(first.capacity, last.capacity, LRU_TRIES)]
    close = trace.sweep(["lru"], inside) if inside else {}
    jumps = []
    for first, last in found:
        rows = [row for (_, capacity), row in sorted(close.items()) if first.capacity < capacity < last.capacity]
        parts = steep_parts([first, *rows, last])
        jumps.append((parts[0][0], parts[-1][1]))
    return [jump for jump in jumps if rises_by(LEAST_JUMP, *jump)]


def rises_by(points, low, high):
    return (high.hits - low.hits) * 100 >= points * low.accesses


def other_jumps(rows, near):
    """Where a policy that may lose by a larger capacity jumps within a percent of a survey's capacity."""
    known, others = {**near, **rows}, dict.fromkeys(policy for policy, _ in near)
    pairs = dict.fromkeys(pair for it in capacities_in(rows) for pair in ((below(it), it), (it, above(it))))
    found = ((known[policy, low], known[policy, high]) for policy in others for low, high in pairs)
    return [jump for jump in found if is_jump(LEAST_JUMP, *jump)]


def halves_of(trace, asked, rows, accesses, progress):
    """The choices in the first half of a trace and in the second, and how many percent more misses than the best each
    name has in the second, by capacity."""
    later = trace.without_half(accesses) if progress.begins("halves") else None
    if not later:
        return {}
    second = measured(later, asked, capacities_in(rows))
    first = {at: trace.without(rows[at], row) for at, row in second.items()}
    halves = [choices_of(trace, it) for it in (first, second)]
    more = {it: more_misses({name: second[name, it] for name in asked if name != OPTIMAL}) for it in halves[0]}
    return {it: (halves[0][it], halves[1][it], more[it]) for it in more}


def below(capacity):
    """The capacity that is one percent, or one entry, below."""
    return max(1, capacity - max(1, capacity // 100))


def above(capacity):
    return min(MAX_CAPACITY, capacity + max(1, capacity // 100))


def is_jump(points, low, high):
    """Whether the hit ratio changes by so many points; of a small cache a rise has to be steep too."""
    return rises_by(points, low, high) and is_steep(low, high) or high.hits < low.hits and rises_by(points, high, low)


def reaches_of(trace, rows, policies, ratios, top, highest, progress):
    """For each ratio and policy the smallest capacity found that reaches the ratio, to one percent of it."""
    if not progress.begins(reach_step(policies[0])):
        return []
    tops, found = trace.sweep(policies, [top]), {}
    for policy in policies:
        progress.begins(reach_step(policy))
        known = {capacity: row for (name, capacity), row in rows.items() if name == policy and capacity < top}
        known[top] = tops[policy, top]
        while tries := sorted({it for ratio in ratios for it in tries_between(*bounds_of(known, ratio), ratio)}):
            known.update((capacity, row) for (_, capacity), row in trace.sweep([policy], tries).items())
        found.update({(ratio, policy): bounds_of(known, ratio) for ratio in ratios})
    return [Reach(policy, ratio, reached, below, has_ratio(highest, ratio)) for ratio in ratios for policy in policies
            for below, reached in [found[ratio, policy]]]


def has_ratio(row, ratio):
    return row.hits * 100 >= ratio * row.accesses


def bounds_of(known, ratio):
    """The smallest row that reaches a ratio, if one does, and before it the next smaller one, or the largest one."""
    reached = min((it for it, row in known.items() if has_ratio(row, ratio)), default=None)
    below = max((it for it in known if reached is None or it < reached), default=None)
    return known.get(below), known.get(reached)


def tries_between(below, reached, ratio):
    """The capacities to try next between both: none where they differ by one percent or by one entry."""
    if not reached:
        return []
    low, high = below.capacity if below else 0, reached.capacity
    if high - low <= max(1, high // 100):
        return []
    if reached.policy == "lru":
        return between(low, high, LRU_TRIES)
    # In the middle, and to both sides of where a straight line between the two over the logarithm of the capacity is.
    lost, hits = max(low, 1), below.hits if below else 0
    guess = lost * (high / lost) ** ((float(ratio) * reached.accesses / 100 - hits) / max(1, reached.hits - hits))
    tries = {math.isqrt(lost * high), int(guess * 0.996), math.ceil(guess * 1.004)}
    return sorted(it for it in tries if low < it < high) or [(low + high) // 2]


def powers_of(trace, rows, policies, progress):
    """The rows on both sides of each power of two that a capacity is near to, of the policies with a sketch."""
    if not progress.begins("powers of two"):
        return []
    filtered, capacities = [it for it in policies if has_sketch(it)], capacities_in(rows)
    powers = [1 << bits for bits in range(1, 20) if any(abs(it - (1 << bits)) * 20 <= it for it in capacities)]
    found = trace.sweep(filtered, [it + more for it in powers for more in (0, 1)]) if powers and filtered else {}
    return [(found[policy, power], found[policy, power + 1]) for power in powers for policy in filtered if found]


def drawn_of(survey, progress):
    """Every policy at capacities in equal ratios from 1 percent of the footprint on, at both ends of each jump, and
    between two of these where a policy changes by over two points."""
    progress.begins("picture")
    top = min(survey.footprint, MAX_CAPACITY)
    low = max(1, survey.footprint // 100)
    tries, rows = {round(low * (top / low) ** (at / (DRAWN - 1))) for at in range(DRAWN)}, {}
    tries |= {row.capacity for jump in survey.jumps for row in jump}
    for _ in range(ROUNDS + 1):
        rows.update(survey.trace.sweep(survey.policies, sorted(tries)) if tries else {})
        places = capacities_in(rows)
        tries = {math.isqrt(low * high) for low, high in zip(places, places[1:]) for it in survey.policies
                 if abs(rows[it, low].hits - rows[it, high].hits) * 50 > rows[it, low].accesses} - {*places}
    return rows.values()
