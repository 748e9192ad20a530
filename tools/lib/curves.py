"""Reports as curves, for tools/plot: rows of `cachesim sweep`, `cachesim intervals` and `cachesim compare --every`, and
what is refused of them."""
import sys
from collections import namedtuple

from .options import as_called
from .policies import OPTIMAL
from .reports import INTERVALS, SWEEP

INSIDE = f"{INTERVALS},queue,held,marked,left"
COMPARISONS = "first,second,capacity,from,to,both,first_only,second_only,neither"
HEADERS = (SWEEP, INTERVALS, INSIDE, COMPARISONS)
TOOL = as_called("tools/plot")

# A report of a file: the line that it is in, the place of the horizontal axis where it begins and that where it ends,
# and its counts: of a queue in place of accesses and hits the keys that it holds and those that are marked, or the keys that
# were evicted and those that left the queue.
Row = namedtuple("Row", "line policy capacity begin end accesses hits queue", defaults=[""])
# The points of a curve are a beginning, an end and a height. Its variant is the file, and of intervals the capacity and the
# number of the queue.
Curve = namedtuple("Curve", "name policy variant points")


def refuse(text):
    sys.exit(f"{TOOL}: {text}")


def number_of(text):
    """A number of a report; ValueError where it is none, as one below 0 or of 19 digits, which no report has."""
    if not (text.isascii() and text.isdigit() and len(text) < 19):
        raise ValueError(text)
    return int(text)


def rows_of_line(where, number, line, header, is_left):
    """The rows of a line: of a comparison one for each of both policies, with the hits that it has alone."""
    heads, words, named = header.split(","), line.split(","), 2 if header == COMPARISONS else 1
    try:
        of = {head: number_of(word) for head, word in zip(heads[named:], words[named:], strict=True)
              if head not in ("rate", "queue") and (head, word) != ("marked", "")}
    except ValueError:
        refuse(f"{where}line {number} is no row of a report: {line}")
    begin, end = {SWEEP: ("capacity", "capacity"), COMPARISONS: ("from", "to")}.get(header, ("first", "last"))
    begin, end = of[begin] - (header != SWEEP), of[end]
    alone = [of[it] for it in (("first_only", "second_only") if header == COMPARISONS else ("hits",))]
    counted = sum(alone) + (of["both"] + of["neither"] if header == COMPARISONS else of["misses"])
    accesses = of["accesses"] if header == SWEEP else end - begin
    if counted != accesses:
        refuse(f"{where}line {number} has hits and misses that are not its accesses: {line}")
    if accesses == 0:
        refuse(f"{where}line {number} has no hit ratio, since it has no accesses: {line}")
    if header == INSIDE:
        return (left_rows if is_left else queue_rows)(where, number, line, of, begin)
    return [Row(number, policy, of["capacity"], begin, end, accesses, hits) for policy, hits in zip(words, alone)]


def queue_rows(where, number, line, of, begin):
    """The row of a queue, where numbers stand beside its keys."""
    policy, *_, queue, _, marked, _ = line.split(",")
    if not marked:
        return []
    if not of["marked"] <= of["held"] > 0:
        refuse(f"{where}line {number} has more keys that are marked than the queue holds, or none: {line}")
    return [Row(number, policy, of["capacity"], begin, of["last"], of["held"], of["marked"], queue)]


def left_rows(where, number, line, of, begin):
    """The row of a queue, where keys were evicted."""
    policy, *_, queue, _, _, _ = line.split(",")
    if of["left"] > of["evictions"]:
        refuse(f"{where}line {number} has more keys that left the queue than were evicted: {line}")
    if queue == "target" or not of["evictions"]:
        return []
    return [Row(number, policy, of["capacity"], begin, of["last"], of["evictions"], of["left"], queue)]


def rows_of(text, where, is_left=False):
    header, *_ = text.splitlines() or [""]
    if header not in HEADERS:
        refuse(f"{where}line 1 is not the header of a sweep: {SWEEP}")
    lines = [(number, line) for number, line in enumerate(text.splitlines(), 1) if line != header]
    rows = [row for number, line in lines for row in rows_of_line(where, number, line, header, is_left)]
    if not rows:
        refuse(f"{where}there are no reports in it")
    for row in rows:
        if header == SWEEP and row.accesses != rows[0].accesses:
            refuse(f"{where}line {row.line} is of a trace of {row.accesses} accesses and line {rows[0].line} of one of "
                   f"{rows[0].accesses}: give each trace a file of its own")
    refuse_hidden(rows, where, header != SWEEP)
    return rows, header


def refuse_hidden(rows, where, is_intervals):
    """Refuses two rows of one policy and capacity at the same place."""
    ordered = sorted(rows, key=lambda row: (row.policy, row.queue, row.capacity, row.begin, row.line))
    for row, other in zip(ordered, ordered[1:]):
        is_hidden = other.begin < row.end if is_intervals else True
        is_same = (row.policy, row.queue, row.capacity) == (other.policy, other.queue, other.capacity)
        if is_same and is_hidden:
            upper, lower = sorted((row.line, other.line))
            refuse(f"{where}line {lower} is of {row.policy} at {row.capacity} entries, as line {upper} is, and one "
                   "would hide the other: give each call a file of its own")


def estimated(row, inverse, accesses):
    """A row of a sample as that of the whole trace: as many times the misses and the capacity."""
    misses = min(accesses, (row.accesses - row.hits) * inverse)
    capacity = row.capacity * inverse
    return row._replace(capacity=capacity, begin=capacity, end=capacity, accesses=accesses, hits=accesses - misses)


def curves_of(rows, where, is_intervals, suffix, is_below):
    """A curve for each policy, for intervals also for each capacity and each queue.

    Points below Belady's policy are, of intervals, those of all accesses up to the end of each: in an interval of its
    own Belady's policy is no upper bound.
    """
    best = {(row.begin, row.end, row.capacity): row for row in rows if row.policy == OPTIMAL}
    capacities, curves, sums = {row.capacity for row in rows}, {}, {}
    for row in sorted(rows, key=lambda row: row.begin):
        height = 100 * row.hits / row.accesses
        if is_below:
            optimal = best.get((row.begin, row.end, row.capacity))
            if optimal is None:
                refuse(f"{where}line {row.line} has no row of {OPTIMAL} beside it: run that policy too")
            seen, lost = sums.get((row.policy, row.capacity), (0, 0)) if is_intervals else (0, 0)
            if is_intervals and seen != row.begin:
                refuse(f"{where}line {row.line} is of accesses from {row.begin + 1} on, and those from {seen + 1} on "
                       "are missing")
            seen, lost = seen + row.accesses, lost + optimal.hits - row.hits
            sums[row.policy, row.capacity] = seen, lost
            height = 100 * lost / seen
        is_several = is_intervals and len(capacities) > 1
        name = row.policy + f" {row.queue}" * bool(row.queue) + f" {row.capacity}" * is_several + suffix
        queues = list(dict.fromkeys(it.queue for it in rows if it.policy == row.policy))
        variant = (suffix, row.capacity if is_several else None, queues.index(row.queue))
        curves.setdefault((row.policy, name, variant), []).append((row.begin, row.end, height))
    order = list(dict.fromkeys(row.policy for row in rows))
    return [Curve(name, policy, variant, points) for (policy, name, variant), points
            in sorted(curves.items(), key=lambda it: order.index(it[0][0]))
            if not (is_below and policy == OPTIMAL)]
