"""What tools/corpus reports: how many percent fewer misses than a baseline a policy has, as a table and as pictures."""
import statistics
from collections import namedtuple
from fractions import Fraction

from .own import in_legend
from .pictures import ends_around, marks_of, quoted, terminal_of
from .policies import OPTIMAL, POLICIES, styled

NOTE = """(percent of misses fewer than {baseline} has, over the traces; P50: the median, between two traces linearly)
(best on: so many traces; near on: within half a point of the best hit ratio there and 5 % of its misses; clairvoyant \
is left out)
"""
# The colours of the sizes in a scatter.
COLOURS = [POLICIES[it].colour for it in "lru wtinylfu tinylfu-lru tinylfu-slru slru clock arc sieve".split()]

# Of one policy at one size: its part of the misses fewer for each trace, and on how many it is the best, or near to it.
Column = namedtuple("Column", "percent policy parts best near")


def columns_of(results, settings, baseline):
    """A column for each size and policy, of the traces that have one at that size."""
    for percent in settings["percents"]:
        traces = [(it["misses"][percent], it["accesses"]) for it in results if percent in it["misses"]]
        lowest = [min(count for policy, count in misses.items() if policy != OPTIMAL or len(misses) == 1)
                  for misses, _ in traces]
        for policy in settings["policies"]:
            counts = [(misses[policy], low, accesses) for (misses, accesses), low in zip(traces, lowest)]
            # The baseline has misses: a trace has a first access.
            parts = [Fraction(100 * (misses[baseline] - misses[policy]), misses[baseline]) for misses, _ in traces]
            best, near = sum(count <= low for count, low, _ in counts), sum(is_near(*it) for it in counts)
            yield Column(percent, policy, parts, best, near)


def is_near(misses, lowest, accesses):
    """Whether the hit ratio is within half a point of the best one, with at most 5 percent more misses."""
    return 200 * (misses - lowest) <= accesses and 20 * (misses - lowest) <= lowest


def percentiles_of(parts):
    """From the lowest, the 0th, to the highest, the 100th; between two neighbours they go linearly."""
    cuts = statistics.quantiles(parts if len(parts) > 1 else parts * 2, n=20, method="inclusive")
    return [cuts[at] for at in (1, 4, 9, 14, 17)]


def table_of(columns):
    yield "% of footprint", "policy", "traces", "mean", "P10", "P25", "P50", "P75", "P90", "best on", "near on"
    for it in columns:
        if it.parts:
            numbers = [statistics.mean(it.parts), *percentiles_of(it.parts)]
            wins = ("-", "-") if it.policy == OPTIMAL else (str(it.best), str(it.near))
            shown = (f"{float(round(number, 2)):.2f}" for number in numbers)
            yield it.percent, it.policy, str(len(it.parts)), *shown, *wins


def axis_of(name, numbers):
    """The range and the marks of an axis around these numbers and 0."""
    low, high = min(0, *numbers), max(0, *numbers)
    low, high = ends_around(low, max(high, low + 1))
    marks = ", ".join(f"'{it:.10g}' {it}" for it in marks_of(low, high, 0.05))
    return [f"set {name}range [{low}:{high}]", f"set {name}tics nomirror ({marks})"]


def frame_of(title, is_png):
    return [terminal_of(is_png), f"set title {quoted(title)}",
            "set key outside right center reverse Left samplen 2 spacing 1.3",
            "set grid ytics linecolor rgb '#dddddd' linetype 1", "set border 3"]


def boxes_of(columns, baseline, is_png):
    """For gnuplot: boxes from P25 to P75 with the median, whiskers to P10 and P90, and a dot for the mean."""
    drawn = [it for it in columns if it.parts and it.policy != baseline]
    policies, percents = (list(dict.fromkeys(it)) for it in zip(*((it.policy, it.percent) for it in drawn)))
    wide = len(policies) + 1
    rows = {(it.policy, it.percent): [float(part) for part in (*percentiles_of(it.parts), statistics.mean(it.parts))]
            for it in drawn}
    for at, policy in enumerate(policies):
        yield f"$policy{at} << END"
        yield from (f"{percents.index(percent) * wide + at} {' '.join(f'{number:.6f}' for number in row)}"
                    for (name, percent), row in rows.items() if name == policy)
        yield "END"
    traces = max(len(it.parts) for it in drawn)
    yield from frame_of(f"Misses fewer than {baseline}\nP10, P25, P50, P75, P90 and mean of {traces} traces", is_png)
    yield from axis_of("y", [number for row in rows.values() for number in row])
    yield f"set ylabel {quoted(f'% of misses fewer than {baseline}')}"
    # The text of a mark is a format.
    names = (f"{quoted(f'{it} %% of the footprint')} {at * wide + (wide - 2) / 2}" for at, it in enumerate(percents))
    yield from (f"set xtics nomirror scale 0 ({', '.join(names)})", f"set xrange [-1:{len(percents) * wide - 1}]",
                "set boxwidth 0.7", "set style fill solid 0.4")
    boxes = ", \\\n    ".join(box_of(at, it, styled(policies)[it].colour) for at, it in enumerate(policies))
    yield f"plot 0 linecolor rgb '#888888' notitle, \\\n    {boxes}"


def box_of(at, policy, colour):
    colour = f"linecolor rgb '{colour}'"
    return (f"$policy{at} using 1:3:2:6:5 with candlesticks whiskerbars 0.5 {colour} "
            f"title {quoted(in_legend(policy, policy))}, "
            f"$policy{at} using 1:4:4:4:4 with candlesticks linewidth 2 {colour} notitle, "
            f"$policy{at} using 1:7 with points pointtype 7 pointsize 0.6 linecolor rgb 'black' notitle")


def scatter_of(columns, baseline, pair, is_png):
    """For gnuplot: a point for each trace and size, by what two policies have fewer."""
    parts = {(it.percent, it.policy): [float(part) for part in it.parts] for it in columns if it.parts}
    percents = list(dict.fromkeys(percent for percent, _ in parts))
    for at, percent in enumerate(percents):
        points = zip(*(parts[percent, policy] for policy in pair))
        yield from (f"$size{at} << END", *(f"{x:.6f} {y:.6f}" for x, y in points), "END")
    yield from frame_of(f"Misses fewer than {baseline}\neach point a trace; above the line {pair[1]} has fewer", is_png)
    for axis, policy in zip("xy", pair):
        yield from axis_of(axis, [it for (_, name), numbers in parts.items() if name == policy for it in numbers])
        yield f"set {axis}label {quoted(f'{policy}: % of misses fewer than {baseline}')}"
    points = [f"$size{at} with points pointtype {at % 12 + 4} linecolor rgb '{COLOURS[at % len(COLOURS)]}' "
              f"title {quoted(f'{percent} % of the footprint')}" for at, percent in enumerate(percents)]
    yield "plot x linecolor rgb '#888888' notitle, \\\n    " + ", \\\n    ".join(points)
