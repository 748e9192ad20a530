"""What `best` of tools/survey names at a capacity: the policies that are as good as the best one there, in the order of
what they cost at worst, there and at the capacities beside it."""
import math
from collections import namedtuple

from .policies import CAFFEINE, OPTIMAL, WINDOWED, has_sketch

# What is named: as it is typed, by its rows' name, and how many percent more misses than the best it has at worst.
Choice = namedtuple("Choice", "name key worst")


def choices_of(trace, rows):
    """The choices at each capacity of these rows."""
    places = sorted({capacity for _, capacity in rows})
    keys = [key for key, capacity in rows if capacity == places[0] and key != OPTIMAL]
    more = [more_misses({key: rows[key, place] for key in keys}) for place in places] if keys else []
    found = {}
    for at, (place, _) in enumerate(zip(places, more)):
        worst = {key: max(it[key] for it in more[max(0, at - 1):at + 2]) for key in keys}
        good = sorted(nearly_best(trace, [(key, rows[key, place]) for key in keys]), key=lambda it: worst[it[0]])
        found[place] = [Choice(typed(key, trace.options.main), key, worst[key]) for key, _ in good]
    return found


def typed(key, main):
    """How a policy is typed where --main has this value."""
    return f"{key} --main {main}" if key == WINDOWED or key == CAFFEINE and main != "99" else key


def more_misses(rows):
    """How many percent more misses than the fewest each row has."""
    misses = {key: row.misses for key, row in rows.items()}
    least = min(misses.values())
    return {key: 100 * (it - least) / least if least else math.inf * (it > 0) for key, it in misses.items()}


def nearly_best(trace, rows):
    """Those of named rows that are as good as the one with the most hits, from that one on."""
    rows = sorted(rows, key=lambda it: -it[1].hits)
    return [(key, row) for key, row in rows if is_as_good(trace, row, rows[0][1])]


def is_as_good(trace, row, best):
    """Whether a row is within half a point of the best one and has at most 5 percent more misses: near 100 percent half
    a point is much of the misses. Of a sample it is two points where a sketch is in play, whose errors differ."""
    is_rough = trace.whole and (has_sketch(row.policy) or has_sketch(best.policy))
    is_close = (best.hits - row.hits) * (50 if is_rough else 200) <= row.accesses
    return is_close and (row.misses - best.misses) * 20 <= best.misses


def middles_of(choices):
    """The capacities in the middle of two neighbouring ones of which one's first choice is none of the other's."""
    places, keys = sorted(choices), {place: [it.key for it in found] for place, found in choices.items()}
    apart = [(low, high) for low, high in zip(places, places[1:])
             if keys[low][0] not in keys[high] or keys[high][0] not in keys[low]]
    return [middle for low, high in apart if low < (middle := math.isqrt(low * high)) < high]
