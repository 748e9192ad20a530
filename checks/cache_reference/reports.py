"""Reports: of each policy at each capacity, of each interval of a trace, and of two policies access by access."""
from collections import Counter
from itertools import islice
from operator import itemgetter

from .frequency import mix
from .options import DEFAULTS, opened
from .traces import ALL_BITS

HEADER = "policy,capacity,accesses,hits,misses,evictions,rejections,rate\n"
INTERVALS_HEADER = "policy,capacity,first,last,hits,misses,evictions,rejections,rate\n"
INSIDE_HEADER = INTERVALS_HEADER.replace("\n", ",queue,held,marked,left\n")
COMPARE_HEADER = "first,second,capacity,accesses,both,first_only,second_only,neither\n"
COMPARE_INTERVALS_HEADER = "first,second,capacity,from,to,both,first_only,second_only,neither\n"


def outcomes_of(policy, capacity, options, keys):
    return [*map(itemgetter(0), map(opened(policy, capacity, options, keys).access, keys))]


def counts_of(outcomes):
    """Hits, misses, evictions and rejections, of how often each outcome came."""
    hits, rejections = outcomes["hit"], outcomes["rejected"]
    return hits, outcomes.total() - hits, outcomes["evicted"] + rejections, rejections


def row(counts, *begin):
    """A row: how it begins, the counts, and the hit ratio."""
    hits, accesses = counts[0], counts[0] + counts[1]
    hundredths = hits * 10000 // accesses if accesses else 0
    return ",".join(map(str, [*begin, *counts])) + f",{hundredths // 100}.{hundredths % 100:02}\n"


def run(keys, policies, capacities, options=DEFAULTS):
    return HEADER + "".join(row(counts_of(Counter(outcomes_of(policy, capacity, options, keys))), policy, capacity, len(keys))
                            for policy in policies for capacity in capacities)


def lru_curve(keys, capacities):
    """The reports of Lru at each capacity. It hits where fewer other keys than it holds came since, so the keys in the order
    of their last accesses say it of all capacities at once."""
    recent, known, depths, rows = [], set(), Counter(), []
    for key in keys:
        if key in known:
            depths[len(recent) - recent.index(key)] += 1
            recent.remove(key)
        recent.append(key)
        known.add(key)
    for capacity in capacities:
        hits = sum(times for depth, times in depths.items() if depth <= capacity)
        misses = len(keys) - hits
        rows.append(row((hits, misses, max(0, misses - capacity), 0), "lru", capacity, len(keys)))
    return HEADER + "".join(rows)


def sweep(keys, policies, capacities, options=DEFAULTS):
    """The reports of `sweep`, those of Lru by its curve."""
    texts = [lru_curve(keys, capacities) if policy == "lru" else run(keys, [policy], capacities, options)
             for policy in policies]
    return HEADER + "".join(text.removeprefix(HEADER) for text in texts)


def intervals(keys, policies, every, capacity, options=DEFAULTS):
    """What each policy makes of each interval of so many accesses, by a cache that goes through the whole trace."""
    rows = []
    for policy in policies:
        outcomes = outcomes_of(policy, capacity, options, keys)
        for start in range(0, len(keys), every):
            piece = outcomes[start:start + every]
            rows.append(row(counts_of(Counter(piece)), policy, capacity, start + 1, start + len(piece)))
    return INTERVALS_HEADER + "".join(rows)


def cells_of(queue, keys):
    """A queue's name, how many keys it holds, or the size that is a target, and how many have a number above 0 beside them."""
    numbers = [int(number) for _, colon, number in (str(it).partition(":") for it in keys) if colon]
    return f"{queue},{keys[0] if queue == 'target' else len(keys)},{sum(it > 0 for it in numbers) if numbers else ''}"


def access_from(cache, key):
    """Makes an access, and gives the queue in which the key stood that left by it, if one did."""
    queues = {queue: [str(it).partition(":")[0] for it in keys] for queue, keys in cache.shown().items() if queue != "target"}
    gone = str(cache.access(key)[1])
    return next((queue for queue, keys in queues.items() if gone in keys), None)


def inside(keys, policies, every, capacity, options=DEFAULTS):
    """The rows of `intervals`, each once a queue, with what the queue holds at the end of the interval, and how many keys left
    it by the interval's accesses."""
    rows = []
    for policy in policies:
        cache, rest = opened(policy, capacity, options, keys), iter(keys)
        for counted in intervals(keys, [policy], every, capacity, options).splitlines()[1:]:
            left = Counter(access_from(cache, key) for key in islice(rest, every))
            rows += [f"{counted},{cells_of(*queue)},{left[queue[0]]}\n" for queue in cache.shown().items()]
    return INSIDE_HEADER + "".join(rows)


def hits_of(keys, first, second, capacity, options):
    return [*zip(*([it == "hit" for it in outcomes_of(policy, capacity, options, keys)] for policy in (first, second)))]


def part(keys, first, second, capacity, options=DEFAULTS):
    pairs = enumerate(hits_of(keys, first, second, capacity, options), 1)
    return f"part {next((number for number, (a, b) in pairs if a != b), 'none')}\n"


def compare(keys, first, second, capacity, options=DEFAULTS, every=None):
    """How many accesses hit in both, in the first, in the second, in neither; or those of each interval of so many."""
    pairs, rows = hits_of(keys, first, second, capacity, options), []
    for start in range(0, len(pairs), every) if every else [0]:
        piece = pairs[start:start + every] if every else pairs
        counts = Counter(piece)
        places = [start + 1, start + len(piece)] if every else [len(keys)]
        numbers = [*places, *(counts[pair] for pair in ((True, True), (True, False), (False, True), (False, False)))]
        rows.append(f"{first},{second},{capacity},{','.join(map(str, numbers))}\n")
    return (COMPARE_INTERVALS_HEADER if every else COMPARE_HEADER) + "".join(rows)


def sample(keys, inverse, seed):
    """All accesses to one block in so many, by its hash, and what is said of them."""
    kept = [it for it in keys if mix(it + (seed + 1) * 0x9E3779B97F4A7C15 & ALL_BITS) < (ALL_BITS + 1) // inverse]
    said = f"{len(kept)} of {len(keys)} accesses, {len(set(kept))} blocks: --sampled 1/{inverse} --accesses {len(keys)}\n"
    return "".join(f"{key}\n" for key in kept), said


def footprint(keys):
    counts = Counter(keys)
    return f"accesses,blocks,once\n{len(keys)},{len(counts)},{[*counts.values()].count(1)}\n"


def answer(command, keys, options):
    """What a command prints of these accesses, and says on standard error. Its options have policies and capacities too."""
    policies, capacity, pair = options.get("policies"), options.get("capacity"), (options.get("first"), options.get("second"))
    if command == "sample":
        return sample(keys, int(options["rate"].removeprefix("1/")), options["seed"])
    if command == "footprint":
        return footprint(keys), ""
    if command == "run":
        return run(keys, policies, [capacity], options), ""
    if command == "sweep":
        return sweep(keys, policies, options["capacities"], options), ""
    if command == "intervals":
        cut = inside if options.get("inside") else intervals
        return cut(keys, policies, options["every"], capacity, options), ""
    if command == "part":
        return part(keys, *pair, capacity, options), ""
    return compare(keys, *pair, capacity, options, options.get("every")), ""
