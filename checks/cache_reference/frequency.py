"""How often keys came: a doorkeeper before a Count-Min sketch with conservative halving."""
from collections import defaultdict
from functools import lru_cache

from .traces import ALL_BITS


def mix(z):
    z = (z ^ z >> 30) * 0xBF58476D1CE4E5B9 & ALL_BITS
    z = (z ^ z >> 27) * 0x94D049BB133111EB & ALL_BITS
    return z ^ z >> 31


@lru_cache(1 << 20)
def column(spread, key, row, width, seed):
    if spread == "mixed":
        return mix(key + (row + seed) * 0x9E3779B97F4A7C15 & ALL_BITS) % width
    return (key % width + row * (key // width % width)) % width


def power_of_two(least):
    power = 1
    while power < least:
        power *= 2
    return power


class Sketch:
    """A Count-Min sketch of four rows, with so many columns for each entry. A counter stays at 15."""

    def __init__(self, capacity, spread, columns):
        self.spread, self.period = spread, 10 * capacity
        self.width = columns * power_of_two(max(16, capacity))
        self.counters, self.age, self.halvings = defaultdict(int), 0, 0

    def places(self, key):
        return [(row, column(self.spread, key, row, self.width, 1)) for row in range(4)]

    def rise(self, key):
        """Whether one of the key's counters rises."""
        rising = [place for place in self.places(key) if self.counters[place] < 15]
        for place in rising:
            self.counters[place] += 1
        return bool(rising)

    def grow_older(self):
        self.age += 1
        if self.age == self.period:
            self.halve()

    def halve(self):
        self.age //= 2
        self.halvings += 1
        self.counters = defaultdict(int, {place: count // 2 for place, count in self.counters.items()})

    def estimate(self, key):
        return min(self.counters.get(place, 0) for place in self.places(key))

    def admits(self, candidate, victim):
        return self.estimate(candidate) > self.estimate(victim)


class Frequency(Sketch):
    """A doorkeeper before a sketch: a key's counters rise once it is known. Every recording makes it older."""

    def __init__(self, capacity, spread):
        super().__init__(capacity, spread, columns=1)
        self.bits, self.door = power_of_two(max(64, 8 * capacity)), set()

    def probes(self, key):
        return {column(self.spread, key, probe, self.bits, 5) for probe in range(3)}

    def record(self, key):
        probes = self.probes(key)
        if probes <= self.door:
            self.rise(key)
        self.door |= probes
        self.grow_older()

    def halve(self):
        super().halve()
        self.door = set()

    def estimate(self, key):
        return super().estimate(key) + (self.probes(key) <= self.door)
