"""Policies that ask a sketch, those under it, and Belady's. Queues are lists, oldest first. An access gives its outcome and
the key that left."""
from collections import defaultdict

from .demand_policies import Demand, Fifo
from .frequency import Frequency


class Lru(Fifo):
    """A hit moves to the recent end."""

    def hit(self, key):
        self.queue.remove(key)
        self.queue.append(key)


class SegmentedLru(Demand):
    """A hit moves to the protected part, whose oldest falls back to the probation part; the oldest key of that leaves."""

    names = "probation", "protected"

    def __init__(self, capacity):
        super().__init__(capacity)
        self.protected_size, self.probation, self.protected = capacity * 80 // 100, [], []

    def hit(self, item):
        (self.probation if item in self.probation else self.protected).remove(item)
        self.protected.append(item)
        if len(self.protected) > self.protected_size:
            self.probation.append(self.protected.pop(0))

    def miss(self, key, is_full):
        left = self.probation.pop(0) if is_full else None
        self.probation.append(key)
        return left

    def victim(self):
        return self.probation[0]

    def residents(self):
        return self.probation + self.protected


class TinyLfu:
    """A policy with an admission filter before it."""

    def __init__(self, inner, capacity, spread):
        self.inner, self.frequency = inner, Frequency(capacity, spread)
        self.residents, self.shown = inner.residents, inner.shown

    def access(self, key):
        self.frequency.record(key)
        is_new = key not in self.residents()
        if is_new and self.inner.is_full() and not self.frequency.admits(key, self.inner.victim()):
            return "rejected", key
        return self.inner.access(key)


class WindowQueues:
    """A window before a filtered segmented part; what is queued may be keys, or items of which `key` gives the key."""

    def __init__(self, capacity, main, spread, key=lambda item: item):
        size = capacity * main // 100
        self.capacity, self.window_size, self.key = capacity, capacity - size, key
        self.window, self.main, self.frequency = [], SegmentedLru(size), Frequency(capacity, spread)

    def hit(self, item):
        if item in self.window:
            self.window.remove(item)
            self.window.append(item)
        elif item in self.main.residents():
            self.main.hit(item)

    def evict(self):
        """One eviction: what became of it, and the item that moved or left."""
        if len(self.window) <= self.window_size:
            return "fits", None
        candidate = self.window.pop(0)
        self.main.probation.append(candidate)
        if len(self.residents()) <= self.capacity:
            return "shifted", candidate
        victim = self.main.victim()
        if candidate != victim and self.frequency.admits(self.key(candidate), self.key(victim)):
            self.main.probation.remove(victim)
            return "evicted", victim
        self.main.probation.remove(candidate)
        return "rejected", candidate

    def residents(self):
        return self.window + self.main.residents()


class WindowTinyLfu:
    def __init__(self, capacity, main, spread):
        self.queues = WindowQueues(capacity, main, spread)
        self.frequency, self.residents = self.queues.frequency, self.queues.residents

    def access(self, key):
        self.frequency.record(key)
        if key in self.residents():
            self.queues.hit(key)
            return "hit", None
        self.queues.window.append(key)
        outcome, left = self.queues.evict()
        return (outcome, left) if outcome in ("evicted", "rejected") else ("kept", None)

    def shown(self):
        return {"window": self.queues.window, **self.queues.main.shown()}


class Clairvoyant:
    frequency = None

    def __init__(self, capacity, keys):
        self.capacity, self.last, self.places = capacity, {}, defaultdict(list)
        for place, key in enumerate(keys):
            self.places[key].append(place)

    def distance(self, key):
        """Larger for a key that is to leave before another."""
        return (0, self.places[key][0]) if self.places[key] else (1, -self.last[key])

    def access(self, key):
        was_there = key in self.last
        self.last[key] = self.places[key].pop(0)
        if was_there or len(self.last) <= self.capacity:
            return ("hit" if was_there else "kept"), None
        leaver = max(self.last, key=self.distance)
        del self.last[leaver]
        return ("rejected" if leaver == key else "evicted"), leaver

    def residents(self):
        return sorted(self.last)

    def shown(self):
        """The residents, with the access at which each comes next, counted from 1; 0 where it never does."""
        return {"next": [f"{key}:{self.places[key][0] + 1 if self.places[key] else 0}" for key in self.residents()]}
