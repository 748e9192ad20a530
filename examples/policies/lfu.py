"""LFU, least frequently used: the block with the fewest accesses leaves, of several the one whose last access is
oldest. Counts are of the time in the cache: a block that comes back begins with one."""
from collections import OrderedDict, defaultdict


class Lfu:
    """The blocks of each count in the order of their last accesses."""

    def __init__(self, capacity):
        self.capacity, self.counts, self.blocks, self.least = capacity, {}, defaultdict(OrderedDict), 0

    def access(self, key):
        if key in self.counts:
            self.count(key)
            return "hit", None
        left = self.evict() if len(self.counts) == self.capacity else None
        self.counts[key] = self.least = 1
        self.blocks[1][key] = None
        return ("kept", None) if left is None else ("evicted", left)

    def count(self, key):
        count = self.counts[key]
        del self.blocks[count][key]
        if not self.blocks[count]:
            del self.blocks[count]
            self.least += count == self.least
        self.counts[key] += 1
        self.blocks[count + 1][key] = None

    def evict(self):
        left, _ = self.blocks[self.least].popitem(last=False)
        del self.counts[left]
        return left
