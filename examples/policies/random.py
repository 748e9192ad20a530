"""Random replacement: any block leaves, each as likely as another. What is below it does worse than chance."""
from random import Random


class AnyBlock:
    """The random numbers are those of one seed, so that a report can be had again."""

    name = "random"

    def __init__(self, capacity):
        self.capacity, self.blocks, self.places, self.random = capacity, [], {}, Random(capacity)

    def access(self, key):
        if key in self.places:
            return "hit", None
        place, left = len(self.blocks), None
        if place < self.capacity:
            self.blocks.append(key)
        else:
            place = self.random.randrange(self.capacity)
            left, self.blocks[place] = self.blocks[place], key
            del self.places[left]
        self.places[key] = place
        return ("kept", None) if left is None else ("evicted", left)
