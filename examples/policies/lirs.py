"""LIRS (Jiang and Zhang, SIGMETRICS 2002, section 3.3): blocks that come again after few other blocks are LIR blocks,
and stay; of the others, the HIR blocks, a few are resident, and one of these leaves."""
from collections import OrderedDict


class Lirs:
    """The stack has blocks in the order of their last accesses, the oldest first: from the oldest LIR block on, which
    is its bottom, all that came since, resident or not. The queue has the resident HIR blocks, the next to leave first;
    one percent of the cache is theirs, as in the paper, and one block at least. While there are fewer LIR blocks than
    there is room for, each new block becomes one."""

    def __init__(self, capacity):
        self.capacity, self.lir_size = capacity, capacity - max(1, capacity // 100)
        self.stack, self.queue, self.lir = OrderedDict(), OrderedDict(), set()

    def access(self, key):
        is_hit, left = key in self.lir or key in self.queue, None
        if not is_hit and len(self.lir) + len(self.queue) == self.capacity:
            left, _ = self.queue.popitem(last=False)  # in the stack it stays, if it is there
        if key not in self.lir:
            self.place(key)
        self.stack[key] = None
        self.stack.move_to_end(key)
        self.prune()
        if is_hit:
            return "hit", None
        return ("kept", None) if left is None else ("evicted", left)

    def place(self, key):
        """A block that is no LIR block becomes one if it is in the stack, else it goes to the end of the queue."""
        if key not in self.stack and len(self.lir) == self.lir_size:
            self.queue[key] = None
            self.queue.move_to_end(key)
            return
        self.queue.pop(key, None)
        if len(self.lir) == self.lir_size:
            bottom = next(iter(self.stack))
            self.lir.remove(bottom)
            self.queue[bottom] = None
        self.lir.add(key)

    def prune(self):
        """Takes HIR blocks away from the bottom of the stack."""
        while self.stack and next(iter(self.stack)) not in self.lir:
            self.stack.popitem(last=False)
