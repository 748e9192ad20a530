"""Policies that take in each key that is missed, count no keys, and evict one key at each miss of a full cache. Queues are
lists, oldest first. A ghost is a queue of keys that are not resident, remembered from when they left."""


class Demand:
    """What they have in common. A policy says what a hit does, which key leaves, and where a new one goes. Of the queues that
    it names, some have a number with each key."""

    frequency, names, numbered = None, ("queue",), ()

    def __init__(self, capacity):
        self.capacity, self.queue = capacity, []

    def access(self, key):
        if key in self.residents():
            self.hit(key)
            return "hit", None
        left = self.miss(key, self.is_full())
        return ("kept", None) if left is None else ("evicted", left)

    def is_full(self):
        return len(self.residents()) == self.capacity

    def residents(self):
        return self.queue

    def shown(self):
        """Each queue by its name, and what is printed of its keys."""
        return {name: [f"{key}:{self.number(key)}" if name in self.numbered else key for key in getattr(self, name)]
                for name in self.names}


def join_ghost(ghost, key, size):
    """A key joins a ghost, which forgets its oldest where it is over its size."""
    ghost.append(key)
    if len(ghost) > size:
        ghost.pop(0)


def leave_ghost(ghost, key):
    """Whether a ghost held a key, which leaves it."""
    was_there = key in ghost
    if was_there:
        ghost.remove(key)
    return was_there


class Fifo(Demand):
    """The oldest leaves; a hit moves nothing."""

    def hit(self, key):
        pass

    def miss(self, key, is_full):
        left = self.queue.pop(0) if is_full else None
        self.queue.append(key)
        return left

    def victim(self):
        return self.queue[0]


class Clock(Demand):
    """Second chance: each key has a reference bit, which an access sets, the first one too. The oldest key with a set bit
    goes to the recent end without it, in place of leaving."""

    numbered = ("queue",)

    def __init__(self, capacity):
        super().__init__(capacity)
        self.referenced = set()

    def number(self, key):
        return int(key in self.referenced)

    def hit(self, key):
        self.referenced.add(key)

    def miss(self, key, is_full):
        while is_full and self.queue[0] in self.referenced:
            self.referenced.remove(self.queue[0])
            self.queue.append(self.queue.pop(0))
        left = self.queue.pop(0) if is_full else None
        self.queue.append(key)
        self.referenced.add(key)
        return left


class Sieve(Demand):
    """A queue with a hand, which stands before the oldest key of `ahead`. A visited key that the hand passes stays in its
    place, no longer visited; the first other one leaves. Behind the newest key the hand begins again at the oldest."""

    names = numbered = "passed", "ahead"

    def __init__(self, capacity):
        super().__init__(capacity)
        self.passed, self.ahead, self.visited = [], [], set()

    def number(self, key):
        return int(key in self.visited)

    def hit(self, key):
        self.visited.add(key)

    def miss(self, key, is_full):
        left = None
        while is_full and left is None:
            one = self.ahead.pop(0)
            if one in self.visited:
                self.visited.remove(one)
                self.passed.append(one)
            else:
                left = one
            if not self.ahead:
                self.passed, self.ahead = [], self.passed
        self.ahead.append(key)
        return left

    def residents(self):
        return self.passed + self.ahead


class S3Fifo(Demand):
    """A small queue before a main one, with a ghost of what left the small one. A key that was hit twice in the small queue
    goes on to the main one, in which each hit spares it one turn; a key that the ghost has goes there at once."""

    names, numbered = ("small", "main", "ghost"), ("small", "main")

    def __init__(self, capacity, small=10):
        super().__init__(capacity)
        self.small_size = max(1, capacity * small // 100)
        self.main_size = capacity - self.small_size
        self.small, self.main, self.ghost, self.counts = [], [], [], {}

    def number(self, key):
        return self.counts[key]

    def hit(self, key):
        self.counts[key] = min(3, self.counts[key] + 1)

    def evict(self):
        while True:
            if len(self.main) > self.main_size or not self.small:
                key = self.main.pop(0)
                if self.counts[key] == 0:
                    return key
                self.counts[key] -= 1
                self.main.append(key)
            else:
                key = self.small.pop(0)
                if self.counts[key] < 2:
                    join_ghost(self.ghost, key, self.main_size)
                    return key
                self.main.append(key)

    def miss(self, key, is_full):
        was_ghost = leave_ghost(self.ghost, key)
        left = self.evict() if is_full else None
        (self.main if was_ghost else self.small).append(key)
        self.counts.pop(left, None)
        self.counts[key] = 0
        return left

    def residents(self):
        return self.small + self.main


class TwoQ(Demand):
    """A queue of new keys, in which a hit moves nothing, beside an Lru of keys that came back after they left it."""

    names = "a1in", "am", "a1out"

    def __init__(self, capacity, new=25, ghost=50):
        super().__init__(capacity)
        self.kin, self.kout = max(1, capacity * new // 100), max(1, capacity * ghost // 100)
        self.a1in, self.am, self.a1out = [], [], []

    def hit(self, key):
        if key in self.am:
            self.am.remove(key)
            self.am.append(key)

    def evict(self):
        if len(self.a1in) > self.kin or not self.am:
            left = self.a1in.pop(0)
            join_ghost(self.a1out, left, self.kout)
            return left
        return self.am.pop(0)

    def miss(self, key, is_full):
        was_ghost = leave_ghost(self.a1out, key)
        left = self.evict() if is_full else None
        (self.am if was_ghost else self.a1in).append(key)
        return left

    def residents(self):
        return self.a1in + self.am


class Targeted(Demand):
    """Keys that came once lately and keys that came more often, `t1` and `t2`, each with a ghost, `b1` and `b2`. A key that a
    ghost has moves the size `p` that `t1` is to have, in whole numbers."""

    names = "t1", "t2", "b1", "b2"

    def __init__(self, capacity):
        super().__init__(capacity)
        self.t1, self.t2, self.b1, self.b2, self.p = [], [], [], [], 0

    def aim(self, key):
        """The size moves by the ghost that holds a key."""
        if key in self.b1:
            self.p = min(self.capacity, self.p + max(1, len(self.b2) // len(self.b1)))
        else:
            self.p = max(0, self.p - max(1, len(self.b1) // len(self.b2)))

    def come_back(self, key):
        """A key that a ghost holds goes to the recent end of `t2`."""
        (self.b1 if key in self.b1 else self.b2).remove(key)
        self.t2.append(key)

    def known(self):
        return len(self.t1) + len(self.t2) + len(self.b1) + len(self.b2)

    def residents(self):
        return self.t1 + self.t2

    def shown(self):
        return {**super().shown(), "target": [self.p]}


class Arc(Targeted):
    """Both queues by the last access: a hit goes to the recent end of `t2`."""

    def hit(self, key):
        (self.t1 if key in self.t1 else self.t2).remove(key)
        self.t2.append(key)

    def replace(self, key):
        is_new = self.t1 and (len(self.t1) > self.p or len(self.t1) == self.p and key in self.b2)
        queue, ghost = (self.t1, self.b1) if is_new else (self.t2, self.b2)
        ghost.append(queue.pop(0))
        return ghost[-1]

    def miss(self, key, _):
        if key in self.b1 or key in self.b2:
            self.aim(key)
            left = self.replace(key)
            self.come_back(key)
            return left
        left = None
        if len(self.t1) + len(self.b1) == self.capacity:
            if len(self.t1) == self.capacity:
                left = self.t1.pop(0)
            else:
                self.b1.pop(0)
                left = self.replace(key)
        elif self.known() >= self.capacity:
            if self.known() == 2 * self.capacity:
                self.b2.pop(0)
            left = self.replace(key)
        self.t1.append(key)
        return left


class Car(Targeted):
    """Both queues as clocks: a hit sets its key's bit, and moves nothing."""

    numbered = "t1", "t2"

    def __init__(self, capacity):
        super().__init__(capacity)
        self.referenced = set()

    def number(self, key):
        return int(key in self.referenced)

    def hit(self, key):
        self.referenced.add(key)

    def replace(self):
        while True:
            queue, ghost = (self.t1, self.b1) if len(self.t1) >= max(1, self.p) else (self.t2, self.b2)
            key = queue.pop(0)
            if key not in self.referenced:
                ghost.append(key)
                return key
            self.referenced.remove(key)
            self.t2.append(key)

    def forget(self):
        if len(self.t1) + len(self.b1) == self.capacity:
            self.b1.pop(0)
        elif self.known() == 2 * self.capacity:
            self.b2.pop(0)

    def miss(self, key, is_full):
        is_new = key not in self.b1 and key not in self.b2
        left = self.replace() if is_full else None
        if is_full and is_new:
            self.forget()
        if is_new:
            self.t1.append(key)
        else:
            self.aim(key)
            self.come_back(key)
        return left


# How each is opened: of a capacity, the options of a call, and the keys to come.
POLICIES = {
    "fifo": lambda capacity, *_: Fifo(capacity),
    "clock": lambda capacity, *_: Clock(capacity),
    "sieve": lambda capacity, *_: Sieve(capacity),
    "s3-fifo": lambda capacity, options, _: S3Fifo(capacity, options["small"]),
    "2q": lambda capacity, options, _: TwoQ(capacity, options["in"], options["out"]),
    "arc": lambda capacity, *_: Arc(capacity),
    "car": lambda capacity, *_: Car(capacity),
}
