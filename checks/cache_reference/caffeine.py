"""W-TinyLFU whose window is moved by a hill climber, as the library Caffeine runs it, in whole numbers (its Design page,
and its class FrequencySketch, version 3)."""
from .frequency import Sketch
from .policies import WindowTinyLfu

PARTS_OF_AN_ITEM = 65536
MOVES_OF_AN_ACCESS = 1000


class FrequencySketch(Sketch):
    """Sixteen counters for each entry, and no doorkeeper. A recording that raises no counter does not make it older. At a
    halving a recording is taken off its period for each four counters that are odd; its age is half of what is left."""

    def __init__(self, capacity, spread):
        super().__init__(capacity, spread, columns=4)

    def record(self, key):
        if self.rise(key):
            self.grow_older()

    def halve(self):
        odd = sum(count % 2 for count in self.counters.values())
        super().halve()
        self.age = self.halved_age(odd // 4)

    def halved_age(self, lost):
        return max(0, self.period - lost) // 2


class Climber:
    """Finds the size of the window by trying. A period in which fewer keys hit than in the one before turns the direction;
    then the target moves by the step, which becomes smaller, but the first one again where the hit ratio changed by five
    points or more."""

    def __init__(self, capacity, size, largest, period):
        self.target, self.largest, self.period = size, largest, period
        self.first_step = self.step = PARTS_OF_AN_ITEM // 16 * capacity
        self.direction, self.accesses, self.hits, self.hits_before = -1, 0, 0, 0

    def access(self, is_hit):
        self.accesses += 1
        self.hits += is_hit
        if self.accesses == self.period:
            self.end_period()

    def end_period(self):
        if self.hits < self.hits_before:
            self.direction = -self.direction
        moved = self.target + self.direction * (self.step // PARTS_OF_AN_ITEM)
        self.target = min(self.largest, max(1, moved))
        is_steep = 20 * abs(self.hits - self.hits_before) >= self.period
        self.step = self.first_step if is_steep else self.step * 98 // 100
        self.accesses, self.hits, self.hits_before = 0, 0, self.hits


class Caffeine(WindowTinyLfu):
    """The window and the protected part share their entries, of which at most a thousand go over at an access."""

    def __init__(self, capacity, main, spread, period):
        super().__init__(capacity, main, spread)
        self.frequency = self.queues.frequency = FrequencySketch(capacity, spread)
        self.shared = self.queues.window_size + self.queues.main.protected_size
        period = 10 * capacity if period is None else max(period, capacity)
        self.climber = Climber(capacity, self.queues.window_size, self.shared, period)

    def access(self, key):
        outcome, left = super().access(key)
        self.climber.access(outcome == "hit")
        self.move_window()
        return outcome, left

    def resize(self, size):
        self.queues.window_size, self.queues.main.protected_size = size, self.shared - size

    def move_window(self):
        """The window goes to its target, an entry at a time."""
        missing = self.climber.target - self.queues.window_size
        for _ in range(min(abs(missing), MOVES_OF_AN_ACCESS)):
            self.widen() if missing > 0 else self.narrow()

    def widen(self):
        queues, main = self.queues, self.queues.main
        self.resize(queues.window_size + 1)
        if len(main.protected) > main.protected_size:
            main.probation.append(main.protected.pop(0))
        if len(main.residents()) > queues.capacity - queues.window_size:
            queues.window.append(main.probation.pop(0))

    def narrow(self):
        self.resize(self.queues.window_size - 1)
        if len(self.queues.window) > self.queues.window_size:
            self.queues.main.probation.append(self.queues.window.pop(0))
