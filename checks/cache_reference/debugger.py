"""The debugger of two policies. A timeline has what each step from one position to the next did, and says what `show`, or
a command like it, prints at each."""
from collections import Counter

from .caffeine import Caffeine
from .options import DEFAULTS, opened
from .policies import WindowTinyLfu
from .reports import counts_of
from .traces import BLANKS, Fault, keys_of, number_of

MAX_COMMANDS = 2**20
MAX_BREAKPOINTS = 64


def events_of(hits, left, is_halved, odd):
    """What a step did, as the breakpoints that it meets."""
    return {*(("hit", it) for it in hits), *(("evict", it) for it in left), *[("halve",)] * is_halved, *((it,) for it in odd)}


def items(list_of_items):
    return "".join(f" {it}" for it in list_of_items)


class Side:
    """One of the two policies of a debugger, after some accesses."""

    def __init__(self, letter, policy, capacity, options, keys):
        self.name, self.outcomes, self.last_outcome = f"{letter} {policy}", Counter(), ()
        self.cache = opened(policy, capacity, options, keys)

    def access(self, key):
        """Whether the access is a hit, the key that left, and whether counters were halved."""
        age = self.age()
        outcome, left = self.last_outcome = self.cache.access(key)
        self.outcomes[outcome] += 1
        return outcome == "hit", left, self.age() < age

    def age(self):
        return self.cache.frequency.age if self.cache.frequency else 0

    def show(self):
        counts = zip(("hits", "misses", "evictions", "rejections"), counts_of(self.outcomes))
        counted = " ".join(f"{it}" for pair in counts for it in pair)
        return f"{self.name} {counted}\n{self.name[0]} holds{items(self.cache.residents())}\n"

    def window(self):
        size = self.cache.queues.window_size if isinstance(self.cache, WindowTinyLfu) else "none"
        target = f" target {self.cache.climber.target}" if isinstance(self.cache, Caffeine) else ""
        return f"{self.name} window {size}{target}\n"

    def queues(self):
        return "".join(f"{self.name} {queue}{items(keys)}\n" for queue, keys in self.cache.shown().items())

    def last(self):
        return f"{self.name} {' '.join(str(it) for it in self.last_outcome if it is not None)}\n"

    def estimate(self, key):
        return f"{self.name} estimate {self.cache.frequency.estimate(key) if self.cache.frequency else 'none'}\n"


class PolicyTimeline:
    # The commands that only look, each with how many numbers follow it.
    looks = {"show": 0, "window": 0, "queues": 0, "last": 0, "estimate": 1}
    odd, whole, at = "part", "part", 0

    def __init__(self, keys, first, second, capacity, options):
        self.keys = keys
        self.opened = lambda: [Side("a", first, capacity, options, keys), Side("b", second, capacity, options, keys)]
        self.sides, self.accesses = self.opened(), 0
        self.events = [self.event(key) for key in keys]

    def event(self, key):
        (a_hit, a_left, a_halved), (b_hit, b_left, b_halved) = (side.access(key) for side in self.sides)
        self.accesses += 1
        hits, left = [key] if a_hit or b_hit else [], [it for it in (a_left, b_left) if it is not None]
        return events_of(hits, left, a_halved or b_halved, ["part"] * (a_hit != b_hit))

    def look(self, at, name, *numbers):
        if at < self.accesses:
            self.sides, self.accesses = self.opened(), 0
        for key in self.keys[self.accesses:at]:
            self.event(key)
        if name == "last" and at == 0:
            return "access none\n"
        begin = f"access {at} block {self.keys[at - 1]}\n" if name == "last" else ""
        return begin + "".join(getattr(side, name)(*numbers) for side in self.sides)

    def whole_answer(self, _):
        parts = [number for number, event in enumerate(self.events, 1) if ("part",) in event]
        return f"part {parts[0]}\n" if parts else "part none\n"


class Dialogue:
    """The answers to commands, the state being a position of a timeline and a list of breakpoints."""

    def __init__(self, timeline):
        self.timeline, self.at, self.breakpoints = timeline, timeline.at, []
        self.end = len(timeline.events)

    def answers(self, data):
        printed, read = "", 0
        for line in data.split(b"\n"):
            read = min(read + len(line) + 1, len(data))
            if read > MAX_COMMANDS:
                raise Fault("TooLarge", printed)
            words = [it for it in line.strip(BLANKS).split(b" ") if it]
            if words == [b"quit"]:
                break
            if words:
                printed += self.answer(words)
        return printed

    def answer(self, words):
        name, numbers = words[0].decode(errors="replace"), list(map(number_of, words[1:]))
        if name in ("step", "back", "goto") and len(words) == 2 and numbers[0] is not None:
            return self.move(name, numbers[0])
        if name == "break":
            return self.set_breakpoint(words[1:])
        if self.timeline.looks.get(name) == len(numbers) and None not in numbers:
            return self.timeline.look(self.at, name, *numbers)
        alone = {"run": self.run, "clear": self.clear, self.timeline.whole: lambda: self.timeline.whole_answer(self.at)}
        return alone[name]() if len(words) == 1 and name in alone else "fault: Command\n"

    def move(self, name, number):
        to = {"step": self.at + number, "back": self.at - number, "goto": number}[name]
        if not 0 <= to <= self.end:
            return "fault: PastStart\n" if to < 0 else "fault: PastEnd\n"
        self.at = to
        return f"at {to}\n"

    def set_breakpoint(self, words):
        kinds = [it.decode(errors="replace") for it in words]
        if len(kinds) == 2 and kinds[0] in ("hit", "evict") and number_of(words[1]) is not None:
            breakpoint = kinds[0], number_of(words[1])
        elif len(kinds) == 1 and kinds[0] in ("halve", self.timeline.odd):
            breakpoint = (kinds[0],)
        else:
            return "fault: Command\n"
        if len(self.breakpoints) == MAX_BREAKPOINTS:
            return "fault: Breaks\n"
        self.breakpoints.append(breakpoint)
        return "ok\n"

    def run(self):
        if self.at == self.end:
            return "fault: PastEnd\n"
        while self.at < self.end:
            self.at += 1
            held = [it for it in self.breakpoints if it in self.timeline.events[self.at - 1]]
            if held:
                return f"stop {held[0][0]}\nat {self.at}\n"
        return f"end\nat {self.at}\n"

    def clear(self):
        self.breakpoints = []
        return "ok\n"


def debug(trace, commands, form, first, second, capacity, options=DEFAULTS):
    return Dialogue(PolicyTimeline(keys_of(form, trace), first, second, capacity, options)).answers(commands)
