"""What tools/watch shows: the program's answers at a position, as values for its page. Which keys are where, what an
access did, and every count are the program's; here they are compared, and made fewer where they are too many."""
import re
from array import array
from bisect import bisect_left, bisect_right
from collections import defaultdict
from threading import Lock

from .pictures import shade_of
from .policies import OTHERS, POLICIES
from .sessions import next_stop, previous_stop, stops

# How many accesses are shown before and behind the position, how many keys of a queue one by one, and of a longer one
# how many at each end and in how many parts the rest; how many moves; how many lines of a block's life.
NEAR, CELLS, ENDS, PARTS, MOVES, LIVES = 12, 400, 20, 120, 12, 500
# In how many intervals the trace is cut at most, for the ground of the slider.
INTERVALS = 200
# How many positions' queues are kept, so that a step on or back asks for one only.
KEPT = 3
# The queues whose oldest block the filter compares with the one that comes.
FILTERED = "probation", "queue"


def every_of(accesses):
    """The length of an interval: 1, 2 or 5 at a power of ten."""
    return next(it for power in range(9) for it in (10 ** power, 2 * 10 ** power, 5 * 10 ** power)
                if it * INTERVALS >= accesses)


def styles_of(words):
    """How the two policies are drawn: by their colours, the second in a shade of its own where it is the first's."""
    kinds = [POLICIES.get(it.partition(":")[0], OTHERS[0]) for it in words]
    colours = [it.colour for it in kinds]
    if colours[0] == colours[1]:
        colours[1] = shade_of(colours[1], 0.6)
    dashes = ["" if it.dash == "1" else it.dash.strip("()") for it in kinds]
    return [{"name": name, "colour": colour, "dash": dash} for name, colour, dash in zip(words, colours, dashes)]


class TraceView:
    """Two policies over a trace, by `debug`."""

    def __init__(self, session, keys, facts, compare):
        self.session, self.keys, self.queues, self.compare = session, keys, {}, compare
        self.comparing, self.compared = Lock(), []
        self.facts = {**facts, "kind": "trace", "end": len(keys), "finds": ["parting", "halving"]}
        self.breakpoints = {"parting": "part", "halving": "halve"}

    def at(self, asked):
        return min(len(self.keys), asked["at"])

    def find(self, asked):
        look = next_stop if asked["forward"] else previous_stop
        with self.session.turn() as ask:
            return {"found": look(ask, self.at(asked), self.breakpoints[asked["what"]])}

    def ground(self, _):
        """The hits of both policies in each interval, and at how many accesses they part, by `compare`, which is called
        once, also where the page is open twice."""
        every = every_of(len(self.keys))
        with self.comparing:
            if not self.compared:
                self.compared = self.compare(every)
        rows = [list(map(int, line.split(",")[3:])) for line in self.compared]
        return {"every": every, "rows": [[end, both + first, both + second, first + second, end - begin + 1]
                                         for begin, end, both, first, second, _ in rows]}

    def life(self, asked):
        """What became of a block: its accesses, and the accesses at which it left."""
        number = int(asked["block"])
        block, own = str(number), [at for at, key in enumerate(self.keys, 1) if key == number]
        with self.session.turn() as ask:
            left, is_cut = stops(ask, [f"evict {block}"], LIVES)
            places = sorted({*left, *own[:LIVES]})[:LIVES]
            answers = ask(*(it for at in places for it in (f"goto {at}", "last")))[1::2]
        return {"block": block, "lines": [*map(line_of, answers)], "accesses": len(own),
                "is_cut": is_cut or len({*left, *own}) > len(places)}

    def queues_at(self, ask, at):
        """The queues of both policies."""
        if at not in self.queues:
            _, lines = ask(f"goto {at}", "queues")
            self.queues = dict([*self.queues.items()][1 - KEPT:])
            self.queues[at] = {side: [Queue(it) for it in lines if it.startswith(side)] for side in "ab"}
        return self.queues[at]

    def state(self, asked):
        at = self.at(asked)
        with self.session.turn() as ask:
            before, queues = self.queues_at(ask, at - 1) if at else None, self.queues_at(ask, at)
            _, last, show, window = ask(f"goto {at}", "last", "show", "window")
            block = last[0].split()[3] if at else None
            held = [set(line.split()[2:]) for line in show[1::2]]
            sides = [self.side(ask, number, block, held, before, queues, last, show, window) for number in (0, 1)]
        return {"at": at, "block": block, "from": max(0, at - NEAR),
                "near": [*map(str, self.keys[max(0, at - NEAR):at + NEAR])],
                "sides": sides}

    def side(self, ask, number, block, held, before, queues, last, show, window):
        letter, counts = "ab"[number], show[2 * number].split()[2:]
        outcome, other = outcome_of(last[1 + number]) if block else ("", None)
        moves = moves_of(before[letter], queues[letter]) if before else []
        new = {key for key, begin, end in moves if end}
        words = window[number].split()[2:]
        return {"outcome": outcome, "other": other, "counts": dict(zip(counts[::2], map(int, counts[1::2]))),
                "window": {} if words[1] == "none" else dict(zip(words[::2], words[1::2])),
                "moves": moves[:MOVES], "more": max(0, len(moves) - MOVES),
                "estimates": self.estimates(ask, number, block, other, before and before[letter]),
                "queues": [it.drawn(held[number], held[1 - number], new, block) for it in queues[letter]]}

    def estimates(self, ask, number, block, other, before):
        """What the filter takes as the frequency of the block that was accessed, of the one that left, and of that
        which was the oldest of probation, or of the only queue, before."""
        oldest = next((it.keys[0] for it in before or [] if it.keys and it.name in FILTERED), None)
        named = {"accessed": block, "left": other, "was oldest": oldest}
        answers = ask(*(f"estimate {key}" for key in named.values() if key))
        found = zip([it for it in named.items() if it[1]], (answer[number].split()[-1] for answer in answers))
        return [[what, key, estimate] for (what, key), estimate in found if estimate != "none"]


def outcome_of(line):
    """The outcome of an access, and the key that left for it, if one did."""
    _, _, outcome, *other = line.split()
    return outcome, other[0] if other else None


def line_of(answer):
    """What `last` answers: a position, the key that was accessed there, and both outcomes."""
    (_, at, _, key), *outcomes = answer[0].split(), *map(outcome_of, answer[1:])
    return [int(at), key, *outcomes]


class Queue:
    """A queue as `queues` prints it: its items, each a key and where it has one a number behind a colon."""

    def __init__(self, line):
        _, _, self.name, *self.items = line.split()
        self.has_numbers = bool(self.items) and ":" in self.items[0]
        self.keys = re.sub(":[0-9]+(?= |$)", "", line).split()[3:] if self.has_numbers else self.items
        self.all = frozenset(self.items)

    def drawn(self, held, held_there, new, block):
        """Its keys one by one with their numbers and what they are marked by, or both its ends and parts of a strip."""
        is_ghost = bool(self.keys) and self.keys[0] not in held

        def cells(part):
            return [self.cell(*it, is_ghost, held_there, new, block) for it in zip(self.items[part], self.keys[part])]

        shown = {"name": self.name, "length": len(self.keys)}
        if len(self.keys) <= CELLS:
            return {**shown, "cells": cells(slice(None))}
        bounds = [len(self.keys) * at // PARTS for at in range(PARTS + 1)]
        marked = {block, *new}
        parts = [self.part(slice(*it), is_ghost, held_there, marked) for it in zip(bounds, bounds[1:])]
        return {**shown, "first": cells(slice(ENDS)), "last": cells(slice(-ENDS, None)), "parts": parts}

    def cell(self, item, key, is_ghost, held_there, new, block):
        if self.name == "target":
            return [key, "", ""]
        place = "ghost" if is_ghost else "only" * (key not in held_there)
        marks = ["now" * (key == block), "new" * (key in new), place]
        return [key, item[len(key) + 1:], " ".join(filter(None, marks))]

    def part(self, part, is_ghost, held_there, marked):
        """How many keys a part has, how many of them are held here alone, have their number set, and are marked."""
        keys, only, numbers = self.keys[part], 0, 0
        if not is_ghost:
            only = len(keys) - sum(map(held_there.__contains__, keys))
        if self.has_numbers:
            numbers = len(keys) - f"{' '.join(self.items[part])} ".count(":0 ")
        return [len(keys), only, numbers, sum(map(marked.__contains__, keys))]


def moves_of(before, after):
    """Each key that is in another queue than before, that came, or is no longer known, with both queues."""
    pairs = [pair for pair in zip(before, after) if pair[0].name != "target"]
    olds = {it.partition(":")[0]: old.name for old, new in pairs for it in old.all - new.all}
    news = {it.partition(":")[0]: new.name for old, new in pairs for it in new.all - old.all}
    return [[key, olds.get(key), news.get(key)] for key in {**news, **olds} if olds.get(key) != news.get(key)]


class JournalView:
    """A concurrent run, by `replay` and the text of its journal."""

    FINDS = {"dropped read": "(offer|lose) .* = (full|lost)$", "turn at the maintenance": "begin = began$",
             "item that leaves": "evict = (evicted|rejected) ", "refused write": "(put|remove) .* = writesfull$",
             "worker turned away": "begin = busy$"}

    def __init__(self, session, steps, facts):
        self.session, self.steps = session, steps
        self.found = {name: [at for at, step in enumerate(steps, 1) if re.search(f"^[0-9]+ {pattern}", step)]
                      for name, pattern in self.FINDS.items()}
        self.by_worker = defaultdict(lambda: array("Q"))
        for at, step in enumerate(steps, 1):
            self.by_worker[int(step.partition(" ")[0])].append(at)
        self.facts = {**facts, "kind": "journal", "end": len(steps), "finds": [*self.FINDS]}

    def at(self, asked):
        return min(len(self.steps), asked["at"])

    def find(self, asked):
        places, at = self.found[asked["what"]], self.at(asked)
        place = bisect_right(places, at) if asked["forward"] else bisect_left(places, at) - 1
        return {"found": places[place] if 0 <= place < len(places) else None}

    def ground(self, _):
        """In each interval the looks that found their key, and the steps of the maintenance, by the journal's text."""
        every, rows = every_of(len(self.steps)), []
        for begin in range(0, len(self.steps), every):
            steps = self.steps[begin:begin + every]
            looks = [" = hit" in it for it in steps if " look " in it]
            kept = sum(bool(re.search(r" (begin|drainread|drainwrite|evict|end)\b", it)) for it in steps)
            rows.append([begin + len(steps), sum(looks), len(looks), kept, len(steps)])
        return {"every": every, "rows": rows}

    def life(self, asked):
        """The steps that name a key: as a word of their own behind the act, or before a node."""
        block = str(int(asked["block"]))
        named = re.compile(rf"(look|put|remove) {block} |(offer|lose) \d+ {block} |= \w+ {block} \d+$")
        lines = [[at, step] for at, step in enumerate(self.steps, 1) if named.search(step)]
        return {"block": block, "lines": lines[:LIVES], "is_cut": len(lines) > LIVES}

    def state(self, asked):
        at = self.at(asked)
        with self.session.turn() as ask:
            _, show = ask(f"goto {at}", "show")
        workers = [[number, self.step(places, bisect_right(places, at) - 1),
                    self.step(places, bisect_right(places, at))]
                   for number, places in sorted(self.by_worker.items())]
        return {"at": at, "from": max(0, at - NEAR), "near": self.steps[max(0, at - NEAR):at + NEAR],
                "workers": workers,
                "show": [self.cut(line.split(" ")) for line in show]}

    def step(self, places, index):
        return [places[index], self.steps[places[index] - 1]] if 0 <= index < len(places) else None

    @staticmethod
    def cut(words):
        """A line of `show`; of a long one both its ends, and how many words are left out."""
        if len(words) <= CELLS:
            return words
        return [*words[:ENDS + 1], None, str(len(words) - 1), *words[-ENDS:]]

