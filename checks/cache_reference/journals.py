"""Journals, and the debugger that replays one."""
from .concurrent_cache import Shell
from .debugger import Dialogue, events_of
from .traces import ALL_BITS, Fault
from .walks import journal

ACTS = {"look": "K", "offer": "SKN", "lose": "SKN", "put": "K", "remove": "K", "afterread": "A", "afterwrite": "", "begin": "",
        "drainread": "S", "drainwrite": "", "evict": "", "end": ""}
REPLIES = {
    "look": {"hit": "N", "miss": ""}, "offer": {"kept": "", "full": ""}, "lose": {"lost": ""},
    "put": {"added": "N", "present": "N", "writesfull": ""}, "remove": {"removed": "N", "absent": "", "writesfull": ""},
    "afterread": {"go": "", "drain": ""}, "afterwrite": {"go": "", "drain": ""}, "begin": {"began": "", "busy": ""},
    "drainread": {"drained": "KN", "empty": ""},
    "drainwrite": {"applied": "KN", "cleared": "KN", "empty": "", "enough": ""},
    "evict": {"shifted": "KN", "evicted": "KN", "rejected": "KN", "fits": ""},
    "end": {"idle": "", "again": "", "notyet": ""},
}
LARGEST = {"W": 63, "S": 255, "K": ALL_BITS, "N": ALL_BITS}


def is_field(kind, word):
    if kind == "A":
        return word in ("kept", "full", "lost")
    is_number = word.isascii() and word.isdigit() and (word == "0" or word[0] != "0")
    return is_number and int(word) <= LARGEST[kind]


def are_fields(kinds, words):
    return len(kinds) == len(words) and all(map(is_field, kinds, words))


def step_of(line, version):
    """Worker, act and reply of a journal's line, or None where it is outside the tables."""
    left, is_there, right = line.partition(" = ")
    worker, *act = left.split(" ")
    name, *words = act or [""]
    reply, *more = right.split(" ")
    is_known = is_there and name in ACTS and is_field("W", worker) and are_fields(ACTS[name], words)
    if not is_known or reply not in REPLIES[name] or not are_fields(REPLIES[name][reply], more):
        return None
    if version == 1 and (name == "remove" or reply == "cleared"):
        return None
    return int(worker), " ".join(act), right


class JournalTimeline:
    """The states along a journal, from the text of which it is read."""

    looks, odd, whole = {"show": 0}, "drop", "save"

    def __init__(self, data, capacity, stripes, limit, main, spread):
        self.opened = lambda: Shell(capacity, stripes, main, spread)
        self.shell, self.steps, self.lines, self.events, self.limit = self.opened(), [], [], [], limit
        self.read(data.decode("latin-1"))
        self.at = len(self.events)

    def read(self, text):
        header, *lines = text.split("\n")
        version = {"cachesim journal 1": 1, "cachesim journal 2": 2}.get(header)
        if version is None or not lines:
            raise Fault("Header")
        last = lines.pop()
        for number, line in enumerate(lines, 1):
            if version == 2 and line.startswith("steps ") and is_field("N", line[6:]):
                if int(line[6:]) != number - 1:
                    raise Fault("Count")
                if number < len(lines) or last:
                    raise Fault(f"Line step {number + 1}")
                return
            self.make(number, step_of(line, version), line)
        if last or version == 2:
            raise Fault("Unended")

    def make(self, number, step, line):
        if step is None:
            raise Fault(f"Line step {number}")
        if len(self.events) == self.limit:
            raise Fault(f"JournalFull step {number}")
        worker, act, wanted = step
        age, reply = self.shell.queues.frequency.age, self.shell.step(worker, act)
        if reply is None:
            raise Fault(f"NotNow step {number}")
        if reply != wanted:
            raise Fault(f"FalseReply step {number}")
        name, *words = reply.split(" ")
        hits = [int(act.split(" ")[1])] if name == "hit" else []
        left = [int(words[0])] if name in ("evicted", "rejected") else []
        is_halved = self.shell.queues.frequency.age < age
        self.events.append(events_of(hits, left, is_halved, ["drop"] * (name in ("full", "lost"))))
        self.lines.append(line)
        self.steps.append((worker, act))

    def look(self, at, _):
        shell = self.opened()
        for worker, act in self.steps[:at]:
            shell.step(worker, act)
        return shell.show()

    def whole_answer(self, at):
        return journal(self.lines[:at])


def replay(text, commands, capacity, stripes, limit, main, spread):
    return Dialogue(JournalTimeline(text, capacity, stripes, limit, main, spread)).answers(commands)
