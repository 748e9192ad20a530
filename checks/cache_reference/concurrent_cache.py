"""The concurrent cache. Acts and replies are texts, as a journal has them."""
from collections import Counter

from .debugger import items
from .policies import WindowQueues

BUFFERED = 16
TASKS = 128
STATISTICS = ("hits", "misses", "kept", "full", "lost", "added", "updated", "refused", "evictions", "rejections", "begun",
              "busy", "removed")
COUNTED = {"hit": ["hits"], "miss": ["misses"], "kept": ["kept"], "full": ["full"], "lost": ["lost"], "added": ["added"],
           "present": ["updated"], "writesfull": ["refused"], "evicted": ["evictions"],
           "rejected": ["evictions", "rejections"], "began": ["begun"], "busy": ["busy"], "removed": ["removed"]}


class Shell:
    def __init__(self, capacity, stripes, main, spread):
        self.queues = WindowQueues(capacity, main, spread, key=lambda item: item[0])
        self.table, self.next_node, self.stripes, self.writes = {}, 0, [[] for _ in range(stripes)], []
        self.drain, self.holder, self.phase, self.left = "idle", None, "", 0
        self.counts = Counter()

    def step(self, worker, act):
        """The reply to an act of a worker, or None where it may not come now."""
        name, *words = act.split(" ")
        reply = getattr(self, name)(worker, *map(lambda it: int(it) if it.isdigit() else it, words))
        if reply is not None:
            for name in COUNTED.get(reply.split(" ")[0], []):
                self.counts[name] += 1
        return reply

    def look(self, _, key):
        return f"hit {self.table[key]}" if key in self.table else "miss"

    def may_offer(self, stripe, node):
        return stripe < len(self.stripes) and node < self.next_node

    def offer(self, _, stripe, key, node):
        if not self.may_offer(stripe, node):
            return None
        if len(self.stripes[stripe]) == BUFFERED:
            return "full"
        self.stripes[stripe].append((key, node))
        return "kept"

    def lose(self, _, stripe, _key, node):
        return "lost" if self.may_offer(stripe, node) else None

    def put(self, _, key):
        if len(self.writes) == TASKS:
            return "writesfull"
        if key in self.table:
            self.writes.append(("update", (key, self.table[key])))
            return f"present {self.table[key]}"
        self.table[key] = self.next_node
        self.next_node += 1
        self.writes.append(("add", (key, self.table[key])))
        return f"added {self.table[key]}"

    def remove(self, _, key):
        if key not in self.table:
            return "absent"
        if len(self.writes) == TASKS:
            return "writesfull"
        node = self.table.pop(key)
        self.writes.append(("remove", (key, node)))
        return f"removed {node}"

    def afterread(self, _, answer):
        is_due = self.drain == "required" or self.drain == "idle" and answer == "full"
        return "drain" if is_due else "go"

    def afterwrite(self, _):
        reply = "drain" if self.drain in ("idle", "required") else "go"
        self.drain = {"idle": "required", "toidle": "torequired"}.get(self.drain, self.drain)
        return reply

    def begin(self, worker):
        if self.holder is not None:
            return "busy"
        self.holder, self.phase, self.left, self.drain = worker, "reads", TASKS, "toidle"
        return "began"

    def drainread(self, worker, stripe):
        if worker != self.holder or self.phase != "reads" or stripe >= len(self.stripes):
            return None
        if not self.stripes[stripe]:
            return "empty"
        item = self.stripes[stripe].pop(0)
        self.queues.frequency.record(item[0])
        self.queues.hit(item)
        return f"drained {item[0]} {item[1]}"

    def drainwrite(self, worker):
        if worker != self.holder or self.phase == "evictions":
            return None
        self.phase = "writes"
        if not self.writes:
            return "empty"
        if self.left == 0:
            return "enough"
        self.left -= 1
        task, item = self.writes.pop(0)
        if task == "remove":
            for queue in (self.queues.window, self.queues.main.probation, self.queues.main.protected):
                if item in queue:
                    queue.remove(item)
            return f"cleared {item[0]} {item[1]}"
        self.queues.frequency.record(item[0])
        if task == "add":
            self.queues.window.append(item)
        else:
            self.queues.hit(item)
        return f"applied {item[0]} {item[1]}"

    def evict(self, worker):
        if worker != self.holder:
            return None
        self.phase = "evictions"
        outcome, item = self.queues.evict()
        if outcome == "fits":
            return "fits"
        if outcome != "shifted" and self.table.get(item[0]) == item[1]:
            del self.table[item[0]]
        return f"{outcome} {item[0]} {item[1]}"

    def end(self, worker):
        if worker != self.holder:
            return None
        if len(self.queues.window) > self.queues.window_size:
            return "notyet"
        self.holder = None
        is_again = self.drain == "torequired"
        self.drain = "required" if is_again else "idle"
        return "again" if is_again else "idle"

    def show(self):
        def named(queue):
            return items(f"{key}:{node}" for key, node in queue)

        holder = "none" if self.holder is None else f"{self.holder} {self.phase} {self.left}"
        lines = [f"drain {self.drain}", f"holder {holder}", f"next {self.next_node}",
                 f"table{named(sorted(self.table.items()))}", f"window{named(self.queues.window)}",
                 f"probation{named(self.queues.main.probation)}", f"protected{named(self.queues.main.protected)}"]
        lines += [f"stripe {number}{named(buffer)}" for number, buffer in enumerate(self.stripes)]
        lines.append("writes" + "".join(f" {task}{named([item])}" for task, item in self.writes))
        lines.append(f"age {self.queues.frequency.age} halvings {self.queues.frequency.halvings}")
        lines.append(" ".join(f"{name} {self.counts[name]}" for name in STATISTICS))
        return "".join(line + "\n" for line in lines)
