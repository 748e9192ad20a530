"""Walks: what a worker does to access a key."""
from .concurrent_cache import BUFFERED, Shell
from .traces import Fault


def round_of(worker, stripes):
    """The acts of a round of maintenance; each `yield` gives the reply."""
    if (yield "begin") == "busy":
        return
    for stripe in range(stripes):
        for _ in range(BUFFERED):
            if (yield f"drainread {stripe}") == "empty":
                break
    while (yield "drainwrite").split(" ")[0] in ("applied", "cleared"):
        pass
    while (yield "evict") != "fits":
        pass
    yield "end"


def walk(worker, stripes, key):
    looked = (yield f"look {key}").split(" ")
    if looked[0] == "hit":
        answer = yield f"offer {worker % stripes} {key} {looked[1]}"
        is_due = (yield f"afterread {answer}") == "drain"
    else:
        is_due = (yield f"put {key}") == "writesfull" or (yield "afterwrite") == "drain"
    if is_due:
        yield from round_of(worker, stripes)


def journal(lines):
    return "cachesim journal 2\n" + "".join(line + "\n" for line in lines) + f"steps {len(lines)}\n"


class Worker:
    """What a worker has still to do: the rest of a walk, and the keys of the walks to come."""

    def __init__(self, number, stripes, keys):
        self.number, self.stripes, self.keys, self.walk = number, stripes, iter(keys), iter(())
        self.act = self.next_act(None)

    def next_act(self, reply):
        """The act after a reply, or None at the end of the last walk."""
        try:
            return self.walk.send(reply) if reply else next(self.walk)
        except StopIteration:
            key = next(self.keys, None)
        if key is None:
            return None
        self.walk = walk(self.number, self.stripes, key)
        return next(self.walk)


def drive_alone(keys, capacity, stripes, limit, main, spread):
    """The journal of one worker, who alone can make but one."""
    shell, lines, worker = Shell(capacity, stripes, main, spread), [], Worker(0, stripes, keys)
    while worker.act:
        if len(lines) == limit:
            raise Fault("JournalFull", journal(lines))
        reply = shell.step(0, worker.act)
        lines.append(f"0 {worker.act} = {reply}")
        worker.act = worker.next_act(reply)
    return journal(lines)


def steps_of(lines):
    """The steps of a journal that is whole: worker, act and reply."""
    if next(lines, None) != "cachesim journal 2\n":
        raise Fault("the header is not that of a journal of version 2")
    count = 0
    for line in lines:
        if line.startswith("steps "):
            if line != f"steps {count}\n" or next(lines, None) is not None:
                raise Fault("the count at the end is not that of the lines")
            return
        worker, step = line.rstrip("\n").split(" ", 1)
        act, _, reply = step.partition(" = ")
        count += 1
        yield int(worker), act, reply
    raise Fault("the journal has no end")


def check_walks(lines, keys, workers, shell):
    """Whether all workers made the walks of their keys, in the lines of a journal of a cache that was empty. A fault is
    raised where a step is not of its worker's walks, or its reply not that of the cache."""
    team = [Worker(number, len(shell.stripes), keys[number::workers]) for number in range(workers)]
    for number, (worker, act, reply) in enumerate(steps_of(lines), 1):
        if worker >= workers:
            raise Fault(f"step {number}: there is no worker {worker}")
        if act != team[worker].act:
            raise Fault(f"step {number}, worker {worker}: {act} where {team[worker].act} is right")
        right = shell.step(worker, act)
        if reply != right:
            raise Fault(f"step {number}: {act} is answered by {reply} where {right} is right")
        team[worker].act = team[worker].next_act(reply)
    return all(it.act is None for it in team)
