"""Runs in Python over the accesses of a trace, side by side by processes, how far they are, and their bound."""
import contextlib
import heapq
import mmap
import os
import sys
import time
from collections import Counter
from functools import cached_property

# A run says after so many accesses how far it is, which a terminal shows as often as that in seconds.
STEP, SECONDS = 1 << 16, 0.2


class Accesses(list):
    """The keys of a trace. How many a run has gone through is counted in its place of what all processes see."""

    made, place = [0], 0

    def pieces(self):
        """The keys, so many at once."""
        for begin in range(0, len(self), STEP):
            yield (piece := self[begin:begin + STEP])
            self.count(len(piece))

    @classmethod
    def count(cls, accesses):
        cls.made[cls.place] += accesses

    def __iter__(self):
        for piece in self.pieces():
            yield from piece

    @cached_property
    def times(self):
        return Counter(super().__iter__())

    def certain_hits(self, capacity):
        """The hits of a cache that keeps the most frequent keys. Belady's policy has as many at least."""
        return sum(times - 1 for _, times in self.times.most_common(capacity))

    @cached_property
    def following(self):
        """For each access where its key comes next, as a number below 0, or 0 where it does not."""
        places, last, none = [0] * (len(self) + 1), {}, len(self)
        for at, key in enumerate(super().__iter__()):
            places[last.get(key, none)] = -at
            last[key] = at
        return places[:none]

    def fewest_misses(self, capacity):
        """The misses of Belady's policy, which may reject a key: no policy has fewer. It holds the keys that come next
        soonest, each known by that place, and none that does not come again."""
        held, farthest, room, misses = bytearray(len(self) + 1), [], capacity, 0
        for at, after in zip(range(0, -len(self), -1), self.following):
            room += held[at]
            misses += not held[at]
            if after and room:
                heapq.heappush(farthest, after)
                room, held[after] = room - 1, 1
            elif after and farthest[0] < after:
                held[heapq.heapreplace(farthest, after)] = 0
                held[after] = 1
        return misses


def side_by_side(call, jobs, what, accesses, processes=None):
    """What a call makes of each job, each in a process, as many at once as there are processors. All end before a fault
    of the first job that has one is raised. `accesses` is how many all of them make. A caller that says how many
    processes runs several of these at once, whose lines would stand in one another's place, so they have none."""
    # Here, since most calls of most scripts need none of it.
    from multiprocessing import connection, get_context

    waiting, running, found, begun = [*enumerate(jobs)], {}, {}, time.monotonic()
    # Of this call alone: a script may run others at the same time.
    context, made = get_context("fork"), memoryview(mmap.mmap(-1, 8 * len(jobs) + 8)).cast("Q")
    while len(found) < len(jobs):
        while waiting and len(running) < (processes or len(os.sched_getaffinity(0))):
            at, job = waiting.pop(0)
            reader, writer = context.Pipe(duplex=False)
            process = context.Process(target=answer, args=(call, job, made, at, writer), daemon=True)
            process.start()
            writer.close()
            running[reader] = at, process
        for reader in connection.wait([*running], SECONDS):
            at, process = running.pop(reader)
            with contextlib.closing(reader):
                found[at] = received(reader, what)
            process.join()
        if not processes:
            show_part(what, sum(made), accesses, time.monotonic() - begun)
    if not processes:
        show_part(what)
    answers = [found[at] for at in range(len(jobs))]
    if fault := next((it for it in answers if isinstance(it, Exception)), None):
        raise fault
    return answers


def received(reader, what):
    """What a process has sent, or a fault where it was ended."""
    try:
        return reader.recv()
    except EOFError:
        return ValueError(f"{what}: a process was ended, perhaps since memory ran out")


def answer(call, job, made, place, writer):
    """What a process does: its own output is the pipe alone, so what else prints has standard error."""
    os.dup2(2, 1)
    Accesses.made, Accesses.place = made, place
    try:
        found = call(job)
    except Exception as fault:
        found = fault
    with contextlib.suppress(BrokenPipeError):  # its caller was ended
        writer.send(found)


def show_part(what, made=0, accesses=0, seconds=0):
    """The line of a terminal that says how far runs are; none without accesses."""
    if sys.stderr.isatty():
        part = min(99, 100 * made // accesses) if accesses else 0
        shown = f"{what}: {part} % of accesses, {int(seconds) // 60}:{int(seconds) % 60:02}" if accesses else ""
        print(f"\r{shown}\x1b[K", end="", file=sys.stderr, flush=True)
