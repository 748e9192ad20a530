"""A session of `cachesim debug` or `cachesim replay` behind a script, and what is read out of its answers."""
import contextlib
import subprocess
import threading

# A word that is no command, and its answer, which ends the answer to a command.
NO_COMMAND, END = ".", "fault: Command"
# A session takes 2^20 bytes of commands: after half of them another process takes its place. So many bytes are written
# at once, which a pipe holds.
RENEWED_AFTER, AT_ONCE = 1 << 19, 1 << 14


class Ended(Exception):
    """The program has ended, and said why on standard error."""


class Session:
    """One process of the program over a file, which answers one caller at a time. What a caller asks begins with a
    position, so that it does not matter which process answers, nor what was asked before."""

    def __init__(self, words, file):
        self.words, self.file, self.lock, self.process, self.written = words, file, threading.Lock(), None, 0

    @contextlib.contextmanager
    def turn(self):
        """The way to ask, for as long as nobody else may."""
        with self.lock:
            if self.process is None or self.written > RENEWED_AFTER:
                self.begin()
            yield self.ask

    def begin(self):
        self.end()
        pipes = {"stdin": subprocess.PIPE, "stdout": subprocess.PIPE, "encoding": "ascii", "errors": "replace"}
        self.process, self.written = subprocess.Popen(self.words, pass_fds=[self.file.begun()], **pipes), 0

    def end(self):
        if self.process:
            self.process.kill()
            self.process.wait()
            self.process = None

    def ask(self, *commands):
        """The lines of the answer to each command."""
        answers, asked = [], []
        for it in commands:
            asked.append(f"{it}\n{NO_COMMAND}\n")
            if sum(map(len, asked)) > AT_ONCE:
                answers += self.answers(asked)
                asked = []
        return answers + self.answers(asked)

    def answers(self, asked):
        with contextlib.suppress(BrokenPipeError):  # what it has answered says that it ended
            self.process.stdin.write("".join(asked))
            self.process.stdin.flush()
        self.written += sum(map(len, asked))
        return [self.answer() for _ in asked]

    def answer(self):
        lines = []
        while (line := self.process.stdout.readline().rstrip("\n")) != END:
            if not line:
                self.end()
                raise Ended
            lines.append(line)
        return lines

    def takes(self, command):
        """Whether the program has a command: the fault of another one is that which ends an answer."""
        with self.turn() as ask:
            found = bool(ask(command)[0])
            if not found:
                self.answer()
            return found


def next_stop(ask, at, breakpoint):
    """The first position behind this one at which a breakpoint holds, if there is one."""
    stop, *place = ask(f"goto {at}", "clear", f"break {breakpoint}", "run")[-1]
    return int(place[0].removeprefix("at ")) if stop.startswith("stop ") else None


def previous_stop(ask, at, breakpoint):
    """The last position before this one at which a breakpoint holds: from further back, and then by halves."""
    def between(begin):
        stop = next_stop(ask, begin, breakpoint)
        return stop if stop is not None and stop < at else None

    begin, end, low = at, at - 1, None
    while low is None:
        if begin <= 0:
            return None
        end, begin = min(end, begin), max(0, begin - max(32, 8 * (at - begin)))
        low = between(begin)
    while low < end:
        middle = (low + end) // 2
        found = between(middle)
        low, end = (found, end) if found else (low, middle)
    return low


def stops(ask, breakpoints, most):
    """The first positions at which one of these breakpoints holds, at most so many, and whether there may be more."""
    found, chunk = [], ["run"] * 64
    ask("goto 0", "clear", *(f"break {it}" for it in breakpoints))
    while len(found) < most:
        answers = [it for it in ask(*chunk) if it[0].startswith("stop ")]
        found += [int(place.removeprefix("at ")) for _, place in answers]
        if len(answers) < len(chunk):
            return found[:most], len(found) > most
    return found[:most], True
