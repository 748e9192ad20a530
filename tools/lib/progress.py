"""How far a survey is, for its terminal: which of its steps is under way, and of which trace."""
import os
import sys

# What goes to the beginning of the line before, and erases it.
ERASED = "\x1b[A\r\x1b[K"


class Progress:
    """The line on standard error, where that is a terminal. Below it the program draws its own."""

    def __init__(self, tool, plan, traces):
        self.tool, self.plan, self.traces = tool, plan, traces
        self.done, self.name, self.is_shown = -len(plan), "", False

    def begin_trace(self, name):
        self.done, self.name = self.done + len(self.plan), name

    def begins(self, step):
        """Whether a step is planned; it is then under way."""
        if step not in self.plan:
            return False
        self.erase()
        if sys.stderr.isatty():
            place = f"{self.done + self.plan.index(step) + 1} of {len(self.plan) * self.traces}"
            width = os.get_terminal_size(sys.stderr.fileno()).columns or 80
            line = f"{self.tool}: {place}: {step}, {self.name}"[:width - 1]
            # A name may have characters that a terminal obeys.
            print("".join(it if it.isprintable() else "?" for it in line), file=sys.stderr, flush=True)
            self.is_shown = True
        return True

    def erase(self):
        """Takes the line away, so that something else can be written."""
        if self.is_shown:
            print(ERASED, end="", file=sys.stderr, flush=True)
        self.is_shown = False
