"""What cachesim is to answer, over plain lists: the trace formats, the policies, the concurrent cache, its journals, and the
commands of the two debuggers. It is written from docs/GUIDE.md and the prose of the definitions, shares nothing with the
program, and is slow: going back is going there again, from the first access on.
"""
from .concurrent_cache import Shell
from .debugger import debug
from .journals import replay
from .options import DEFAULTS, NUMBERS, POLICIES, SIZES, Number, policy_of
from .reports import answer, run, sweep
from .traces import MAX_ACCESSES, MAX_LONG_ACCESSES, Fault, keys_of
from .walks import Worker, check_walks, drive_alone, journal

__all__ = ["DEFAULTS", "MAX_ACCESSES", "MAX_LONG_ACCESSES", "NUMBERS", "POLICIES", "SIZES", "Fault", "Number", "Shell", "Worker",
           "answer", "check_walks", "debug", "drive_alone", "journal", "keys_of", "policy_of", "replay", "run", "sweep"]
