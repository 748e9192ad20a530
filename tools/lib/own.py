"""Policies of one's own: the classes of a Python file, by words that begin with `own:`. Each answer is checked while
they run, which nothing switches off."""
import contextlib
import importlib.machinery
import importlib.util
import re
import sys
import traceback
from collections import Counter
from itertools import count
from operator import itemgetter
from pathlib import Path

from .runs import side_by_side

PREFIX = "own:"
HIT, KEPT = ("hit", None), ("kept", None)
# The type of what stands beside each outcome.
BESIDE = {"hit": type(None), "kept": type(None), "evicted": int, "rejected": int}
# What ends a program of one's own, which ends no script in silence.
RAISED = Exception, SystemExit
ANSWERS = '("hit", None), ("kept", None), ("evicted", K), ("rejected", key)'


class Wrong(ValueError):
    """What is wrong with a policy of one's own."""


def is_own(policy):
    return policy.startswith(PREFIX)


def note_of(policies):
    """What is said below a table that has policies of one's own."""
    own = ", ".join(filter(is_own, policies))
    return f"({own}: not proved, a program of one's own; each of its answers was checked)\n" if own else ""


def in_legend(name, policy):
    return name + ", not proved" * is_own(policy)


def with_own(policies, own):
    """Policies with all of one's own, where none of these is among them."""
    return policies if any(map(is_own, policies)) else [*policies, *own]


def add_option(parser):
    parser.add_argument("--own", action="append", default=[], metavar="FILE",
                        help="a Python file with policies of your own, which is run; their words are own:NAME; also "
                             "more than once")


def loaded(files):
    """The classes with a method `access` of these files by their words. One whose name begins with _ is no policy."""
    found = {}
    for file in files:
        policies = policies_of(module_of(file))
        if not policies:
            raise Wrong(f"{file} has no class with a method `access`")
        for it in policies:
            name = str(getattr(it, "name", it.__name__.lower()))
            if not re.fullmatch(r"[\w.+-]+", name):
                raise Wrong(f"{file}: {ascii(name)} is no name of a policy: letters, digits and . + - _ alone")
            if PREFIX + name in found:
                raise Wrong(f"{file}: {PREFIX}{name} is there twice")
            found[PREFIX + name] = it
    return found


def policies_of(module):
    classes = (it for it in vars(module).values() if isinstance(it, type) and it.__module__ == module.__name__)
    return [it for it in dict.fromkeys(classes) if it.__name__[0] != "_" and callable(getattr(it, "access", None))]


def module_of(file):
    """A file as a module, which finds others beside it. What it prints goes to standard error."""
    path = Path(file).resolve()
    if not path.is_file():
        raise Wrong(f"{file} is no file")
    name = f"own policies in {path}"
    spec = importlib.util.spec_from_loader(name, importlib.machinery.SourceFileLoader(name, str(path)))
    module = sys.modules[name] = importlib.util.module_from_spec(spec)
    sys.path.append(str(path.parent))
    with contextlib.redirect_stdout(sys.stderr), named_faults(file):
        spec.loader.exec_module(module)
    return module


@contextlib.contextmanager
def named_faults(where):
    """Says of what a program of one's own raises where that was."""
    try:
        yield
    except RAISED as fault:
        raise Wrong(f"{where}: {shown(fault)}") from None


def shown(fault):
    *_, (frame, line) = traceback.walk_tb(fault.__traceback__)
    return f"{type(fault).__name__}: {fault} ({Path(frame.f_code.co_filename).name}, line {line})"


def outcomes_of(word, policy, capacity, keys):
    """The outcome of each access in a new cache. The first answer that cannot be right ends it, and so do fewer misses
    than Belady's policy has."""
    where, outcomes, held = f"{word} at {capacity} entries", [], set()
    with named_faults(where):
        access = policy(capacity).access
    for piece in keys.pieces():
        answers, raised = [], "StopIteration"  # which ends the list without a word
        try:
            answers.extend(map(access, piece))
        except RAISED as fault:
            raised = shown(fault)
        at, text = first_wrong(piece, answers, held, capacity) or (len(answers), raised)
        if at < len(piece):
            raise Wrong(f"{where}, access {len(outcomes) + at + 1}, to block {piece[at]}: {text}")
        outcomes += map(itemgetter(0), answers)
    hits = outcomes.count("hit")
    if hits > keys.certain_hits(capacity) and len(keys) - hits < (fewest := keys.fewest_misses(capacity)):
        raise Wrong(f"{where}: {len(keys) - hits} misses, where Belady's policy has {fewest}, and no policy has fewer")
    return outcomes


def first_wrong(piece, answers, held, capacity):
    """The place of the first answer that cannot be right, and why; those before it change what is held."""
    hit = HIT
    for at, key, answer in zip(count(), piece, answers):
        # Most policies answer each hit by one tuple, which is looked into once.
        if answer is hit and key in held:
            continue
        if type(answer) is not tuple or len(answer) != 2:
            break
        word, left = answer
        # A word of another type may be equal to what it likes.
        if type(word) is not str or type(left) is not BESIDE.get(word):
            break
        if key in held:
            if word != "hit":
                break
            hit = answer
        elif left in held:
            held.remove(left)
            held.add(key)
        elif word == "kept" and len(held) < capacity:
            held.add(key)
        elif word != "rejected" or left != key:
            break
    else:
        return None
    return at, what_is_wrong(key, answer, held, capacity)


def what_is_wrong(key, answer, held, capacity):
    """Why an answer cannot be right to an access before which these keys are held."""
    if key in held:
        return f"the answer {ascii(answer)} to a block that it holds"
    if answer == HIT:
        return "a hit of a block that it does not hold"
    if type(answer) is not tuple or len(answer) != 2 or type(answer[0]) is not str or (
            type(answer[1]) is not BESIDE.get(answer[0])):
        return f"the answer {ascii(answer)} is none of {ANSWERS}"
    if answer == KEPT:
        return f"it holds {capacity + 1} blocks"
    return f"block {answer[1]} leaves, which it does not hold"


def counts_of(policies, words, capacities, keys, processes=None):
    """Accesses, hits, misses and evictions of these policies at these capacities, side by side."""
    def counted(job):
        word, capacity = job
        times = Counter(outcomes_of(word, policies[word], capacity, keys))
        return len(keys), times["hit"], len(keys) - times["hit"], times["evicted"] + times["rejected"]

    jobs = [(word, capacity) for word in words for capacity in capacities]
    keys.times  # once, before there are processes
    return dict(zip(jobs, side_by_side(counted, jobs, ", ".join(words), len(keys) * len(jobs), processes)))
