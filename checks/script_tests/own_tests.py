"""Tests of policies of one's own, of tools/reference, tools/survey, tools/corpus and tools/plot; and of the examples of
them, each beside a second one that is written otherwise, by naive lists or by numbers in place of queues."""
import json
import random
import re
import sys

from checks import skewed_keys
from frame import Mistake, expect, expect_parts, fake, file_of, rows_of, run
from lib.own import loaded
from survey_tests import on_terminal

# A policy that keeps its newest keys, by a list.
LRU = """class Lru:
    def __init__(self, capacity):
        self.capacity, self.keys = capacity, []

    def access(self, key):
        if key in self.keys:
            self.keys.remove(key)
            self.keys.append(key)
            return "hit", None
        self.keys.append(key)
        return ("evicted", self.keys.pop(0)) if len(self.keys) > self.capacity else ("kept", None)
"""
# It hits 1 once at 3 entries: 1 2 3 are kept, 1 hits, 4 evicts 2, 2 evicts 3.
TRACE = "1\n2\n3\n1\n4\n2\n"


def own_of(folder, text=LRU, name="mine.py"):
    return "--own", file_of(folder, name, text)


def lirs(capacity, keys):
    """By times: of a block that is no LIR block only this is asked, whether it came since the LIR block that came
    longest ago."""
    size, last, lir, queue = capacity - max(1, capacity // 100), {}, set(), []
    for time, key in enumerate(keys):
        oldest = min(lir, key=last.get, default=None)
        is_recent = key in last and oldest is not None and last[key] > last[oldest]
        is_hit, left = key in lir or key in queue, None
        if not is_hit and len(lir) + len(queue) == capacity:
            left = queue.pop(0)
        if key in queue:
            queue.remove(key)
        if len(lir) < size:
            lir.add(key)
        elif key not in lir and is_recent:
            lir = lir - {oldest} | {key}
            queue.append(oldest)
        elif key not in lir:
            queue.append(key)
        last[key] = time
        yield ("hit", None) if is_hit else ("kept", None) if left is None else ("evicted", left)


def lfu(capacity, keys):
    """By a list of counts, times and keys, whose least one leaves."""
    held = []
    for time, key in enumerate(keys):
        found = [it for it in held if it[2] == key]
        left = min(held) if not found and len(held) == capacity else None
        held = [it for it in held if it not in found and it != left] + [(found[0][0] + 1 if found else 1, time, key)]
        yield ("hit", None) if found else ("kept", None) if left is None else ("evicted", left[2])


def at_random(capacity, keys):
    """By a list of which one place is written anew."""
    places, numbers = [None] * capacity, random.Random(capacity)
    for key in keys:
        if key in places:
            yield "hit", None
            continue
        place = places.index(None) if None in places else numbers.randrange(capacity)
        left, places[place] = places[place], key
        yield ("kept", None) if left is None else ("evicted", left)


def check_examples(reference):
    """The examples over made traces, of which some are loops and scans: each answer is that of the second policy."""
    folder = reference.parent.parent / "examples/policies"
    seconds = {"own:lirs": lirs, "own:lfu": lfu, "own:random": at_random}
    policies = loaded(sorted(folder.glob("*.py")))
    expect("the words", sorted(policies), sorted(seconds))
    expect("long files", [it.name for it in folder.glob("*.py") if len(it.read_text().splitlines()) >= 80], [])
    for seed in range(30):
        rng = random.Random(seed)
        parts = (skewed_keys(60, 40, rng.random()), [*range(rng.randrange(30))] * 3,
                 [rng.randrange(25) for _ in range(40)], [*range(99, 99 + rng.randrange(50))])
        keys = [it for _ in range(6) for it in rng.choice(parts)]
        for capacity in (1, 2, 3, 5, 12, 30, 101, 250):
            for word, second in seconds.items():
                access = policies[word](capacity).access
                expect(f"{word} at {capacity}, seed {seed}", [access(it) for it in keys], [*second(capacity, keys)])


def check_lirs_by_hand(reference):
    """At 3 entries two are for LIR blocks. 1 and 2 become such ones, 3 is an HIR block, which leaves for 4 and stays in
    the stack; so it becomes an LIR block when it comes again, and 4 leaves. 1 was the bottom, so it is the HIR block
    that leaves for 5."""
    policy = loaded([reference.parent.parent / "examples/policies/lirs.py"])["own:lirs"](3)
    answers = [policy.access(it) for it in (1, 2, 3, 4, 3, 2, 5, 1)]
    expect("answers", answers, [*[("kept", None)] * 3, ("evicted", 3), ("evicted", 4), ("hit", None), ("evicted", 1),
                                ("evicted", 5)])


def check_commands(reference, folder):
    """Each command of the reference over a policy of one's own has what it has over its own policy of that rule."""
    words, text = own_of(folder), "".join(f"{it}\n" for it in skewed_keys(70000, 30, 5))
    cache = "--capacity", 7
    for command in (("run", *cache, "own:lru"), ("sweep", "--policy", "own:lru", 1, 7, 20),
                    ("run", *cache, "own:lru", "fifo", "own:lru"),
                    ("intervals", *cache, "--every", 9999, "own:lru", "--long"),
                    ("compare", *cache, "--first", "own:lru", "--second", "slru"),
                    ("compare", *cache, "--every", 30000, "--first", "fifo", "--second", "own:lru")):
        wanted, _ = run(reference, *(str(it).removeprefix("own:") for it in command), typed=text)
        out, error = run(reference, command[0], *words, *command[1:], typed=text)
        expect(f"{command}", out.replace("own:lru", "lru"), wanted)
        expect("the word", "own:lru" in out, True)
        expect("the note", error, "tools/reference: the unproved reference that the program is tested against\n")
    pair = "part", *words, "--capacity", 3, "--first"
    # For 4 lru evicts 2, and fifo 1.
    expect("part", run(reference, *pair, "own:lru", "--second", "fifo", typed=TRACE)[0], "part 6 block 2\n")
    expect("no part", run(reference, *pair, "own:lru", "--second", "lru", typed=TRACE)[0], "part none\n")
    expect("a report", run(reference, "run", *words, "--capacity", 3, "own:lru", typed=TRACE)[0].splitlines()[1],
           "own:lru,3,6,1,5,2,0,16.66")


ANSWERS = '("hit", None), ("kept", None), ("evicted", K), ("rejected", key)'
# What a policy answers to 5 6 5 7 at 2 entries, and what is said of the first answer that cannot be right.
WRONG = {
    "'hit', None": "access 1, to block 5: a hit of a block that it does not hold",
    "('hit', None) if self.times == 4 else ('kept', None) if self.times < 3 else ('hit', None)":
        "access 4, to block 7: a hit of a block that it does not hold",
    "'kept', None": "access 3, to block 5: the answer ('kept', None) to a block that it holds",
    "'rejected', 5": "access 2, to block 6: block 5 leaves, which it does not hold",
    "('kept', None) if self.times < 3 else ('rejected', key)":
        "access 3, to block 5: the answer ('rejected', 5) to a block that it holds",
    "('evicted', 5) if self.times == 2 else ('kept', None)": "access 4, to block 7: it holds 3 blocks",
    "'evicted', key": "access 1, to block 5: block 5 leaves, which it does not hold",
    "'hit'": f"access 1, to block 5: the answer 'hit' is none of {ANSWERS}",
    "None": f"access 1, to block 5: the answer None is none of {ANSWERS}",
    "'hit', key": f"access 1, to block 5: the answer ('hit', 5) is none of {ANSWERS}",
    "'kept', 5": f"access 1, to block 5: the answer ('kept', 5) is none of {ANSWERS}",
    "'evicted', None": f"access 1, to block 5: the answer ('evicted', None) is none of {ANSWERS}",
    "[], []": f"access 1, to block 5: the answer ([], []) is none of {ANSWERS}",
    "__import__('sys').exit(0)": "access 1, to block 5: SystemExit: 0 (mine.py, line 8)",
    "('kept', None) if self.times == 1 else {}[key]": "access 2, to block 6: KeyError: 6 (mine.py, line 8)",
    "('kept', None) if self.times < 2 else next(iter(()))": "access 2, to block 6: StopIteration",
    "('hit', None) if self.times == 1 else 1 // 0": "access 1, to block 5: a hit of a block that it does not hold",
    "('kept', None) if self.times < 3 else ('hit', None) if self.times == 3 else 1 // 0":
        "access 4, to block 7: ZeroDivisionError: integer division or modulo by zero (mine.py, line 8)",
}
ANSWERING = """class Mine:
    name = "x-1"

    def __init__(self, capacity):
        self.times = 0
    def access(self, key):
        self.times += 1
        return {}
"""
# It writes what it likes into the notes of who checks it, so that each access is a hit.
CHEATING = """import sys
class Mine:
    name = "x-1"
    def __init__(self, capacity):
        pass
    def access(self, key):
        sys._getframe(1).f_locals["held"].add(key)
        return "hit", None
"""
# Its word is no "hit" when it is asked at first, and each word when it is asked again.
LYING = """class Word(str):
    times = 0
    def __eq__(self, _):
        self.times += 1
        return self.times > 1
    __hash__ = str.__hash__
class Mine:
    name = "x-1"
    def __init__(self, capacity):
        pass
    def access(self, key):
        return Word("hit"), None
"""


def check_refused(reference, folder):
    """The first answer that cannot be right is named, and so are fewer misses than Belady's policy has."""
    call, typed = ("run", "--capacity", 2, "own:x-1", "fifo"), "5\n6\n5\n7\n"
    for answer, said in WRONG.items():
        error = run(reference, *call, *own_of(folder, ANSWERING.format(answer)), status=1,
                    typed=typed)[1].splitlines()[-1]
        expect(answer, error, f"tools/reference: own:x-1 at 2 entries, {said}")
    error = run(reference, *call, *own_of(folder, CHEATING), status=1, typed=typed)[1].splitlines()[-1]
    expect("a cheat", error,
           "tools/reference: own:x-1 at 2 entries: 0 misses, where Belady's policy has 3, and no policy has fewer")
    error = run(reference, *call, *own_of(folder, LYING), status=1, typed=typed)[1].splitlines()[-1]
    expect("a lie", error, "tools/reference: own:x-1 at 2 entries, access 1, to block 5: the answer ('hit', None) is "
           f"none of {ANSWERS}")
    for seed in range(2):
        typed = "".join(f"{it}\n" for it in [*skewed_keys(60, 9, seed), *[*range(8)] * 4])
        for capacity in (1, 2, 5):
            fewest = rows_of(run(reference, "run", "--capacity", capacity, "clairvoyant", typed=typed)[0])[0]["misses"]
            error = run(reference, "run", "--capacity", capacity, "own:x-1", *own_of(folder, CHEATING), status=1,
                        typed=typed)[1]
            expect_parts(f"seed {seed}", error,
                         f" at {capacity} entries: 0 misses, where Belady's policy has {fewest}, ")
    # Over the pieces in which a run goes through its trace.
    late = ANSWERING.format("('hit', None) if self.times > 1 else ('kept', None)")
    error = run(reference, *call, *own_of(folder, late), status=1, typed="5\n" * 70000 + "6\n")[1].splitlines()[-1]
    expect("a late one", error,
           "tools/reference: own:x-1 at 2 entries, access 70001, to block 6: a hit of a block that it does not hold")


def check_rejecting(reference, folder):
    """A policy may reject the key itself, or keep it and have another leave in its place."""
    answers = "{1: ('kept', None), 2: ('rejected', key), 3: ('hit', None), 4: ('rejected', 5)}[self.times]"
    own = own_of(folder, ANSWERING.format(answers))
    out, _ = run(reference, "run", *own, "--capacity", 1, "own:x-1", typed="5\n6\n5\n7\n")
    expect("rejections", out.splitlines()[1], "own:x-1,1,4,1,3,2,2,25.00")


def check_files(reference, folder):
    """A file that is none, has no policy, or has one twice, is refused; what one prints is no part of a report."""
    typed, texts = TRACE, {
        "no_class = 1\n": "mine.py has no class with a method `access`", 
        LRU.replace("Lru", "_Lru"): "mine.py has no class",
        "import nothing_such\n": "mine.py: ModuleNotFoundError: No module named 'nothing_such' (mine.py, line 1)",
        LRU + LRU.replace("Lru", "LRU"): "mine.py: own:lru is there twice",
                           LRU + "    name = 'a,b'\n": "mine.py: 'a,b' is no name of a policy",
        LRU + "raise SystemExit\n": "mine.py: SystemExit:  (mine.py, line 12)",
        "def (\n": "mine.py: SyntaxError: invalid syntax (mine.py, line 1)"}
    for text, said in texts.items():
        expect_parts(text, run(reference, "run", *own_of(folder, text), "--capacity", 3, "own:lru", status=1,
                               typed=typed)[1], said)
    expect_parts("no file", run(reference, "run", "--own", folder / "none.py", "--capacity", 3, "lru", status=1,
                                typed=typed)[1], "none.py is no file")
    expect_parts("a word", run(reference, "run", "--capacity", 3, "own:lru", status=2, typed=typed)[1],
                 "own:lru is no policy")
    file_of(folder, "beside.py", "from colorsys import hls_to_rgb\nprint('begun')\n")
    text = "from __future__ import annotations\nfrom dataclasses import dataclass\nimport beside\n"
    text += "@dataclass\nclass _Data:\n    of: int\n" + LRU.replace("        if", "        print(key)\n        if")
    out, error = run(reference, "run", *own_of(folder, text + "Same = Lru\n", "colorsys.py"), "--capacity", 3,
                     "own:lru", typed=typed)
    expect("the report", out.splitlines()[1:], ["own:lru,3,6,1,5,2,0,16.66"])
    expect_parts("what it prints", error, "begun\n", "\n1\n2\n3\n1\n4\n2\n")


def check_survey(survey, folder):
    """A column beside those of the program, of which `best` and a note speak, with the warm-up left out, and of a
    sample."""
    trace = file_of(folder, "trace", TRACE * 4 + TRACE.replace("1", "\t01"))
    program = "--program", fake(folder, "10", top="1 << 21")
    words = *program, *own_of(folder), "--capacity", 4
    # At 4 entries all but the first access to each is a hit: 26 of 30, where the program has 3.
    row = rows_of(run(survey, *words, "--csv", trace)[0])[0]
    expect("the row", (row["own:lru"], row["lru"], row["best"]), ("86.66", "10.00", "own:lru"))
    out, _ = run(survey, *words, "--table", "policies", "--policy", "lru", trace)
    expect_parts("the table", " ".join(out.split()), " lru own:lru ", " own:lru (best: ",
                 "(own:lru: not proved, a program of one's own; each of its answers was checked)")
    row = rows_of(run(survey, *words, "--policy", "own:lru", "--csv", "--after", 6, trace)[0])[0]
    expect("without the first", (row["own:lru"], "lru" in row), ("100.00", False))
    # 4 misses stand for 8 of 50.
    row = rows_of(run(survey, *program, *own_of(folder), "--capacity", 8, "--csv", "--sampled", "1/2", "--accesses", 50,
                      trace)[0])[0]
    expect("a sample", row["own:lru"], "84.00")
    expect_parts("a word", run(survey, *words, "--policy", "own:lur", trace, status=1)[1],
                 "--policy own:lur is none of lru, ", ": did you mean own:lru?")
    two = own_of(folder, LRU + LRU.replace("Lru", "Other"), "two.py")
    row = rows_of(run(survey, *program, *two, "--policy", "own:other", "--capacity", 4, "--csv", trace)[0])[0]
    expect("one of two", [it for it in row if it.startswith("own:")], ["own:other"])
    drawn = on_terminal(survey, *words, "--policy", "own:lru", "--table", "policies", trace)
    expect("the progress", re.search(r"\rown:lru: [0-9]+ % of accesses, 0:[0-9]{2}\x1b\[K.*\r\x1b\[K", drawn,
                                     re.S) is None, False)
    misses = rows_of(run(survey, *words, "--table", "misses", "--csv", trace)[0])[0]
    expect("misses", (misses["own:lru"], misses["% fewer than lru"]), ("4", "85.2"))
    wrong = own_of(folder, ANSWERING.format("'hit', None"))
    expect("a wrong one", run(survey, *program, *wrong, "--table", "policies", "--capacity", 4, trace, status=1)[1],
           "tools/survey: own:x-1 at 4 entries, access 1, to block 1: a hit of a block that it does not hold\n")


def check_corpus(corpus, folder):
    """A policy of one's own beside those of the program, in each job, which draws nothing on a terminal; another file of
    the same name is refused."""
    traces = [file_of(folder, f"trace{it}", TRACE * it) for it in (2, 5)]
    program = fake(folder, "10", top="1 << 21")
    call = "run", "--program", program, "--out", folder / "out", "--percent", 100, "--policy", "lru"
    run(corpus, *call, *own_of(folder), *traces)
    # 4 misses of 12 and of 30, where the program has 11 of 12 and 27 of 30.
    found = {json.loads(it.read_text())["accesses"]: json.loads(it.read_text())["misses"]["100"]
             for it in (folder / "out/results").iterdir()}
    expect("the misses", found, {12: {"lru": 11, "own:lru": 4}, 30: {"lru": 27, "own:lru": 4}})
    expect_parts("the report", run(corpus, "report", folder / "out", "--baseline", "lru")[0], "own:lru  ",
                 "(own:lru: not proved, a program of one's own; each of its answers was checked)\n")
    error = run(corpus, *call, *own_of(folder, LRU + "\n"), *traces, status=1)[1]
    expect_parts("another file", error, "has results of other own: name another folder")
    words = "--program", program, "--format", "lirs", "--policy", "own:lru", "--percent", 100
    expect("what a job draws", on_terminal(corpus, "job", *words, *own_of(folder), "--", *traces), "")
    wrong = own_of(folder, ANSWERING.format("'hit', None"))
    error = run(corpus, *call[:3], "--out", folder / "wrong", "--policy", "lru", *wrong, *traces, status=1)[1]
    expect_parts("a wrong one", error, "2 of 2 traces have no result",
                 "own:x-1 at 1 entries, access 1, to block 1: a hit of a block")


# The first of five processes waits until another call has begun and ended, whose counts have one place alone.
AT_ONCE = """import os, sys
sys.path.insert(0, sys.argv[1])
from concurrent.futures import ThreadPoolExecutor
from lib.runs import Accesses, side_by_side
(begun, begin), (ended, end) = os.pipe(), os.pipe()
def counted(job):
    if job == 0:
        os.write(begin, b".")
        os.read(ended, 1)
    Accesses.count(1)
    return job
with ThreadPoolExecutor() as pool:
    first = pool.submit(side_by_side, counted, range(5), "", 0, 1)
    os.read(begun, 1)
    print(side_by_side(str, [7], "", 0, 1))
    os.write(end, b".")
    print(first.result())
"""


def check_at_once(corpus, folder):
    """Calls at the same time, as of several traces, count for themselves."""
    out, _ = run(sys.executable, "-SE", file_of(folder, "at_once.py", AT_ONCE), corpus.parent)
    expect("the results", out, "['7']\n[0, 1, 2, 3, 4]\n")


def check_legend(plot):
    """The legend says of a policy of one's own that it is not proved."""
    header, row = "policy,capacity,accesses,hits,misses,evictions,rejections,rate\n", "lru,3,6,1,5,2,0,16.66\n"
    out, _ = run(plot, "--commands", typed=f"{header}own:{row}{row}")
    expect_parts("the legend", out, "title 'own:lru, not proved'", "title 'lru'")


OWN = "lib/own.py"
MISTAKES = {
    "LIRS with other sizes": Mistake(check_examples, "../examples/policies/lirs.py", "capacity // 100)",
                                     "capacity // 10)"),
    "LIRS that forgets what left": Mistake(check_lirs_by_hand, "../examples/policies/lirs.py",
                                           "if key not in self.stack and", "if key not in self.queue and"),
    "LFU whose newest leaves": Mistake(check_examples, "../examples/policies/lfu.py", "popitem(last=False)",
                                       "popitem()"),
    "a place of two blocks": Mistake(check_examples, "../examples/policies/random.py",
                                     "            del self.places[left]\n", ""),
    "a block that is not named": Mistake(check_commands, "reference", 'if command == "part" and any',
                                         'if command == "parts" and any'),
    "a sweep at one capacity": Mistake(check_commands, "reference", "[[one] for one in capacities]",
                                       "[[capacities[0]] for one in capacities]"),
    "a hit of any block": Mistake(check_refused, OWN, "        if key in held:\n            if word",
                                  '        if key in held or word == "hit":\n            if word'),
    "a hit by a tuple that hit before": Mistake(check_refused, OWN, "if answer is hit and key in held:",
                                                "if answer is hit:"),
    "a miss of any block": Mistake(check_refused, OWN, "                break\n            hit = answer\n",
                                   "                continue\n            hit = answer\n"),
    "more than the capacity": Mistake(check_refused, OWN, ' and len(held) < capacity:', ":"),
    "what leaves is not looked at": Mistake(check_refused, OWN, 'elif word != "rejected" or left != key:',
                                            "elif False:"),
    "what leaves is held on": Mistake(check_refused, OWN, "            held.remove(left)\n", ""),
    "answers of any kind": Mistake(check_refused, OWN, " or type(left) is not BESIDE.get(word):", ":"),
    "words that lie": Mistake(check_refused, OWN, "if type(word) is not str or ", "if "),
    "another reason": Mistake(check_refused, OWN, "            type(answer[1]) is not BESIDE.get(answer[0])):",
                              "            False):"),
    "an end in silence": Mistake(check_files, OWN, "    except RAISED as fault:\n        raise",
                                 "    except Exception as fault:\n        raise"),
    "a fault before a wrong answer": Mistake(check_refused, OWN, "at, text = first_wrong(",
                                             "at, text = raised != 'StopIteration' and (len(answers), raised) "
                                             "or first_wrong("),
    "an answer that is missing": Mistake(check_refused, OWN, "if at < len(piece):", "if at < len(answers):"),
    "accesses counted by pieces": Mistake(check_refused, OWN, "access {len(outcomes) + at + 1}", "access {at + 1}"),
    "no bound": Mistake(check_refused, OWN, "if hits > keys.certain_hits(capacity) and", "if False and"),
    "a bound that is none": Mistake(check_refused, "lib/runs.py", "            elif after and farthest[0] < after:",
                                    "            elif False:"),
    "no rejection": Mistake(check_rejecting, OWN, 'elif word != "rejected" or left != key:', "else:"),
    "a block that is not held in place of another": Mistake(check_refused, OWN,
                                                            "held.remove(left)\n            held.add(key)\n",
                                                            "held.remove(left)\n"),
    "private classes": Mistake(check_files, OWN, 'it.__name__[0] != "_" and ', ""),
    "one for another": Mistake(check_files, OWN, "            if PREFIX + name in found:\n", "            if False:\n"),
    "its folder before Python's": Mistake(check_files, OWN, "sys.path.append(str(path.parent))",
                                          "sys.path.insert(0, str(path.parent))"),
    "prints in a report": Mistake(check_files, "lib/runs.py", "    os.dup2(2, 1)\n", ""),
    "the warm-up as the trace": Mistake(check_survey, "lib/reports.py", "(own, capacities, is_warm_up)",
                                        "(own, capacities, False)"),
    "blocks by how they are written": Mistake(check_survey, "lib/traces.py", "(int(line) for line", "(line for line"),
    "no progress": Mistake(check_survey, "lib/runs.py", "            show_part(what, sum(made)",
                           "            (what, sum(made)"),
    "a line of each job": Mistake(check_corpus, "lib/runs.py", "        if not processes:\n", "        if True:\n"),
    "no note": Mistake(check_survey, "lib/tables.py", "if note := ", 'if note := "" and '),
    "own ones that nobody asked for": Mistake(check_survey, OWN, "return policies if any(map(is_own, policies)) else ",
                                              "return "),
    "a job without them": Mistake(check_corpus, "lib/jobs.py", 'settings["own"], processes', "{}, processes"),
    "another file": Mistake(check_corpus, "corpus",
                            "hashlib.sha256(Path(it).read_bytes()).hexdigest() for it in args.own",
                            "0 for it in args.own"),
    "counts of another call": Mistake(check_at_once, "lib/runs.py", "Accesses.made, Accesses.place = made, place",
                                      "Accesses.place = place"),
    "a legend that says nothing": Mistake(check_legend, OWN, '", not proved" * is_own(policy)', '""'),
}
