"""The policies as the scripts of tools/ know them, in the order in which they are shown. A script uses those that the
program takes (`reports.Program.policies`), so that a new word is added here alone."""
import difflib
from collections import namedtuple

# How a policy is drawn, whether a sketch filters what it admits, and whether it is shown where no policy is named. Each
# has a colour, a marker and a dash of gnuplot's that no other one has. The first colours are those that people with any
# kind of colour blindness tell apart (Okabe and Ito).
Policy = namedtuple("Policy", "colour marker dash is_filtered is_default")

OPTIMAL = "clairvoyant"
WINDOWED = "wtinylfu"
CAFFEINE = "caffeine"
# The policies whose hit ratio never falls where the capacity grows, which is proved.
MONOTONE = {"lru", OPTIMAL}
POLICIES = {
    "fifo": Policy("#7f7f7f", 1, "(3,6)", False, False),
    "clock": Policy("#56b4e9", 3, "(10,6)", False, False),
    "lru": Policy("#0072b2", 4, "1", False, True),
    "slru": Policy("#e69f00", 6, "(14,4)", False, True),
    "2q": Policy("#8c510a", 7, "(8,3,2,3)", False, False),
    "arc": Policy("#a50f15", 9, "(18,3,6,3)", False, True),
    "car": Policy("#999933", 14, "(4,8)", False, False),
    "sieve": Policy("#6a3d9a", 5, "(2,2,6,2)", False, True),
    "s3-fifo": Policy("#00c5cd", 13, "(6,2,2,2,2,2)", False, True),
    "tinylfu-lru": Policy("#009e73", 8, "(6,3)", True, False),
    "tinylfu-slru": Policy("#cc79a7", 10, "(14,4,3,4)", True, False),
    WINDOWED: Policy("#d55e00", 12, "(3,3)", True, True),
    CAFFEINE: Policy("#1b7837", 11, "(10,3,2,3,2,3)", True, True),
    OPTIMAL: Policy("#000000", 2, "(22,5)", False, True),
}
# How policies of other programs are drawn.
OTHERS = [Policy("#ff1493", 15, "(1,4)", False, False), Policy("#3333ff", 14, "(24,4,2,4)", False, False),
          Policy("#8fbc3f", 13, "(2,8)", False, False), Policy("#5c4033", 15, "(12,2,2,2)", False, False)]


def styled(names):
    """How policies are drawn: also these of other programs, in the order of their names."""
    unknown = sorted({*names} - POLICIES.keys())
    return {**POLICIES, **{it: OTHERS[at % len(OTHERS)] for at, it in enumerate(unknown)}}


def has_sketch(name):
    """Whether a sketch filters what a policy admits; of an unknown one that is not known."""
    return name in POLICIES and POLICIES[name].is_filtered


# Other names of policies that are tried, in small letters.
OTHER_NAMES = {"opt": OPTIMAL, "min": OPTIMAL, "belady": OPTIMAL, "optimal": OPTIMAL,
               "tinylfu": "tinylfu-lru", "second-chance": "clock"}


def tip_for(word, taken):
    """What a word that is no policy may have been meant for, if that is known."""
    small = word.lower()
    meant = OTHER_NAMES.get(small) or next(iter(difflib.get_close_matches(small, taken, 1)), None)
    return f": did you mean {meant}?" if meant in taken else ""


def defaults(taken):
    """The policies that are shown where none is named: at most eight of those that the program takes."""
    shown = [name for name, policy in POLICIES.items() if name in taken and policy.is_default]
    # A program that takes few policies shows them all.
    return shown if len(taken) > 8 else [name for name in POLICIES if name in taken]
