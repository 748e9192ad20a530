"""The words of the policies, and what a call says of them beside the capacity."""
import re
from collections import namedtuple

from .caffeine import Caffeine
from .demand_policies import POLICIES as DEMAND_POLICIES
from .policies import Clairvoyant, Lru, SegmentedLru, TinyLfu, WindowTinyLfu

class Number(namedtuple("Number", "default low high help")):
    """A whole number within bounds, with what holds where it is not given: tools/reference has them all, and check_random
    asks for them."""

    def read(self, text):
        """The number that a word is, or None."""
        number = re.fullmatch(r"\+?0*([0-9]{1,20})", text)
        return int(number[1]) if number and self.low <= int(number[1]) <= self.high else None


NUMBERS = {
    "main": Number(99, 0, 99, "the main part of wtinylfu, and of caffeine at first, in percent (99)"),
    "period": Number(None, 1, 2**32 - 1, "after how many accesses caffeine moves its window (ten times its capacity)"),
    "in": Number(25, 1, 99, "the queue of new keys of 2q in percent (25)"),
    "out": Number(50, 1, 100, "the ghost of 2q in percent (50)"),
    "small": Number(10, 1, 99, "the small queue of s3-fifo in percent (10)"),
}
DEFAULTS = {"spread": "mixed", **{name: number.default for name, number in NUMBERS.items()}}

# How each policy is opened: of a capacity, options as those above, and the keys to come; in the order of the program.
POLICIES = {
    "lru": lambda capacity, *_: Lru(capacity),
    "slru": lambda capacity, *_: SegmentedLru(capacity),
    "tinylfu-lru": lambda capacity, options, _: TinyLfu(Lru(capacity), capacity, options["spread"]),
    "tinylfu-slru": lambda capacity, options, _: TinyLfu(SegmentedLru(capacity), capacity, options["spread"]),
    "wtinylfu": lambda capacity, options, _: WindowTinyLfu(capacity, options["main"], options["spread"]),
    "clairvoyant": lambda capacity, _, keys: Clairvoyant(capacity, keys),
    **DEMAND_POLICIES,
    "caffeine": lambda capacity, options, _: Caffeine(capacity, options["main"], options["spread"], options["period"]),
}

# The options that a policy's word may carry, in the order in which reports print them.
SIZES = {"wtinylfu": ["main"], "caffeine": ["main", "period"], "2q": ["in", "out"], "s3-fifo": ["small"]}


def parts_of(word):
    """A policy's word, and the sizes behind it."""
    return [word] if word in POLICIES else word.split(":")


def policy_of(word):
    """A policy's word with its sizes, as reports print it, or None where it is none."""
    policy, *sizes = parts_of(word)
    names, _, texts = zip(*(it.partition("=") for it in sizes)) if sizes else ((), (), ())
    numbers = {name: NUMBERS[name].read(text) for name, text in zip(names, texts) if name in SIZES.get(policy, [])}
    if policy not in POLICIES or len(numbers) < len(sizes) or None in numbers.values():
        return None
    return ":".join([policy, *(f"{name}={numbers[name]}" for name in SIZES.get(policy, []) if name in numbers)])


def opened(word, capacity, options, keys):
    """A policy of a word that reports print, whose sizes stand above the options."""
    policy, *sizes = parts_of(word)
    own = {name: int(number) for name, number in (it.split("=") for it in sizes)}
    return POLICIES[policy](capacity, {**options, **own}, keys)
