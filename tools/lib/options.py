"""How the scripts of tools/ call themselves and each other, their help, and the types of their options."""
import argparse
import re
import sys
import textwrap
from decimal import Decimal, InvalidOperation
from pathlib import Path

IS_INSTALLED = Path(sys.argv[0]).name.startswith("cachesim-")


def as_called(text):
    """A text that names scripts, the program and documents as the repository does, by the names of tools/install where
    the script is called by one."""
    if not IS_INSTALLED:
        return text
    text = text.replace("./cachesim", "cachesim").replace("tools/", "cachesim-")
    return text.replace("docs/", "share/doc/cachesim/docs/")


class Help(argparse.HelpFormatter):
    """Help whose paragraphs are wrapped, each line that is indented by two as one. What is indented by four stays."""

    def _fill_text(self, text, width, indent):
        parts = [[it] if it.startswith("    ") else re.split(r"\n(?=  \S)", it) for it in text.strip().split("\n\n")]
        return "\n\n".join("\n".join(wrapped(it, width) for it in part) for part in parts)


def wrapped(text, width):
    if text.startswith("    "):
        return text
    first, later = ("  ", "    ") if text.startswith("  ") else ("", "")
    return textwrap.fill(" ".join(text.split()), width, initial_indent=first, subsequent_indent=later)


def number_in(low, high):
    """The type of numbers within these bounds."""
    def read(text):
        try:
            number = Decimal(text)
        except InvalidOperation:
            number = None
        if number is None or not number.is_finite() or not low <= number <= high:
            raise argparse.ArgumentTypeError(f"{text} is not a number from {low} to {high}")
        return number
    return read


def whole_number(high, low=1):
    """The type of whole numbers within these bounds."""
    def read(text):
        if not (re.fullmatch(r"\+?[0-9]+", text) and low <= int(text[:99]) <= high):
            raise argparse.ArgumentTypeError(f"{text} is not a whole number from {low} to {high}")
        return int(text)
    return read
