"""What the pictures of tools/ share: the marks of an axis, texts for gnuplot, and calling it."""
import math
import subprocess
import sys
from html import escape


def step_of(low, high):
    """A distance of marks, 1, 2 or 5 at some power of ten, of which five to twelve are between two numbers."""
    power = 10 ** math.floor(math.log10((high - low) / 5))
    return max(power * it for it in (1, 2, 5) if power * it <= (high - low) / 5)


def marks_of(low, high, apart, is_log=False):
    """The marks of an axis: both its ends, and round numbers that are so far apart from these and from each other. Of a
    logarithmic axis the powers of ten come first."""
    if low == high:
        return [low]
    if is_log and high >= 10 * low:
        tens, *others = [[it * 10 ** power for power in range(12)] for it in (1, 2, 5)]
        ranked = [*tens, low, high, *(it for numbers in others for it in numbers)]
    else:
        step = step_of(low, high)
        ranked = [low, high, *(round(step * it, 6) for it in range(math.floor(low / step), math.ceil(high / step) + 1))]
    place = (lambda it: math.log(it / low) / math.log(high / low)) if is_log else lambda it: (it - low) / (high - low)
    marks = []
    for it in ranked:
        if low <= it <= high and all(abs(place(it) - place(mark)) > apart for mark in marks):
            marks.append(it)
    return sorted(marks)


def ends_around(low, high):
    """The ends of an axis: round numbers around the data."""
    for _ in range(2):  # since the steps of the wider axis may be larger
        step = step_of(low, high)
        low, high = round(math.floor(low / step) * step, 6), round(math.ceil(high / step) * step, 6)
    return low, high


def shade_of(colour, part):
    """A colour mixed with white, of which it is a part below 1, or with black above."""
    channels = [int(colour[at:at + 2], 16) for at in (1, 3, 5)]
    mixed = [round(255 - (255 - it) * part if part <= 1 else it * (2 - part)) for it in channels]
    return "#" + "".join(f"{it:02x}" for it in mixed)


def terminal_of(is_png):
    """What is drawn on. A size of a font is in points of a PNG, and in pixels of an SVG."""
    kind, size = ("pngcairo", 10) if is_png else ("svg dynamic", 13)
    return f"set terminal {kind} size 960,540 background rgb 'white' font 'sans-serif,{size}' noenhanced"


def quoted(text):
    """A text for gnuplot in single quotes, in which it runs no command, expands no macro and reads no escape.
    Apostrophes and line feeds are put between such pieces; what else cannot be shown is a question mark."""
    shown = "".join(it if it.isprintable() or it == "\n" else "?" for it in text)
    return "'" + shown.replace("'", """' . "'" . '""").replace("\n", """' . "\\n" . '""") + "'"


def picture_of(commands, is_png, tool):
    """What gnuplot draws. An SVG has the commands in it, so that a picture can be compared with its data."""
    ended = subprocess.run(["gnuplot"], input=commands.encode(), stdout=subprocess.PIPE, check=False)
    if ended.returncode or not ended.stdout:
        sys.exit(f"{tool}: gnuplot ended with status {ended.returncode}")
    if is_png:
        return ended.stdout
    front, end, rest = ended.stdout.decode().rpartition("</svg>")
    return f"{front}<metadata>\n{escape(commands, quote=False)}</metadata>\n{end}{rest}".encode()
