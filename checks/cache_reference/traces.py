"""Traces: the accesses that a text stands for, or its first fault; faults as the program reports them."""

BLANKS = b" \t\r"
ALL_BITS = 2**64 - 1
MAX_ACCESSES = 2**24
MAX_LONG_ACCESSES = 2**32 - 1


class Fault(Exception):
    """A fault with the words of its line, and what is printed in spite of it."""

    def __init__(self, words, printed="", status=1):
        super().__init__(words)
        self.words, self.printed, self.status = words, printed, status


def number_of(field):
    # int() takes no thousands of digits.
    number = int(field.lstrip(b"0")[:21] or b"0") if field.isdigit() else ALL_BITS + 1
    return number if number <= ALL_BITS else None


def lirs_keys(line, _):
    if line in (b"", b"*"):
        return []
    if number_of(line) is None:
        raise Fault("BadNumber")
    return [number_of(line)]


def arc_keys(line, room):
    fields = [it for it in line.replace(b"\t", b" ").split(b" ") if it]
    if not fields:
        return []
    if len(fields) == 1:
        raise Fault("MissingField")
    start, count = map(number_of, fields[:2])
    if start is None or count is None:
        raise Fault("BadNumber")
    if start + count > 2**64:
        raise Fault("Range")
    if count > room:
        raise Fault("TooLong")
    return range(start, start + count)


def plain_keys(data, most):
    """The accesses of lines that are numbers without a fault and nothing else, which are most traces; none of
    others."""
    fields = [] if data.translate(None, b"0123456789\n") else data.split()
    if len(fields) > most or max(map(len, fields), default=0) > 20:
        return []
    keys = [*map(int, fields)]
    return keys if max(keys, default=0) <= ALL_BITS else []


def keys_of(form, data, is_long=False):
    """The accesses of a trace, or the fault of its first faulty line. One that is long may have more of them."""
    most = MAX_LONG_ACCESSES if is_long else MAX_ACCESSES
    if form == "lirs" and (keys := plain_keys(data, most)):
        return keys
    keys, keys_of_line = [], {"lirs": lirs_keys, "arc": arc_keys}[form]
    for number, line in enumerate(data.split(b"\n"), 1):
        try:
            keys += keys_of_line(line.strip(BLANKS), most - len(keys))
        except Fault as fault:
            raise Fault(f"{fault.words} line {number}") from None
    return keys
