"""Trace files for the scripts of tools/: from a path, a pipe or `-`, packed or not, in the formats lirs and arc."""
import contextlib
import gzip
import os
import shutil
import signal
import stat
import subprocess
import sys
import tempfile
import zlib
from pathlib import Path

FORMATS = ["lirs", "arc"]
GZIP, ZSTD = b"\x1f\x8b", b"\x28\xb5\x2f\xfd"
PACKERS = {"gzip": GZIP, "zstd": ZSTD}
COPIED = 1 << 20
# So many characters of a faulty line are shown.
SHOWN = 40

# An interrupt ends a script at once and without a word, but where its caller has it ignore interrupts.
if signal.getsignal(signal.SIGINT) == signal.default_int_handler:
    signal.signal(signal.SIGINT, signal.SIG_DFL)


class Unreadable(Exception):
    """Why a trace cannot be read."""


class TraceFile:
    """The text of a trace, which can be read again and again: the file, or an unpacked copy of it or of a pipe."""

    def __init__(self, name):
        self.name = name
        try:
            source = os.fdopen(os.dup(0), "rb") if name == "-" else open(name, "rb")
            first = source.peek(len(ZSTD))[:len(ZSTD)]
            is_file = stat.S_ISREG(os.fstat(source.fileno()).st_mode) and not first.startswith((GZIP, ZSTD))
            self.packed_by = next((it for it, sign in PACKERS.items() if first.startswith(sign)), None)
            # A caller may have read lines of a standard input.
            self.start = source.tell() if is_file else 0
            self.file = source if is_file else copy_of(source, first)
        except (OSError, EOFError, zlib.error) as fault:
            raise Unreadable(f"{name}: {getattr(fault, 'strerror', None) or fault}") from None
        self.stamp = stamp_of(self.file.fileno())

    def begun(self):
        """The number of the open file, set to where the trace begins, if it is as it was at first."""
        if stamp_of(self.file.fileno()) != self.stamp:
            raise Unreadable(f"{self.name}: it has changed while it was read")
        os.lseek(self.file.fileno(), self.start, os.SEEK_SET)
        return self.file.fileno()

    def lines(self):
        return os.fdopen(os.dup(self.begun()), "rb")

    def apart(self):
        """The file, opened once more where the trace begins: who reads it moves no place of another."""
        file = open(f"/proc/self/fd/{self.begun()}", "rb")
        file.seek(self.start)
        return file


def stamp_of(file):
    """The size of a file and the time of its last change, by which a change is seen, or None where it is not here."""
    try:
        it = os.stat(file)
        return [it.st_size, it.st_mtime_ns]
    except OSError:
        return None


def copy_of(source, first):
    copy = tempfile.TemporaryFile()
    if first.startswith(ZSTD):
        unpack_zstd(source, copy)
    else:
        shutil.copyfileobj(gzip.open(source) if first.startswith(GZIP) else source, copy, COPIED)
    copy.flush()
    return copy


def unpack_zstd(source, copy):
    if not shutil.which("zstd"):
        raise OSError("it is packed by zstd, which is not on this machine (Debian: apt-get install zstd)")
    with subprocess.Popen(["zstd", "-dcq"], stdin=subprocess.PIPE, stdout=copy) as unpacking:
        with contextlib.suppress(BrokenPipeError):
            shutil.copyfileobj(source, unpacking.stdin, COPIED)
            unpacking.stdin.close()
    if unpacking.returncode:
        raise OSError("zstd cannot unpack it")


def ranges_of(lines, form):
    """The first block and the count of each line with accesses, of a trace that the program has read without a fault."""
    for fields in map(bytes.split, lines):
        if fields and fields != [b"*"] and (count := 1 if form == "lirs" else int(fields[1])):
            yield int(fields[0]), count


def shown(line):
    """The first 40 characters of a line, as Python writes them: a terminal obeys none of these."""
    text = line.decode(errors="replace").rstrip("\r\n")
    return ascii(text[:SHOWN]) + " .." * (len(text) > SHOWN)


def read_blocks(lines, form):
    """The blocks of such a trace, in order."""
    if form == "lirs":
        return (int(line) for line in lines if line.strip() not in (b"", b"*"))
    return (block for first, count in ranges_of(lines, form) for block in range(first, first + count))


def beginning_of(lines, form, accesses):
    """The text of the first accesses of a trace, line by line."""
    for first, count in ranges_of(lines, form):
        taken = min(count, accesses)
        yield b"%d\n" % first if form == "lirs" else b"%d %d\n" % (first, taken)
        accesses -= taken
        if not accesses:
            return


def write(output, tool):
    """Writes all of a script's output, a text or bytes, or ends the script with what hinders it."""
    try:
        with os.fdopen(1, "wb", closefd=False) as out:
            out.write(output.encode(errors="surrogateescape") if isinstance(output, str) else output)
    except BrokenPipeError:
        # As a program that does not look: whoever read it wants no more.
        os._exit(141)
    except OSError as fault:
        sys.exit(f"{tool}: the output cannot be written: {fault.strerror}")


def refuse_own(file, traces, tool):
    """Ends a script that would put a picture or a table in the place of one of its traces."""
    for trace in traces:
        if os.path.exists(file) and os.path.exists(trace) and os.path.samefile(file, trace):
            sys.exit(f"{tool}: {file} is the trace {trace}: name another file")


def replace_file(name, data, tool):
    """Writes a file beside its place and moves it there, so that what stood there stays where that fails. What is no
    file, as a pipe, is written as it is."""
    place = os.path.realpath(name)
    is_file = os.path.isfile(name) or not os.path.exists(name)
    # Nobody else knows the name, whatever runs on other machines.
    beside = f"{os.path.dirname(place)}/.cachesim.{os.urandom(8).hex()}" if is_file else name
    try:
        with open(beside, "xb" if is_file else "wb") as file:
            file.write(data)
        if is_file:
            os.replace(beside, place)
    except OSError as fault:
        if is_file:
            Path(beside).unlink(missing_ok=True)
        sys.exit(f"{tool}: {name} cannot be written: {fault.strerror}")
