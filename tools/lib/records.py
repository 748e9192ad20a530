"""Records of other programs' traces, for tools/convert: each is an object, with a size or none, a range of bytes of a
disk, or a run of blocks."""
import csv
import io
import re
import struct
from collections import namedtuple
from functools import partial

from .traces import SHOWN

# The number of a block is below this one.
BLOCKS = 1 << 64
Object = namedtuple("Object", "key size", defaults=(None,))
Range = namedtuple("Range", "disk offset size is_read")
Run = namedtuple("Run", "first count")
SECTOR = 512
LOG_LINE = re.compile(rb'\S+ \S+ \S+ \[[^]]*\] "((?:[^"\\]|\\.)*)" ([0-9]{3}) ([0-9]+|-)(?: .*)?')
# The codes of SCSI's READ (6), (10), (12) and (16).
READS = 0x08, 0x28, 0xA8, 0x88
SEPARATORS = {"tab": "\t", "space": None}


class LeftOut(Exception):
    """Why a record is no access."""


class Faulty(Exception):
    """Why a record cannot be read."""


def number_of(text):
    """A whole number of 64 bits. One below 0 is the number below 2^64 with the same bits."""
    digits = text.strip().removeprefix("-")
    if not (digits.isascii() and digits.isdigit() and len(digits) <= 20) or not -BLOCKS // 2 <= int(text) < BLOCKS:
        raise Faulty(f"{ascii(text[:SHOWN])} is no whole number of 64 bits")
    return int(text) % BLOCKS


def size_of(text):
    if "-" in text:
        raise Faulty(f"{ascii(text[:SHOWN])} is no size")
    return number_of(text)


def decoded(line):
    return line.decode("utf-8", "surrogateescape").rstrip("\r\n")


def fields_of(words, least):
    if len(words) < least:
        raise Faulty(f"it has {len(words)} fields where {least} are needed")
    return words


def arc(line):
    words = decoded(line).split()
    if not words:
        raise LeftOut("an empty line")
    run = Run(*map(number_of, fields_of(words, 2)[:2]))
    if not run.count:
        raise LeftOut("no blocks")
    if run.first + run.count > BLOCKS:
        raise Faulty("it has blocks past 2^64")
    return run


def msr(line):
    _, host, disk, kind, offset, size, *_ = fields_of(decoded(line).split(","), 6)
    return Range((host, disk), number_of(offset), number_of(size), kind.lower() == "read")


def spc(line):
    unit, sector, size, kind, *_ = fields_of(decoded(line).split(","), 4)
    return Range(unit, number_of(sector) * SECTOR, number_of(size), kind.lower() == "r")


def blktrace(line):
    words = decoded(line).split()
    if len(words) < 10 or words[5] != "Q" or words[8] != "+":
        raise LeftOut("no queued request")
    return Range(words[0], number_of(words[7]) * SECTOR, number_of(words[9]) * SECTOR, "R" in words[6])


def log(line):
    found = LOG_LINE.fullmatch(line.rstrip(b"\r\n"))
    if not found:
        raise Faulty("it is no line of the common or the combined log format")
    method, _, target = decoded(found[1]).partition(" ")
    if method != "GET":
        raise LeftOut("no GET")
    if found[2] not in (b"200", b"206", b"304"):
        raise LeftOut("another status than 200, 206 and 304")
    return Object(target.rpartition(" ")[0] or target, number_of(decoded(found[3]).replace("-", "0")))


def oracle_general(record):
    _, key, size, _ = struct.unpack("<IQIq", record)
    return Object(key, size)


def cloudphysics(record):
    _, size, _, command, _, sector, _ = struct.unpack("<IIIHHQQ", record)
    return request(command, sector, size)


def cloudphysics2(record):
    command, _, _, size, _, sector, _, _ = struct.unpack("<HHIIIQQQ", record)
    return request(command, sector, size)


def request(command, sector, size):
    return Range(None, sector * SECTOR, size, command & 0xFF in READS)


LINES = {"log": log, "text": lambda line: Object(decoded(line)), "arc": arc, "msr": msr, "spc": spc,
         "blktrace": blktrace}
# How many bytes a record has, and how it is read.
BINARY = {"oracleGeneral": (24, oracle_general), "cloudphysics": (32, cloudphysics),
          "cloudphysics2": (40, cloudphysics2)}
FORMATS = ["csv", *LINES, *BINARY]


def records_of(args, file):
    """For each record of an open file how it is read, and what it is: a line, the fields of a row, or so many bytes."""
    if args.form in BINARY:
        length, read = BINARY[args.form]
        return ((read, record) for record in iter(partial(file.read, length), b""))
    if args.form in LINES:
        return ((LINES[args.form], line) for line in file)
    texts = io.TextIOWrapper(file, "utf-8-sig", "surrogateescape", newline="")
    rows = csv.reader(texts, delimiter=args.separator, strict=True) if args.separator else map(str.split, texts)
    header = None if args.key.isdecimal() else [it.strip() for it in next(rows, [])]
    read = partial(row, Columns(args, header))
    return ((read, it) for it in rows)


class Columns:
    """The columns of CSV by the names of its header, or by their numbers from 1 where it has none."""

    def __init__(self, args, header):
        def place_of(name):
            if header is None and name.isdecimal() and int(name):
                return int(name) - 1
            if name not in (header or []):
                raise Faulty(f"there is no column {ascii(name)}")
            return header.index(name)

        self.key, self.size = place_of(args.key), args.size and place_of(args.size)
        self.only = [(place_of(name), name, values.split(",")) for name, _,
                     values in (it.partition("=") for it in args.only)]
        self.least, self.is_text = 1 + max([self.key, self.size or 0,
                                            *(it[0] for it in self.only)]), args.text or args.size


def row(columns, fields):
    if not fields:
        raise LeftOut("an empty line")
    fields_of(fields, columns.least)
    for at, name, values in columns.only:
        if fields[at] not in values:
            raise LeftOut(f"{name} is none of {','.join(values)}")
    key = fields[columns.key]
    return Object(key if columns.is_text else number_of(key),
                  columns.size is not None and size_of(fields[columns.size]))
