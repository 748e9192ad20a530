"""Tests of tools/convert, by records whose blocks were worked out by hand."""
import struct
import subprocess

from frame import Mistake, expect, expect_full_disk, expect_parts, expect_quiet_interrupt, file_of, run

MSR = "1,hm,1,Read,383496192,32768,9\n2,hm,0,Write,4608,4096,9\n3,hm,1,Read,4096,0,9\n4,hm,0,Read,8191,1,9\n"
LOG = """1.2.3.4 - - [29/Nov/2026:10:00:00 +0000] "GET /a HTTP/1.1" 200 5000
1.2.3.4 - - [29/Nov/2026:10:00:00 +0000] "GET /b?c=\\"d e HTTP/1.1" 304 - "-" "an agent"
::1 - joe [29/Nov/2026:10:00:01 +0000] "POST /b HTTP/1.1" 200 7 "-" "an agent"
::1 - joe [29/Nov/2026:10:00:01 +0000] "GET /c HTTP/1.1" 404 7 "-" "an agent"
::1 - joe [29/Nov/2026:10:00:02 +0000] "GET /a HTTP/1.1" 206 9000 "-" "an agent"
::1 - joe [29/Nov/2026:10:00:02 +0000] "GET /d HTTP/1.1" 200 1
"""
TOP = (1 << 64) - 1
ORACLE = b"".join(struct.pack("<IQIq", 1, *it, -1) for it in ((42, 4096), (TOP, 4097), (42, 1), (7, 0)))
# Sector 8589934608 is byte 4398046519296, in block 1073741826; 8192 bytes from there on are blocks 1073741826 and ..27.
SECTOR = 8589934608
SCSI = b"".join(struct.pack("<IIIHHQQ", 1, *it, 5) for it in ((8192, 1, 0x28, 0x100, SECTOR), (512, 1, 0x2A, 0x100, 9)))
SCSI2 = struct.pack("<HHIIIQQQ", 0x28, 0x200, 1, 8192, 1, SECTOR, 5, 6)
# For each: the arguments, what is read, what is written, and what is said.
CALLS = [
    (["oracleGeneral"], ORACLE, f"42\n{TOP}\n42\n7\n", "4 of 4 records, for --format lirs"),
    # 42 has one block, the largest key two; 7 has no size.
    (["oracleGeneral", "--sizes"], ORACLE, "0 1\n1 2\n0 1\n",
     "3 of 4 records, for --format arc; left out: 1 (no known size)"),
    (["oracleGeneral", "--sizes", "--block", 2048], ORACLE, "0 2\n2 3\n0 2\n",
     "3 of 4 records, for --format arc; left out: 1 (no known size); 1 sizes are others than the object's first, which "
     "counts"),
    # 383496192 / 4096 is 93627; byte 4608 to 8703 are blocks 1 and 2; byte 8191 is the last of block 1. Disk 0 comes
    # second.
    (["msr"], MSR, f"93627 8\n{2**40 + 1} 2\n{2**40 + 1} 1\n",
     "3 of 4 records, for --format arc; left out: 1 (no bytes)"),
    (["msr", "--reads"], MSR, f"93627 8\n{2**40 + 1} 1\n",
     "2 of 4 records, for --format arc; left out: 1 (a write), 1 (no bytes)"),
    (["spc"], "1,20941264,8192,W,0.5\n0,1,512,r,0.6\n", f"2617658 2\n{2**40} 1\n", "2 of 2 records, for --format arc"),
    (["spc", "--reads"], "1,20941264,8192,W,0.5\n0,1,512,r,0.6\n", "0 1\n",
     "1 of 2 records, for --format arc; left out: 1 (a write)"),
    (["blktrace", "--reads"],
     "8,0 1 5 0.1 4000 Q RS 223490 + 16 [fio]\n8,0 1 5 0.1 4000 C RS 223490 + 16 [0]\n"
     "8,0 1 6 0.2 4000 Q WS 0 + 8 [fio]\n"
     "CPU0 (8,0):\n", "27936 3\n", "1 of 4 records, for --format arc; left out: 2 (no queued request), 1 (a write)"),
    (["cloudphysics"], SCSI, "1073741826 2\n1 1\n", "2 of 2 records, for --format arc"),
    (["cloudphysics", "--reads"], SCSI, "1073741826 2\n", "1 of 2 records, for --format arc; left out: 1 (a write)"),
    (["cloudphysics2"], SCSI2, "1073741826 2\n", "1 of 1 records, for --format arc"),
    (["log"], LOG, "0\n1\n0\n2\n",
     "4 of 6 records, for --format lirs; left out: 1 (no GET), 1 (another status than 200, 206 and 304)"),
    (["log", "--sizes"], LOG, "0 2\n0 2\n2 1\n",
     "3 of 6 records, for --format arc; left out: 1 (no known size), 1 (no GET), "
     "1 (another status than 200, 206 and 304); 1 sizes are others than the object's first, which counts"),
    (["arc"], f"7 2 x\n\n{TOP} 1\n5 0\n", f"7\n8\n{TOP}\n",
     "2 of 4 records, for --format lirs; left out: 1 (an empty line), 1 (no blocks)"),
    (["text"], "b\n\n b\nb\r\n", "0\n1\n2\n0\n", "4 of 4 records, for --format lirs"),
    (["csv", "--key", "hash", "--separator", "tab"], "time\thash\n0\t-5\n0\t42\n0\t18446744073709551615\n",
     f"{2**64 - 5}\n42\n{TOP}\n",
     "3 of 3 records, for --format lirs"),
    (["csv", "--key", "id"], "\ufefftime, id\n1, 7\n", "7\n", "1 of 1 records, for --format lirs"),
    (["csv", "--key", 2, "--only", "3=get,gets", "--text"], '0,"a,b",get\n0,a,set\n\n0,b,get\n1,"a,b",gets\n',
     "0\n1\n0\n",
     "3 of 5 records, for --format lirs; left out: 1 (3 is none of get,gets), 1 (an empty line)"),
    (["csv", "--key", 2, "--size", 3, "--separator", "space"], "1 77 9000\n2  88 100\n3 77\t9000\n", "0 3\n3 1\n0 3\n",
     "3 of 3 records, for --format arc"),
    (["csv", "--key", 1, "--skip"], "7\n7x\n-9223372036854775809\n18446744073709551616\n8\n", "7\n8\n",
     "2 of 5 records, for --format lirs; left out: 3 (cannot be read)"),
]


def check_formats(convert, folder):
    """Each format, packed too, and what is said of what is left out."""
    for at, (words, given, wanted, said) in enumerate(CALLS):
        octets = given if isinstance(given, bytes) else given.encode()
        packed = subprocess.run([("gzip", "zstd")[at % 2], "-q"], input=octets, capture_output=True, check=True).stdout
        expect(f"{words}", run(convert, "--from", *words, typed=packed), (wanted, f"tools/convert: {said}\n"))
        expect(f"{words} of a file", run(convert, "--from", *words, file_of(folder, "trace", octets))[0], wanted)


def check_numbers(convert, folder):
    """The table of numbers, in which a key stands as it came."""
    table = folder / "table"
    run(convert, "--from", "text", "--numbers", table, typed=b'b\na,"\n\xff\nb\n')
    expect("the table", table.read_bytes(), b'block,key\n0,b\n1,"a,"""\n2,\xff\n')
    run(convert, "--from", "log", "--sizes", "--numbers", table, typed=LOG)
    expect("with sizes", table.read_text(), "block,count,key\n0,2,/a\n2,1,/d\n")


def check_many(convert, folder):
    """More lines than are written at once, and an output that cannot be written."""
    text = "".join(f"{it * it % 9001}\n" for it in range(40000))
    expect("the lines", run(convert, "--from", "csv", "--key", 1, typed=text)[0], text)
    out, error = run(convert, "--from", "arc", typed="1 1\n" + "5 0\n" * 40000 + "7 1\n")
    expect("behind many that have none", (out, error),
           ("1\n7\n", "tools/convert: 2 of 40002 records, for --format lirs; left out: 40000 (no blocks)\n"))
    expect_full_disk(convert, "--from", "text", typed=text)
    expect_quiet_interrupt(convert, folder, "--from", "text")


def check_refusals(convert, folder):
    """What cannot be read ends the script with its place; so do columns that are not there, and options of other
    formats."""
    for words, given, said in (
            (["msr"], "1,hm,1,Read,5,4096,9\n1,hm,1\n", "record 2: it has 3 fields where 6 are needed: '1,hm,1'"),
            (["msr"], "1,hm,1,Read,5,x,9\n", "record 1: 'x' is no whole number of 64 bits: '1,hm,1,Read,5,x,9'"),
            (["msr"], f"1,hm,1,Read,{2**52},1,9\n", "record 1: a disk has no block past 2^40"),
            (["log"], LOG + "x\n", "record 7: it is no line of the common or the combined log format: 'x'"),
            (["oracleGeneral"], ORACLE[:30], "record 2: unpack requires a buffer of 24 bytes"),
            (["arc"], f"{TOP} 2\n", "record 1: it has blocks past 2^64"),
            (["csv", "--key", "b"], "a,c\n1,2\n", "there is no column 'b'"),
            (["csv", "--key", "0"], "1,2\n", "there is no column '0'"),
            (["csv", "--key", "2"], "1,2\n1\n", "record 2: it has 1 fields where 2 are needed: ['1']"),
            (["csv", "--key", "1"], "٣\n", "is no whole number of 64 bits"),
            (["csv", "--key", "1", "--size", "2"], "1,4\n2,-1\n", "record 2: '-1' is no size: ['2', '-1']"),
            (["csv", "--key", "1", "--size", "2", "--block", 1], f"1,{TOP}\n",
             f"record 1: an object has 2^40 blocks at most: ['1', '{TOP}']"),
            (["log", "--sizes"], LOG.replace(" 5000", " " + "5" * 5000), "is no whole number of 64 bits"),
            # The quotes of the first row would have all others in them.
            (["csv", "--key", "id", "--skip"], 'id,url\n1,a\n2,"b\n3,c\n', "record 2: unexpected end of data"),
            (["csv", "--key", "2", "--text"], '1,a\n2,"b"c\n', "record 2: ',' expected after '\"'"),
            (["csv", "--key", "1"], "1" * 200000, "record 1: field larger than field limit")):
        expect_parts(f"{words}", run(convert, "--from", *words, status=1, typed=given)[1],
                     f"tools/convert: {said}" if ": " in said else said)
    for words, said in ((["csv"], "--key COLUMN goes with --from csv"),
                        (["msr", "--key", "1"], "--key COLUMN goes with --from csv"),
                        (["text", "--only", "1=a"], "--only goes with --from csv"),
                        (["arc", "--sizes"], "--sizes goes with --from oracleGeneral, log"),
                        (["csv", "--key", "1", "--reads"], "--reads goes with --from msr, spc, "),
                        (["csv", "--key", "1", "--separator", ";;"], ";; is not one character, tab or space"),
                        (["other"], "invalid choice")):
        expect_parts(f"{words}", run(convert, "--from", *words, status=2)[1], said)
    expect_parts("no file", run(convert, "--from", "text", folder / "none", status=1)[1], "none: No such file")
    trace = file_of(folder, "trace", "a\n")
    expect_parts("a table in its place", run(convert, "--from", "text", "--numbers", trace, trace, status=1)[1],
                 "is the trace")
    expect("what stands there", trace.read_text(), "a\n")


MISTAKES = {
    "a sector of one byte": Mistake(check_formats, "lib/records.py", "SECTOR = 512", "SECTOR = 1"),
    "half of a key": Mistake(check_formats, "lib/records.py", '"<IQIq"', '"<IIIIq"'),
    "signs lost": Mistake(check_formats, "lib/records.py", "return int(text) % BLOCKS", "return int(digits)"),
    "writes as reads": Mistake(check_formats, "lib/records.py", "command & 0xFF in READS", "True"),
    "disks over each other": Mistake(check_formats, "convert", "len(self.disks)) * DISK + first",
                                     "len(self.disks)) + first"),
    "the last block": Mistake(check_formats, "convert", "record.size - 1) // self.args.block",
                              "record.size) // self.args.block"),
    "in silence": Mistake(check_formats, "convert", "                self.left[str(reason)] += 1\n",
                          "                pass\n"),
    "sizes that change in silence": Mistake(check_formats, "convert", "count != known)", "False)"),
    "a run by its last size": Mistake(check_formats, "convert", 'return f"{first} {known}', 'return f"{first} {count}'),
    "errors of a server": Mistake(check_formats, "lib/records.py", 'if found[2] not in (b"200", b"206", b"304"):',
                                  "if False:"),
    "a table without keys": Mistake(check_numbers, "convert", "*[count] * self.is_sized, key)",
                                    "*[count] * self.is_sized, first)"),
    "the first lines alone": Mistake(check_many, "convert", 'while text := "".join(islice(lines, LINES)):',
                                     'if text := "".join(islice(lines, LINES)):'),
    "what cannot be read is left out": Mistake(check_refusals, "convert", "if not self.args.skip:", "if False:"),
    "quotes without an end": Mistake(check_refusals, "lib/records.py", ", strict=True)", ")"),
    "empty lines in silence": Mistake(check_formats, "lib/records.py", "((read, it) for it in rows)",
                                      "((read, it) for it in rows if it)"),
    "ranges of no block in silence": Mistake(check_many, "lib/records.py", "    if not run.count:\n", "    if False:\n"),
    "a size below 0": Mistake(check_refusals, "lib/records.py", '    if "-" in text:\n', "    if False:\n"),
    "options of another format": Mistake(check_refusals, "convert", "and args.form not in forms", "and False"),
    "a table in a trace's place": Mistake(check_refusals, "convert", "    if args.numbers:\n        refuse", "    if False:\n        refuse"),
    "blocks of another disk": Mistake(check_refusals, "convert", "if last >= DISK:", "if False:"),
}
