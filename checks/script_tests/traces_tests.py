"""Tests of how scripts open, name and keep files, by tools/survey over a program whose reports are known."""
import csv
import gzip
import io
import os
import random
import shutil
import subprocess
import sys

from frame import NOTING, Mistake, expect, expect_parts, fake, file_of, gnuplot_by, rows_of, run


def check_kept_files(survey, folder):
    """A picture does not take the place of its trace, and a trace that grows meanwhile is refused, in each of its readings."""
    trace, drawn = file_of(folder, "trace", "1\n2\n1\n"), folder / "link.svg"
    drawn.symlink_to(trace)
    for name in (trace, drawn):
        expect_parts("a picture", run(survey, "--plot", name, trace, status=1, env=gnuplot_by(folder, NOTING))[1], "is the trace ")
    expect("the trace", trace.read_text(), "1\n2\n1\n")
    counting = file_of(folder, "counting", f'#!/bin/sh\ncase $1$2 in *--help*) exec {fake(folder)} "$@" ;; esac\n'
                       f'echo >>{folder}/calls\n{folder}/fake "$@"\n[ "$(wc -l <{folder}/calls)" -ne "$GROWS" ] || echo 3 >>{trace}\n')
    counting.chmod(0o755)
    words, how = ("--program", counting, "--capacity=1", "--table=policies", trace), {"env": {**os.environ, "GROWS": "0"}}
    run(survey, *words, **how)
    calls = len((folder / "calls").read_text())
    for call in (1, calls):
        (folder / "calls").unlink()
        _, error = run(survey, *words, status=1, env={**os.environ, "GROWS": str(call)})
        expect(f"what grows in call {call}", error, f"tools/survey: {trace}: it has changed while it was read\n")


def check_begun(survey, folder):
    """A standard input of which lines were read begins behind these; packed files that are broken are refused."""
    trace, words = file_of(folder, "trace", "1\n2\n1\n3\n" * 100), ("--program", fake(folder), "--csv", "--table", "traces")
    for count in (2, 300):
        script = f'i=0; while [ $((i += 1)) -le {count} ]; do read -r _; done; exec "$@"'
        with open(trace, "rb") as typed:
            out = run("/bin/sh", "-c", script, "sh", sys.executable, survey, *words, "-", stdin=typed)[0]
        expect(f"without {count} lines", rows_of(out)[0]["accesses"], str(400 - count))
    packed = bytearray(gzip.compress(random.Random(1).randbytes(999).hex().encode()))
    packed[10:30] = b"\xff" * 20
    for text in (packed, packed[:400], bytes.fromhex("28b52ffd") + b"no frame"):
        error = run(survey, *words, file_of(folder, "packed", bytes(text)), status=1)[1]
        expect_parts("what is packed", error.splitlines()[-1], "tools/survey: ", "packed: ")


def check_names(survey, folder):
    """A name that is no UTF-8 stands in a table as it is, and one with a line break in none."""
    words = "--program", fake(folder), "--csv", "--table", "traces"
    for name in (b"\xff", "\x85'\" ,x".encode()):
        path = os.fsencode(folder) + b"/" + name
        with open(path, "wb") as file:
            file.write(b"1\n1\n")
        ended = subprocess.run([sys.executable, survey, *words, path], capture_output=True, check=False)
        rows = list(csv.reader(io.StringIO(ended.stdout.decode(errors="surrogateescape"))))
        expect("the name", [os.fsencode(row[0]) for row in rows], [b"trace", path])
    for name in ("a\rb", "a\nb"):
        path = file_of(folder, name, "1\n")
        expect_parts("a line break", run(survey, *words, path, status=2)[1], "a name with a line break stands in no table", ascii(str(path)))


def check_beside(survey, folder):
    """A script calls the program beside its folder, also where that folder or the script itself is a link."""
    trace, linked, copied = file_of(folder, "trace", "1\n2\n1\n"), folder / "linked", folder / "copied"
    linked.mkdir()
    (linked / "tools").symlink_to(survey.parent)
    shutil.copytree(survey.parent, copied / "tools")
    (folder / "links").mkdir()
    (folder / "links/survey").symlink_to(copied / "tools/survey")
    for top, script in ((linked, linked / "tools/survey"), (copied, folder / "links/survey")):
        fake(folder).rename(top / "cachesim")
        out = run(script, "--csv", "--table", "traces", trace, env={**os.environ, "PATH": "/usr/bin:/bin"})[0]
        expect(f"by {script}", out.splitlines()[1], f"{trace},3,2,1,33.33")


MISTAKES = {
    "no link of a folder": Mistake(check_beside, "lib/reports.py", "(Path(script).absolute(), ", "(Path(script).resolve(), "),
    "no link of a script": Mistake(check_beside, "lib/reports.py", ", Path(script).resolve())]", ", Path(script).absolute())]"),
    "a trace in a picture's place": Mistake(check_kept_files, "survey", "            refuse_own(file, args.trace, TOOL)\n", "            pass\n"),
    "a trace that grows": Mistake(check_kept_files, "lib/traces.py", "!= self.stamp:", "is None:"),
    "a trace that grows at last": Mistake(check_kept_files, "lib/reports.py", "        self.file.begun()  #", "        #"),
    "what was read of a standard input": Mistake(check_begun, "lib/traces.py", "self.start = source.tell() if is_file else 0", "self.start = 0"),
    "broken gzip": Mistake(check_begun, "lib/traces.py", "(OSError, EOFError, zlib.error)", "(OSError, EOFError)"),
    "names that are no UTF-8": Mistake(check_names, "lib/traces.py", 'errors="surrogateescape"', 'errors="strict"'),
    "names of several lines": Mistake(check_names, "survey", 'or "\\r" in name', ""),
}
