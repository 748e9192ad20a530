"""Tests of tools/corpus: its report beside figures worked out by hand and beside the reference, and what becomes of faulty
traces, of runs that were ended, and of jobs on other hosts.
"""
import contextlib
import fcntl
import hashlib
import json
import os
import re
import shutil
import signal
import socket
import subprocess
import sys
import warnings
from fractions import Fraction
from pathlib import Path

import cache_reference
from checks import becomes
from frame import (NOTING, SECONDS, Mistake, Wrong, expect, expect_full_disk, expect_parts, fake, file_of, gnuplot_by,
                                opened_by_a_reader, rows_of, run, without_texts)

BOTH = "--policy=fifo", "--policy=lru"
# What is shown of a line of 65 characters, of which a terminal would obey the second.
FAULTY = r"'x\x1b[2J-----------------------------------' .."
# A name that a shell, a list by lines and a list by blanks would each take for something else.
ODD = "a 'b\" $(touch made) {} {#}\n-c\\d.lirs"
# By the number of distinct blocks of a trace of 100 accesses: fifo hits 50 percent, lru 45, 50, 55, 60 and 65, and sieve 52;
# with a cache of half of them 60, 62 to 70 and 61.
KNOWN = ("{'fifo': 60, 'lru': 60 + distinct // 5, 'sieve': 61}[policy] if 2 * capacity == distinct "
         "else {'fifo': 50, 'lru': 40 + distinct // 2, 'sieve': 52}[policy]")
SECONDS_TO_END = 30
SSHD, SLURM = ("parallel", "rsync", "ssh", "ssh-keygen", "sshd"), ("sbatch", "slurmctld", "slurmd", "munged")
# A Slurm of one node.
SLURM_CONF = """ClusterName=corpus
SlurmctldHost={host}(127.0.0.1)
SlurmctldPort={ports[0]}
SlurmdPort={ports[1]}
AuthType=auth/munge
AuthInfo=socket={folder}/socket
CredType=cred/munge
SlurmUser=root
StateSaveLocation={folder}/state
SlurmdSpoolDir={folder}/spool
SlurmctldPidFile={folder}/slurmctld.pid
SlurmdPidFile={folder}/slurmd.pid
ProctrackType=proctrack/linuxproc
TaskPlugin=task/none
SelectType=select/cons_tres
SelectTypeParameters=CR_CPU
MailProg=/bin/true
SchedulerParameters=sched_interval=1,batch_sched_delay=0
NodeName={host} NodeAddr=127.0.0.1 CPUs=2 State=UNKNOWN
PartitionName=all Nodes={host} Default=YES MaxTime=INFINITE State=UP
"""
TABLE = """% of footprint,policy,traces,mean,P10,P25,P50,P75,P90,best on,near on
10,fifo,5,0.00,0.00,0.00,0.00,0.00,0.00,0,0
10,lru,5,10.00,-6.00,0.00,10.00,20.00,26.00,3,3
10,sieve,5,4.00,4.00,4.00,4.00,4.00,4.00,2,2
50,fifo,5,0.00,0.00,0.00,0.00,0.00,0.00,0,0
50,lru,5,15.00,7.00,10.00,15.00,20.00,23.00,5,5
50,sieve,5,2.50,2.50,2.50,2.50,2.50,2.50,0,0
"""
# What gnuplot is given of that: the rows of each policy, its boxes, whiskers and median, and where the sizes are named.
BOXES = [
    "$policy0 << END\n0 -6.000000 0.000000 10.000000 20.000000 26.000000 10.000000\n"
    "3 7.000000 10.000000 15.000000 20.000000 23.000000 15.000000\nEND",
    "$policy1 << END\n1 4.000000 4.000000 4.000000 4.000000 4.000000 4.000000\n4 2.500000",
    "set yrange [-10:30]", "set xrange [-1:5]", "'10 %% of the footprint' 0.5, '50 %% of the footprint' 3.5",
    "Misses fewer than fifo' . \"\\n\" . 'P10, P25, P50, P75, P90 and mean of 5 traces"]


def trace_of(folder, name, blocks):
    return file_of(folder, name, "".join(f"{it}\n" for it in blocks))


def known_traces(folder):
    """Traces of 100 accesses to 10, 20, 30, 40 and 50 blocks."""
    return [trace_of(folder, f"{count}.lirs", [it % count for it in range(100)]) for count in (10, 20, 30, 40, 50)]


def without_parallel(folder):
    """The environment in which `parallel` is another program than GNU's."""
    file = file_of(folder, "parallel", "#!/bin/sh\nexit 1\n")
    file.chmod(0o755)
    return {**os.environ, "PATH": f"{folder}:{os.environ['PATH']}"}


def environments(folder):
    """Those in which jobs are run by Python and, where it is there, by GNU parallel."""
    (folder / "bin").mkdir()
    yield "pool", without_parallel(folder / "bin")
    if shutil.which("parallel"):
        yield "parallel", dict(os.environ)
    else:
        pass_over("GNU parallel")


def pass_over(what):
    warnings.warn(f"passed over, since this machine has no {what}", stacklevel=2)


def check_known_report(corpus, folder):
    """A report that was worked out by hand, and its pictures."""
    program = fake(folder, KNOWN, policies=["fifo", "lru", "sieve"])
    run(corpus, "run", "--program", program, "--percent=10", "--percent=50", "--out", folder / "out", *known_traces(folder),
        cwd=folder, env=without_parallel(folder))
    expect("the table", run(corpus, "report", "--csv", folder / "out")[0], TABLE)
    of_lru = run(corpus, "report", "--csv", "--baseline=lru", folder / "out")[0]
    # 55 of 50 misses are 10 percent more, 45 are 1/9 fewer, 40 are 1/4 more, 35 are 3/7 more.
    expect("beside lru", rows_of(of_lru)[0]["P10"], "-35.71")
    environment = gnuplot_by(folder, NOTING)
    run(corpus, "report", folder / "out", "--plot", folder / "boxes.svg", cwd=folder, env=environment)
    given = (folder / "given").read_text()
    expect_parts("the boxes", given, *BOXES)
    drawn = re.findall(r"(\$\w+) using ([0-9:]+) with (\w+).*? (title '\w+'|notitle)", given)
    expect("what is drawn", drawn, [(f"${name}", using, how, title) for name, policy in (("policy0", "lru"), ("policy1", "sieve"))
                                    for using, how, title in (("1:3:2:6:5", "candlesticks", f"title '{policy}'"),
                                                              ("1:4:4:4:4", "candlesticks", "notitle"), ("1:7", "points", "notitle"))])
    run(corpus, "report", folder / "out", "--plot", folder / "points.svg", "--scatter", "lru", "fifo", cwd=folder, env=environment)
    points = (folder / "given").read_text()
    expect_parts("the points", points, "$size0 << END\n-10.000000 0.000000\n0.000000 0.000000\n10.000000 0.000000\n",
                 "$size1 << END\n5.000000 0.000000\n", "each point a trace; above the line fifo has fewer", "set xlabel 'lru: ")
    expect("the sizes", re.findall(r"(\$\w+) with points .*? title '(\d+) % of", points), [("$size0", "10"), ("$size1", "50")])
    expect("texts in quotes", '"' in without_texts(given), False)
    expect_full_disk(corpus, "report", folder / "out")


def check_near(corpus, folder):
    """Near to the best is who is within half a point with at most 5 percent more misses, at two hit ratios."""
    program = fake(folder, "distinct - (policy == 'lru') * 4", policies=["fifo", "lru"], parts=1000)
    # Of 1000 accesses fifo misses 100 and 40, and lru 104 and 44: 4 and 10 percent more.
    for distinct, near in ((900, "1"), (960, "0")):
        trace = trace_of(folder, f"{distinct}.lirs", [it % distinct for it in range(1000)])
        run(corpus, "run", "--program", program, "--percent=1", "--out", folder / str(distinct), trace, env=without_parallel(folder))
        rows = rows_of(run(corpus, "report", "--csv", folder / str(distinct))[0])
        expect("the wins", [(row["best on"], row["near on"]) for row in rows], [("1", "1"), ("0", near)])


def linear(parts, percent):
    """The percentile of a list, by its place between two neighbours."""
    ordered, place = sorted(parts), Fraction(percent * (len(parts) - 1), 100)
    low = int(place)
    return ordered[low] + (ordered[min(low + 1, len(ordered) - 1)] - ordered[low]) * (place - low)


def check_beside_reference(corpus, folder, program):
    """The report of made traces beside the misses that the reference counts."""
    policies, lists = ["fifo", "lru", "sieve", "clairvoyant"], []
    for seed in range(1, 5):
        lists.append([(it * it * seed + it // 7) % (90 + seed) for it in range(600)])
    traces = [trace_of(folder, f"{at}.lirs", blocks) for at, blocks in enumerate(lists)]
    run(corpus, "run", "--program", program, *(f"--policy={it}" for it in policies), "--percent=50", "--percent=9.0", "--out",
        folder / "out", *traces, env=without_parallel(folder))
    rows = {(row["% of footprint"], row["policy"]): row for row in rows_of(run(corpus, "report", "--csv", folder / "out")[0])}
    expect("the rows", list(rows), [(percent, policy) for percent in ("9", "50") for policy in policies])
    for percent in ("9", "50"):
        counts = [{row["policy"]: int(row["misses"]) for row in rows_of(cache_reference.sweep(
            blocks, policies, [max(1, len(set(blocks)) * int(percent) // 100)]))} for blocks in lists]
        for policy in policies:
            row, parts = rows[percent, policy], [100 - Fraction(100 * it[policy], it["fifo"]) for it in counts]
            wanted = [sum(parts) / len(parts), *(linear(parts, it) for it in (10, 25, 50, 75, 90))]
            expect("the percentiles", [row[it] for it in ("mean", "P10", "P25", "P50", "P75", "P90")],
                   [f"{float(round(it, 2)):.2f}" for it in wanted])
            if policy != "clairvoyant":
                above = [it[policy] - min(it[other] for other in policies[:-1]) for it in counts]
                expect("the wins", (row["best on"], row["near on"]), (str(above.count(0)), str(sum(it <= 3 for it in above))))


def check_long(corpus, folder, program):
    """Traces that are too long to be kept, for Belady's policy too, and of more blocks than the largest cache has."""
    trace = file_of(folder, "long", "0 1000000\n" * 17)
    words = "run", "--program", program, "--format=arc", *BOTH, "--out"
    run(corpus, *words, folder / "out", "--percent=50", trace)
    expect("the rows", [row["mean"] for row in rows_of(run(corpus, "report", "--csv", folder / "out")[0])], ["0.00", "0.00"])
    held = next(it.read_text() for it in (folder / "out/results").iterdir())
    expect_parts("the result", held, '"footprint": 1000000', '"accesses": 17000000', '"fifo": 17000000, "lru": 17000000')
    _, error = run(corpus, *words, folder / "optimal", "--percent=50", "--policy=clairvoyant", trace, status=1)
    expect_parts("with Belady's policy", error, "fault: TooLong line 17")
    traces = file_of(folder, "large", "0 2000000\n"), file_of(folder, "small", "0 50\n" * 2)
    run(corpus, *words, folder / "sizes", "--percent=90", "--percent=10", *traces)
    out, error = run(corpus, "report", "--csv", folder / "sizes", "--plot", folder / "boxes.svg", cwd=folder, env=gnuplot_by(folder, NOTING))
    expect("the traces at each size", [(row["% of footprint"], row["traces"]) for row in rows_of(out)],
           [("10", "2"), ("10", "2"), ("90", "1"), ("90", "1")])
    expect("what is left out", error, "at 90 % of the footprint without 1, whose cache would be too large\n")
    expect_parts("the title", (folder / "given").read_text(), "mean of 2 traces")


def check_defaults(corpus, folder, program):
    """What a plain call runs: its baseline, and the sizes in their order."""
    trace, sizes = trace_of(folder, "some", range(300)), ("--percent=10", "--percent=9", "--percent=100")
    for name, words, percents in (("plain", (), ["1", "10"]), ("sizes", sizes, ["9", "10", "100"])):
        run(corpus, "run", "--program", program, *words, "--out", folder / name, trace)
        settings = json.loads((folder / name / "corpus.json").read_text())
        expect("the settings", (settings["policies"][:2], settings["percents"], "clairvoyant" in settings["policies"]),
               (["fifo", "lru"], percents, True))
        expect("the rows", len(rows_of(run(corpus, "report", "--csv", folder / name)[0])), len(percents) * len(settings["policies"]))


def twins_in(folder):
    """Two names whose results are kept below names that begin alike, as some do where there are hundreds of traces."""
    seen = {}
    for at in range(1 << 16):
        name = str(folder / f"{at}.lirs")
        begun = hashlib.sha256(os.fsencode(name)).hexdigest()[:4]
        if begun in seen:
            return seen[begun], name
        seen[begun] = name
    raise Wrong("there are no such names")


def check_results(corpus, folder, program):
    """A result counts for its own trace alone, as that was when its job began, and whole."""
    traces = [trace_of(folder, name, [*range(count)] * 2) for name, count in zip(twins_in(folder), (40, 7))]
    words = "run", "--program", program, *BOTH, "--percent=100", "--out", folder / "out", *traces
    run(corpus, *words)
    footprints = {it["trace"]: it["footprint"] for it in map(json.loads, (it.read_text() for it in folder.glob("out/results/*")))}
    expect("the footprints", footprints, {str(traces[0]): 40, str(traces[1]): 7})
    trace_of(folder, "older", range(5)).rename(traces[0])
    os.utime(traces[0], (1, 1))
    expect_parts("an older file", run(corpus, "report", folder / "out")[0], "1 of 2 traces has no result", "it has changed since its job")
    run(corpus, *words)
    held = {it: json.loads(it.read_text()) for it in folder.glob("out/results/*")}
    expect("its footprint", {it["footprint"] for it in held.values()}, {5, 7})
    place = next(it for it, result in held.items() if result["footprint"] == 7)
    for text in ("", place.read_text()[:40], '"x"', json.dumps({"trace": str(traces[1])}), place.read_text().replace('"lru": 7', '"lru": 0'),
                 place.read_text().replace('"trace": "', '"trace": "x'), "[" * 99999):
        place.write_text(text)
        expect_parts(f"a result that is {text[:40]}", run(corpus, "report", folder / "out")[0], "1 of 2 traces has no result", "did not end")
        run(corpus, *words)
        expect("its result", json.loads(place.read_text()), held[place])
    traces[0].unlink()
    expect("a trace that is gone", "no result" in run(corpus, "report", folder / "out")[0], False)


def check_changing(corpus, folder, program):
    """A trace that grows while its job reads it, in the beginning or at its end."""
    for name, script in (("before", f"echo 77 >>{folder}/log; exec {program} \"$@\""), ("after", f"{program} \"$@\"; echo 77 >>{folder}/log")):
        trace, program_of_log = trace_of(folder, "log", range(40)), file_of(folder, "growing", f"#!/bin/sh\n{script}\n")
        program_of_log.chmod(0o755)
        _, error = run(corpus, "run", "--program", program_of_log, *BOTH, "--out", folder / name, trace, status=1)
        expect_parts("a trace that grows", error, "1 of 1 traces has no result", "it has changed ")


def check_other_files(corpus, folder, program):
    """What is no file of a corpus, and names that others have chosen."""
    trace, out = trace_of(folder, "some", range(40)), folder / "out"
    words = "run", "--program", program, *BOTH, "--out", out, trace
    run(corpus, *words)
    before, settings = trace.read_bytes(), (out / "corpus.json").read_text()
    expect_parts("a picture", run(corpus, "report", out, "--plot", trace, status=1)[1], "some is the trace ")
    expect("the trace", trace.read_bytes(), before)
    # A link of the name that a process of this number might choose.
    (folder / "precious").write_text("precious")
    script = 'ln -s "$1/precious" "$1/.cachesim.$$"; exec "$2" "$3" report "$1/out" --plot "$1/boxes.svg"'
    run("/bin/sh", "-c", script, "sh", folder, sys.executable, corpus, cwd=folder, env=gnuplot_by(folder, NOTING))
    expect("what a link led to", ((folder / "precious").read_text(), (folder / "boxes.svg").is_symlink()), ("precious", False))
    expect("what is left", len([*folder.glob(".cachesim.*")]), 1)
    for text in ("1", '{"traces": []}', settings.replace('"some"', "[1]").replace("{", "[", 1), "[" * 99999, "\udcff"):
        (out / "corpus.json").write_bytes(text.encode(errors="surrogateescape"))
        for call in (words, ("report", out)):
            expect_parts("its file", run(corpus, *call, status=1)[1], "corpus.json is no file of a corpus")
    (out / "corpus.json").write_text(settings)
    (out / "list").unlink()
    (out / "list").mkdir()
    trace_of(folder, "some", range(9))
    expect_parts("a folder", run(corpus, *words, status=1, env=without_parallel(folder))[1], "list: Is a directory")


def check_faults(corpus, folder, program):
    """Traces that are faulty, empty, gone, and one with an odd name, by each program that runs jobs; and what is refused."""
    odd = trace_of(folder, ODD, [1, 2, 1])
    bad, empty, gone = file_of(folder, "bad\x1b[2J", b"1\n2\nx\x1b[2J" + b"-" * 60 + b"\n"), file_of(folder, "empty", "*\n"), folder / "gone"
    for name, environment in environments(folder):
        how = {"cwd": folder, "env": environment}
        words = "run", "--program", program, *BOTH, "--out", name
        _, error = run(corpus, *words, bad, gone, odd, empty, status=1, **how)
        faults = ["3 of 4 traces have no result:", rf"  'bad\x1b[2J': line 3 is no line of the format lirs: {FAULTY}", "  gone: No such file",
                  "  empty: it has no accesses"]
        expect_parts("what is said", error, *faults)
        out, _ = run(corpus, "report", name, cwd=folder)
        expect_parts("the report", out, *faults)
        expect("what was run", [line.split()[:3] for line in out.splitlines()[2:4]], [["1", "fifo", "1"], ["1", "lru", "1"]])
        expect("what a name has run", (folder / "made").exists(), False)
        before = {it: it.stat().st_mtime_ns for it in (folder / name / "results").iterdir()}
        run(corpus, *words, status=1, **how)
        redone = sum(before[it] != it.stat().st_mtime_ns for it in (folder / name / "results").iterdir())
        expect("the jobs done again", (len(before), redone), (4, 3))
        for other, what in (("--percent=7", "percents"), ("--format=arc", "format"), ("--policy=sieve", "policies")):
            expect_parts("other settings", run(corpus, *words, other, odd, status=1, **how)[1], f"results of other {what}: name")
    with open(folder / "pool/lock", "rb") as held:
        fcntl.flock(held, fcntl.LOCK_EX)
        refused = run(corpus, "run", "--program", program, *BOTH, "--out", "pool", status=1, cwd=folder)[1]
        expect_parts("two at once", refused, "another run is under way in")
    expect_parts("another's folder", run(corpus, "run", "--program", program, "--out", folder, odd, status=1)[1], "has other files in it")
    expect_parts("no folder", run(corpus, "report", folder, status=1)[1], "is no folder of")
    expect_parts("no policy", run(corpus, "report", folder / "pool", "--baseline=sieve", status=1)[1], "sieve is none of")
    trace_of(folder, ODD, [1] * 9)
    expect_parts("a trace that changed", run(corpus, "report", "pool", cwd=folder)[0], "4 of 4 traces have no result", "it has changed since")
    run(corpus, "run", "--program", program, *BOTH, "--out", "pool", status=1, cwd=folder, env=without_parallel(folder / "bin"))
    expect_parts("its row", run(corpus, "report", "--csv", "pool", cwd=folder)[0], "1,fifo,1,")
    held = next(it.read_text() for it in (folder / "pool/results").iterdir() if "misses" in it.read_text())
    expect_parts("its result", held, '"accesses": 9')


def waiting_run(corpus, folder, words, how):
    """A run whose other jobs have ended, and the end to write to of the pipe that the last one reads."""
    process = subprocess.Popen(["env", "--default-signal=INT,TERM", sys.executable, corpus, *words], stdin=subprocess.DEVNULL,
                               stdout=subprocess.PIPE, stderr=subprocess.PIPE, **how)
    writer = opened_by_a_reader(folder / "pipe", process)
    expect("its other jobs end", becomes(lambda: len(list((folder / "out/results").glob("*.json"))) >= 2, SECONDS), True)
    return process, writer


def status_of(process):
    """The status of a run that was sent a signal."""
    if not becomes(lambda: process.poll() is not None, SECONDS_TO_END):
        process.kill()
        raise Wrong("it does not end")
    return process.returncode


def has_reader(pipe):
    try:
        os.close(os.open(pipe, os.O_WRONLY | os.O_NONBLOCK))
    except OSError:
        return False
    return True


def end_by(number, corpus, folder, environment, program):
    """A run that a signal ends leaves whole results and no job; taken up again it gives the report of a whole run."""
    traces, how = known_traces(folder)[:2], {"cwd": folder, "env": environment}
    words = "run", "--program", str(program), "--jobs", "2", *BOTH, "--out"
    pipe = folder / "pipe"
    os.mkfifo(pipe)
    process, writer = waiting_run(corpus, folder, [*words, "out", *traces, pipe], how)
    expect_parts("two at once", run(corpus, *words, "out", *traces, status=1, **how)[1], "another run is under way in")
    try:
        process.send_signal(number)
        expect("the status", status_of(process), -number)
        expect("its jobs end", number == signal.SIGKILL or becomes(lambda: not has_reader(pipe), 10), True)
    finally:
        os.close(writer)
    expect("beside the results", [it.name for it in folder.glob("out/results/*") if it.suffix != ".json"], [])
    pipe.unlink()
    trace_of(folder, "pipe", [it % 20 for it in range(100)])
    run(corpus, *words, "out", **how)
    run(corpus, *words, "whole", *traces, pipe, **how)
    expect("the report", *(run(corpus, "report", it, cwd=folder)[0] for it in ("out", "whole")))


def end_each(corpus, folder, program, *numbers):
    for number, (name, environment) in zip(numbers, environments(folder)):
        place = folder / name
        place.mkdir()
        end_by(number, corpus, place, environment, program)


def check_interrupt(corpus, folder, program):
    """One that the terminal sends, by each program that runs jobs."""
    end_each(corpus, folder, program, signal.SIGINT, signal.SIGINT)


def check_termination(corpus, folder, program):
    end_each(corpus, folder, program, signal.SIGKILL, signal.SIGTERM)


def place_of_server(name):
    return shutil.which(name, path=f"{os.environ['PATH']}:/usr/sbin:/sbin")


def lacks(names):
    """Whether this machine lacks one of these programs, which is then said."""
    lacking = [it for it in names if not place_of_server(it)]
    if lacking:
        pass_over(lacking[0])
    return bool(lacking)


def free_ports(count):
    sockets = [socket.create_server(("127.0.0.1", 0)) for _ in range(count)]
    ports = [it.getsockname()[1] for it in sockets]
    for it in sockets:
        it.close()
    return ports


@contextlib.contextmanager
def server(folder, *words, **how):
    """A server that is ended with the test."""
    with open(folder / "servers.log", "ab") as log, subprocess.Popen(
            [place_of_server(words[0]), *map(str, words[1:])], stdin=subprocess.DEVNULL, stdout=log, stderr=log, **how) as process:
        try:
            yield
        finally:
            process.terminate()


def ssh_server(folder, port):
    """An sshd on the loopback address, and what calls it."""
    for name in ("own", "host"):
        subprocess.run(["ssh-keygen", "-q", "-t", "ed25519", "-N", "", "-f", folder / name], check=True)
    if os.geteuid() == 0:
        os.makedirs("/run/sshd", mode=0o755, exist_ok=True)
    conf = file_of(folder, "sshd.conf", f"Port {port}\nListenAddress 127.0.0.1\nHostKey {folder}/host\nPidFile none\nStrictModes no\n"
                   f"AuthorizedKeysFile {folder}/own.pub\nUsePAM no\nPermitRootLogin prohibit-password\n")
    call = f"ssh -p {port} -i {folder}/own -oStrictHostKeyChecking=no -oUserKnownHostsFile=/dev/null -oBatchMode=yes -oLogLevel=ERROR"
    return server(folder, "sshd", "-D", "-e", "-f", conf), f"{call} 127.0.0.1"


def is_open(port):
    with socket.socket() as it:
        return it.connect_ex(("127.0.0.1", port)) == 0


def check_hosts(corpus, folder, program):
    """Another host does a part of the jobs, and gives the report of this one, also where it has the traces alone."""
    error = run(corpus, "run", "--program", program, "--send", "--out=here", "none", status=1, cwd=folder)[1]
    expect_parts("nowhere to send to", error, "--send goes with --hosts")
    if lacks(SSHD):
        return None
    before, traces, how = {*Path.home().glob("corpus-*")}, [*known_traces(folder)[:3], trace_of(folder, ODD, [1, 2, 1]), file_of(folder, "bad", "x\n")], {"cwd": folder}
    words, (port,) = ("run", "--program", program, *BOTH, "--jobs=1"), free_ports(1)
    running, host = ssh_server(folder, port)
    with running:
        if not becomes(lambda: is_open(port), SECONDS_TO_END) or subprocess.run([*host.split(), "true"], check=False).returncode:
            return pass_over("sshd that lets its user in")
        run(corpus, *words, "--hosts", file_of(folder, "both", f":\n{host}\n"), "--out=both.out", *traces[:3], **how)
        run(corpus, *words, "--hosts", file_of(folder, "other", f"{host}\n"), "--out=other.out", *traces, status=1, **how)
        run(corpus, *words, "--send", "--hosts", folder / "both", "--out=sent.out", *traces, status=1, **how)
    sent = (folder / "sent.out/log").read_text()
    expect("a program that was sent", ("jobs.pyz" in sent, str(program) in sent), (True, False))
    expect("what is left of it", ({*Path.home().glob("corpus-*")} - before, [*folder.glob("sent.out/corpus-*")]), (set(), []))
    log = (folder / "both.out/log").read_text().splitlines()
    expect("the hosts", {line.split("\t")[1] for line in log}, {":", host})
    run(corpus, *words, "--out=out", *traces, status=1, **how)
    expect("the report", *(run(corpus, "report", it, **how)[0] for it in ("other.out", "out")))
    expect("the report of what was sent", *(run(corpus, "report", it, **how)[0] for it in ("sent.out", "out")))
    expect("what a name has run", (folder / "made").exists(), False)


@contextlib.contextmanager
def slurm(folder):
    """A Slurm of one node, and the environment that names it, or None where it does not start."""
    host, at = socket.gethostname().partition(".")[0], folder / "slurm"
    for it in (at, at / "state", at / "spool"):
        it.mkdir()
    folder.chmod(0o755)
    file_of(at, "key", os.urandom(256)).chmod(0o600)
    conf = file_of(at, "slurm.conf", SLURM_CONF.format(host=host, folder=at, ports=free_ports(2)))
    how = {"env": {**os.environ, "SLURM_CONF": str(conf)}}
    files = (f"--{option}={at}/{name}" for option, name in (("socket", "socket"), ("key-file", "key"), ("pid-file", "munged.pid"),
                                                            ("log-file", "munged.log"), ("seed-file", "seed")))
    with server(at, "munged", "--foreground", "--force", *files), server(at, "slurmctld", "-D", **how), server(
            at, "slurmd", "-D", "-N", host, **how):
        is_idle = becomes(lambda: b"idle" in subprocess.run(["sinfo"], capture_output=True, check=False, **how).stdout, SECONDS_TO_END)
        yield how["env"] if is_idle else None


def check_slurm(corpus, folder, program):
    """A job array gives the report of this machine, and is cancelled by a signal."""
    if lacks(SLURM):
        return None
    if os.geteuid() != 0:
        return pass_over("right to start Slurm")
    traces = [*known_traces(folder)[:2], trace_of(folder, ODD, [1, 2, 1]), file_of(folder, "bad", "x\n")]
    words = "run", "--program", str(program), *BOTH
    os.mkfifo(folder / "pipe")
    with slurm(folder) as environment:
        if not environment:
            return pass_over("Slurm that starts")
        how = {"cwd": folder, "env": environment}
        run(corpus, *words, "--slurm", "--out=array", *traces, status=1, **how)
        process, writer = waiting_run(corpus, folder, [*words, "--slurm", "--out=out", *traces[:2], folder / "pipe"], how)
        process.send_signal(signal.SIGTERM)
        expect("the status", status_of(process), -signal.SIGTERM)
        expect("its jobs end", becomes(lambda: not has_reader(folder / "pipe"), SECONDS_TO_END), True)
        os.close(writer)
    run(corpus, *words, "--out=here", *traces, status=1, cwd=folder)
    expect("the report", *(run(corpus, "report", it, cwd=folder)[0] for it in ("array", "here")))


MISTAKES = {
    "percentiles from outside": Mistake(check_known_report, "lib/reductions.py", 'method="inclusive"', 'method="exclusive"'),
    "misses more": Mistake(check_known_report, "lib/reductions.py", "(misses[baseline] - misses[policy])", "(misses[policy] - misses[baseline])"),
    "wins of one alone": Mistake(check_known_report, "lib/reductions.py", "count <= low for", "count < low for"),
    "a picture without its mean": Mistake(check_known_report, "lib/reductions.py", ", statistics.mean(it.parts))]\n            for", ", 0)]\n            for"),
    "a scatter of one policy": Mistake(check_known_report, "lib/reductions.py", "policy] for policy in pair", "pair[0]] for policy in pair"),
    "a whole point for half": Mistake(check_beside_reference, "lib/reductions.py", "200 * (misses - lowest)", "100 * (misses - lowest)"),
    "Belady's among the best": Mistake(check_beside_reference, "lib/reductions.py", "policy != OPTIMAL or", "True or"),
    "a size of another footprint": Mistake(check_beside_reference, "lib/measures.py", "footprint * percent / 100", "footprint * percent / 50"),
    "a footprint of short traces alone": Mistake(check_long, "lib/jobs.py", '"clairvoyant" not in settings["policies"]', "False"),
    "names by lines": Mistake(check_faults, "lib/jobs.py", 'split(b"\\0")', "split()"),
    "failed traces in silence": Mistake(check_faults, "corpus", 'return [it for it in results if "fault" in it]', "return []"),
    "finished jobs done again": Mistake(check_faults, "corpus", "not in (None, stamp)", "is not None"),
    "jobs of changed traces not done": Mistake(check_faults, "corpus", "not in (None, stamp)", "is False"),
    "an older trace": Mistake(check_results, "lib/traces.py", "[it.st_size, it.st_mtime_ns]", "[]"),
    "a trace that changes while it is read": Mistake(check_changing, "lib/traces.py", "[it.st_size, it.st_mtime_ns]", "[]"),
    "results of any name": Mistake(check_results, "corpus", 'result["trace"] == name and', ""),
    "half a result": Mistake(check_results, "corpus", "(OSError, ValueError, TypeError", "(OSError, TypeError"),
    "a result without a policy": Mistake(check_results, "corpus", "self.is_counted(result))", "True)"),
    "names that begin alike": Mistake(check_results, "corpus", "hexdigest()[:32]", "hexdigest()[:4]"),
    "settings without the format": Mistake(check_faults, "corpus", "for it in settings if known[it]", 'for it in settings if it != "format" and known[it]'),
    "settings without the policies": Mistake(check_faults, "corpus", "for it in settings if known[it]", 'for it in settings if it != "policies" and known[it]'),
    "a name that is foretold": Mistake(check_other_files, "lib/traces.py", 'os.urandom(8).hex()}" if is_file else name\n    try:\n        with open(beside, "xb"',
                                       'os.getpid()}" if is_file else name\n    try:\n        with open(beside, "wb"'),
    "a trace in a picture's place": Mistake(check_other_files, "corpus", "        refuse_own(args.plot, corpus.settings[\"traces\"], TOOL)\n", ""),
    "anything as a corpus": Mistake(check_other_files, "corpus", "== KINDS:", "== KINDS or settings:"),
    "a size past the limit as the largest": Mistake(check_long, "lib/jobs.py", "part_of(footprint, Decimal(percent))",
                                                    "min(MAX_CAPACITY, part_of(footprint, Decimal(percent)))"),
    "traces left out in silence": Mistake(check_long, "corpus", "for percent, count in counts.items() if count)", "for percent, count in counts.items() if False)"),
    "as many traces as at the smallest size": Mistake(check_long, "lib/reductions.py", "max(len(it.parts) for it in drawn)", "min(len(it.parts) for it in drawn)"),
    "no baseline": Mistake(check_defaults, "corpus", "*[BASELINE] * (BASELINE in taken), ", ""),
    "sizes by their text": Mistake(check_defaults, "corpus", ", key=Decimal)", ")"),
    "escapes of a name": Mistake(check_faults, "corpus", "name if name.isprintable() else ascii(name)", "name"),
    "escapes of a line": Mistake(check_faults, "lib/traces.py", "ascii(text[:SHOWN])", "text[:SHOWN]"),
    "near by half a point alone": Mistake(check_near, "lib/reductions.py", " and 20 * (misses - lowest) <= lowest", ""),
    "boxes over one another": Mistake(check_known_report, "lib/reductions.py", "percents.index(percent) * wide + at", "percents.index(percent) + at"),
    "whiskers as boxes": Mistake(check_known_report, "lib/reductions.py", "using 1:3:2:6:5 with", "using 1:2:2:6:6 with"),
    "each box as the first": Mistake(check_known_report, "lib/reductions.py", "quoted(in_legend(policy, policy))", "quoted('lru')"),
    "the points of one size": Mistake(check_known_report, "lib/reductions.py", 'f"$size{at} with points', 'f"$size0 with points'),
    "the line of the other policy": Mistake(check_known_report, "lib/reductions.py", "above the line {pair[1]} has", "above the line {pair[0]} has"),
    "two runs at once": Mistake(check_faults, "corpus", "fcntl.LOCK_EX | fcntl.LOCK_NB", "fcntl.LOCK_UN"),
    "a signal that the status does not say": Mistake(check_interrupt, "corpus", "os.kill(os.getpid(), engine.ended_by)", "sys.exit(1)"),
}
if shutil.which("parallel"):
    MISTAKES |= {
        "names that are not quoted": Mistake(check_faults, "lib/jobs.py", 'shlex.join([*job, "--", name])', '" ".join([*job, "--", name])'),
        "jobs that go on": Mistake(check_interrupt, "lib/jobs.py", "os.killpg(self.process.pid, signal.SIGTERM)", "self.process.kill()"),
    }
