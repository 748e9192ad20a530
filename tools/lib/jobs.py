"""The jobs of tools/corpus: what one makes of its trace, and the programs that run them, each of which prints the line
of a job once that has ended: GNU parallel, Slurm, or this script by a pool of threads."""
import contextlib
import json
import os
import re
import shlex
import shutil
import signal
import subprocess
import sys
import zipfile
from concurrent.futures import ThreadPoolExecutor, as_completed
from decimal import Decimal
from pathlib import Path

from .measures import part_of
from .reports import MAX_CAPACITY, Options, Program, Trace
from .traces import Unreadable

# What a job takes at most beside its caches, of the longest trace and with clairvoyant.
JOB_MEMORY = 1 << 29
# A job array of Slurm has at most 1001 tasks where its administrator did not set another MaxArraySize.
MAX_TASKS = 1000
# How often a job is tried that ended without its line, each time on another host.
TRIES = 3
# A first signal lets GNU parallel end its jobs, which it is given this time for; a second one makes it end itself.
SECONDS_TO_END = 0.5


class JobProgram(Program):
    """The program as a job calls it, which says nothing by itself."""

    def output(self, words, **how):
        return super().output(words, **{"stderr": subprocess.PIPE, **how})

    @staticmethod
    def refusal(ended, faulty_line, _):
        said = ended.stderr.decode(errors="replace").strip().splitlines()
        return faulty_line or (said[-1] if said else f"the program ended with status {ended.returncode}")


def line_of(program, settings, name):
    """The line of a job: the rows of all policies at all parts of the footprint of its trace, or why there are none."""
    try:
        # Belady's policy takes no long trace.
        is_long = "clairvoyant" not in settings["policies"]
        options = Options(settings["format"], "99", "mixed", is_long, settings["own"], processes=1)
        result = rows_of(Trace(program, name, options), settings)
    except (Unreadable, ValueError) as fault:
        result = {"fault": str(fault).removeprefix(f"{name}: ")}
    return json.dumps({"trace": name, **result}) + "\n"


def rows_of(trace, settings):
    accesses, footprint, _ = trace.footprint()
    if not footprint:
        raise Unreadable("it has no accesses")
    parts = {percent: part_of(footprint, Decimal(percent)) for percent in settings["percents"]}
    capacities = sorted({it for it in parts.values() if it <= MAX_CAPACITY})
    rows = trace.sweep(settings["policies"], capacities) if capacities else {}
    return {"footprint": footprint, "accesses": accesses,
            "misses": {percent: {policy: rows[policy, capacity].misses for policy in settings["policies"]}
                       for percent, capacity in parts.items() if capacity in capacities}}


def lines_of(program, settings, names, jobs):
    """Runs so many jobs at once, and yields the line of each when it has ended."""
    with ThreadPoolExecutor(jobs) as pool:
        for job in as_completed([pool.submit(line_of, program, settings, name) for name in names]):
            yield job.result()


def jobs_in_memory():
    kilobytes = int(re.search(r"MemAvailable: +([0-9]+)", Path("/proc/meminfo").read_text())[1])
    return max(1, min(len(os.sched_getaffinity(0)), kilobytes * 1024 // JOB_MEMORY))


def words_of_job(script, program, settings):
    words = [*script, "job", f"--program={program}", f"--format={settings['format']}"]
    words += [f"--policy={it}" for it in settings["policies"]]
    words += [f"--own={it}" for it in settings["own"]]
    return words + [f"--percent={it}" for it in settings["percents"]]


def has_gnu_parallel():
    """Whether `parallel` is GNU's: another program has that name too."""
    asked = ["parallel", "--version"]
    return bool(shutil.which(asked[0])) and b"GNU parallel" in subprocess.run(asked, capture_output=True).stdout


def sent_files(folder, program, own):
    """The name of a folder in this one, which other hosts get too, with the program, policies of one's own and all that
    a job imports."""
    name, tools = f"corpus-{os.urandom(8).hex()}", Path(__file__).resolve().parent.parent
    (folder / name).mkdir()
    with zipfile.ZipFile(folder / name / "jobs.pyz", "w") as scripts:
        scripts.write(tools / "corpus", "__main__.py")
        for it in tools.glob("lib/*.py"):
            scripts.write(it, f"lib/{it.name}")
    shutil.copy(program, folder / name / "cachesim")
    for at, file in enumerate(own):
        shutil.copy(file, folder / name / f"own{at}.py")
    return name


def words_of_parallel(folder, job, names, jobs, hosts):
    """GNU parallel, its list the command of each job. These are quoted for a shell."""
    (folder / "list").write_bytes(os.fsencode("".join(shlex.join([*job, "--", name]) + "\0" for name in names)))
    words = ["parallel", "--null", "--arg-file", folder / "list", "--joblog", f"+{folder / 'log'}"]
    words += ["--sshloginfile", hosts, "--retries", TRIES] if hosts else []
    words += ["--jobs", jobs or jobs_in_memory()] if jobs or not hosts else []
    return [*words, "--bar"] if sys.stderr.isatty() else words


def words_of_pool(folder, job, names, jobs):
    """This script over the same list."""
    (folder / "list").write_bytes(os.fsencode("".join(f"{name}\0" for name in names)))
    return [*job, f"--jobs={jobs or jobs_in_memory()}", f"--list={folder / 'list'}"]


def words_of_slurm(folder, job, names, jobs, label):
    """A job array of Slurm. Each task takes an equal part of the list, and puts what it finds into the folder."""
    tasks = min(len(names), MAX_TASKS)
    limit = f"%{jobs}" if jobs else ""
    log = str(folder / "slurm-").replace("%", "%%")
    words = [*words_of_pool(folder, job, names, 1), f"--into={folder}"]
    return ["sbatch", "--wait", f"--job-name={label}", f"--array=0-{tasks - 1}{limit}", f"--output={log}%a.log",
            f"--wrap=exec {shlex.join(words)}"]


def listed(name, is_task):
    """The traces of a list, or those that a task of a job array takes."""
    names = [os.fsdecode(it) for it in Path(name).read_bytes().split(b"\0")[:-1]]
    if not is_task:
        return names
    return names[int(os.environ["SLURM_ARRAY_TASK_ID"])::int(os.environ["SLURM_ARRAY_TASK_COUNT"])]


class Engine:
    """A program that runs jobs, which a signal ends together with them."""

    def __init__(self, words, label=None, folder=None):
        self.label, self.ended_by, self.process = label, None, None
        for number in (signal.SIGINT, signal.SIGTERM, signal.SIGHUP):
            if signal.getsignal(number) != signal.SIG_IGN:
                signal.signal(number, self.take_signal)
        # A group of its own, so that an interrupt of the terminal ends it once and in order.
        how = {"cwd": folder, "start_new_session": True, "stdin": subprocess.DEVNULL, "stdout": subprocess.PIPE}
        self.process = subprocess.Popen(map(str, words), env={**os.environ, "PARALLEL_SHELL": "/bin/sh"}, **how)

    def lines(self):
        """The lines of jobs, until all have ended or a signal came."""
        if self.ended_by:
            self.end()
        yield from self.process.stdout
        self.process.wait()

    def take_signal(self, number, _):
        self.ended_by = self.ended_by or number
        if self.process:
            self.end()

    def end(self):
        if self.label and self.process.poll() != 0:
            subprocess.run(["scancel", f"--name={self.label}"], check=False)
        for _ in range(2):
            if self.process.poll() is None:
                os.killpg(self.process.pid, signal.SIGTERM)
                with contextlib.suppress(subprocess.TimeoutExpired):
                    self.process.wait(SECONDS_TO_END)
