"""Programs that are run and measured: how long, how much processor time, how much memory."""
import os
import shutil
import subprocess
import tempfile
import time
from typing import NamedTuple

ROOT = os.path.dirname(os.path.dirname(os.path.abspath(__file__)))
PLAY = f"{ROOT}/crates/moo_play/out/moo_play"
SERVER = f"{ROOT}/crates/moo_daemon/out/moo_daemon"
PARSE = f"{ROOT}/crates/moo_parse/out/moo_parse"

# A short run tries everything with small counts; its figures mean nothing.
IS_SHORT = os.environ.get("BENCH_SHORT") == "1"
ROUNDS = int(os.environ.get("ROUNDS", "1" if IS_SHORT else "3"))
KEY = "key " + 64 * "0"


class Failure(Exception):
    """A program did not do what was asked of it."""


class Figure(NamedTuple):
    """One line of the table."""

    what: str
    unit: str
    amount: float
    # what others take for the same, by their names
    peers: dict = {}
    # what is wrong with it
    fault: str = ""


class Run(NamedTuple):
    """What a run of a program took. Memory is in bytes, and never less than this process has itself."""

    seconds: float
    processor: float
    memory: int
    output: str


def sized(full, short):
    """A count, or the one of a short run."""
    return short if IS_SHORT else full


class Folder:
    """A place for worlds and scripts, until the end."""

    def __init__(self):
        self.path = tempfile.mkdtemp(prefix="bench-")

    def file(self, name):
        return f"{self.path}/{name}"

    def remove(self):
        shutil.rmtree(self.path, ignore_errors=True)


folder = Folder()


def run(*words, status=0, given=os.devnull):
    """Runs a program to its end, which must be a good one, or one with another status where that is asked for. Its standard input is a file."""
    with open(given, "rb") as source, open(folder.file("output"), "w+b") as output, open(folder.file("errors"), "w+b") as errors:
        start = time.monotonic()
        process = subprocess.Popen(words, stdin=source, stdout=output, stderr=errors)
        _, ended, usage = os.wait4(process.pid, 0)
        seconds = time.monotonic() - start
        process.returncode = os.waitstatus_to_exitcode(ended)
        output.seek(0)
        errors.seek(0)
        if process.returncode != status:
            told = errors.read(300).decode("latin-1").strip()
            raise Failure(f"{' '.join(words)}: status {process.returncode}, told: {told}")
        return Run(seconds, usage.ru_utime + usage.ru_stime, usage.ru_maxrss * 1024, output.read().decode("latin-1"))


def in_turn(measures):
    """The least that the rounds took of each of these: the clock, the processors, memory. They are measured in turn, so that a machine that is slower for a
    while is so for all of them."""
    rounds = [[measure() for measure in measures] for _ in range(ROUNDS)]
    return [Run(min(it.seconds for it in runs), min(it.processor for it in runs), min(it.memory for it in runs), runs[0].output) for runs in zip(*rounds)]


def least(measure):
    """The same of one."""
    return in_turn([measure])[0]


def by_one(measure):
    """What is measured, held to one processor."""
    all_of_them = os.sched_getaffinity(0)
    os.sched_setaffinity(0, {min(all_of_them)})
    try:
        return measure()
    finally:
        os.sched_setaffinity(0, all_of_them)


def script(name, lines):
    """A script of these steps, as a file."""
    path = folder.file(name)
    with open(path, "w") as file:
        file.write(KEY + "\n")
        file.writelines(line + "\n" for line in lines)
    return path


def play(world, steps, *options):
    """The least of some runs of a script, its lines given or its file, over a world."""
    path = steps if isinstance(steps, str) else script("script", steps)
    return least(lambda: run(PLAY, world, path, *options))


def refused(world, steps):
    """The least of some runs that read a world and a script of these lines, and refuse it for one more line, so that none of its steps is run."""
    path = script("refused", [*steps, "open none"])
    return least(lambda: run(PLAY, world, path, status=2))


def at_once(count, world, path):
    """The least seconds, by the clock, that so many runs of a script over a world take that begin at once, each by one worker."""

    def all_of_them():
        start = time.monotonic()
        words = [PLAY, world, path]
        processes = [subprocess.Popen(words, stdin=subprocess.DEVNULL, stdout=subprocess.DEVNULL, stderr=subprocess.DEVNULL) for _ in range(count)]
        for process in processes:
            process.wait()
        return time.monotonic() - start

    return min(all_of_them() for _ in range(ROUNDS))


def values_of(played):
    """What the steps of a run gave, with the ticks of each: all of them must have given a value."""
    given = []
    for line in played.output.splitlines():
        words = line.split(" ")
        if words[0] != "step":
            continue
        if words[2] != "value":
            raise Failure(f"a step gave: {line[:300]}")
        given.append((" ".join(words[3:-2]), int(words[-1])))
    return given


def beyond(played, base):
    """The processor seconds of a run that another one does not take."""
    return max(played.processor - base.processor, 1e-9)
