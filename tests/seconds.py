#!/usr/bin/env python3
"""seconds.py FILE COMMAND..: runs the merge gate and passes on what it prints; then writes to FILE what each crate cost, a line a crate.

The gate proves crates side by side and prints no times, so they are read from /proc while it runs: the processor seconds of each process of the
prover, by its crate and by what it does there, as the crate itself (check), its tests, or its edits that must be refused."""
import os
import subprocess
import sys
import threading

KINDS = ("check", "tests", "edits")
TICK = os.sysconf("SC_CLK_TCK")


def read(path):
    try:
        with open(path, "rb") as it:
            return it.read()
    except OSError:
        return b""


def task_of(words):
    """Returns the crate and the kind of work of a process with these words, or None for another process."""
    if not any(os.path.basename(it) == "rattle" for it in words[:1]) or "--crate-name" not in words[:-1]:
        return None
    crate = words[words.index("--crate-name") + 1]
    if "--test" in words:
        return crate, "tests"
    # (the check of an edit keeps nothing)
    return crate, "edits" if words[1] == "check" and "-o" not in words else "check"


class Meter:
    """The processor seconds that were seen of each process below one."""

    def __init__(self, top):
        self.top = top
        self.used = {}

    def look(self):
        """Reads what each process below has used so far. One that is no prover counts for the prover that started it."""
        found, started = {}, {}
        for number in map(int, filter(str.isdigit, os.listdir("/proc"))):
            fields = read(f"/proc/{number}/stat").rpartition(b")")[2].split()
            if len(fields) > 19:
                found[number] = int(fields[19]), (int(fields[11]) + int(fields[12])) / TICK
                started.setdefault(int(fields[1]), []).append(number)
        left = [(self.top, None)]
        while left:
            number, task = left.pop()
            task = task_of(read(f"/proc/{number}/cmdline").decode(errors="replace").split("\0")) or task
            if task and number in found:
                start, used = found[number]
                self.used[number, start] = task, used
            left += [(it, task) for it in started.get(number, ())]

    def table(self):
        """Returns the lines: a crate, its seconds of each kind, and their sum."""
        sums = {}
        for (crate, kind), used in self.used.values():
            sums.setdefault(crate, dict.fromkeys(KINDS, 0))[kind] += used
        sums = dict(sorted(sums.items(), key=lambda it: -sum(it[1].values())))
        whole = {kind: sum(it[kind] for it in sums.values()) for kind in KINDS}
        for crate, each in [*sums.items(), ("all", whole)]:
            yield f"{crate:20}" + "".join(f"{each[kind]:9.1f}" for kind in KINDS) + f"{sum(each.values()):9.1f}"


def main(file, *command):
    ran = subprocess.Popen(command, stdout=subprocess.PIPE, stderr=subprocess.STDOUT)
    meter, is_over = Meter(ran.pid), threading.Event()

    def watch():
        while not is_over.wait(0.5):
            meter.look()

    watcher = threading.Thread(target=watch)
    watcher.start()
    for line in ran.stdout:
        sys.stdout.buffer.write(line)
        sys.stdout.flush()
    status = ran.wait()
    is_over.set()
    watcher.join()
    with open(file, "w", encoding="utf-8") as it:
        print(f"{'processor seconds':20}" + "".join(f"{kind:>9}" for kind in KINDS) + f"{'sum':>9}", *meter.table(), sep="\n", file=it)
    return status if status >= 0 else 128 - status


if __name__ == "__main__":
    sys.exit(main(*sys.argv[1:]))
