#!/usr/bin/env python3
"""lanes.py PLAY [KIND..]: scripts over 64 rooms, each with a player of its own, are printed the same and leave the same world by every number of workers, and
on one processor: scripts in which rooms have nothing to do with each other, some in which a few steps ask for what other rooms change, change it, queue
tasks, make objects or raise errors, and one in which all count on one counter. Where a C compiler is there, some requests for memory are refused, too: then
a run is right, or it has the lines of the first steps. Says what differs, and ends with status 1 then."""
import os
import random
import shutil
import subprocess
import sys
import tempfile

sys.path.insert(0, os.path.join(os.path.dirname(os.path.dirname(os.path.abspath(__file__))), "bench"))
sys.dont_write_bytecode = True

from worlds import Thing, World

ROOMS = 64
STEPS = 9000
WORKERS = [2, 3, 5, 63, 64]
REFUSALS = 60

COUNT = ["this.n = this.n + 1;", "return this.n;"]
TOTAL = ["s = 0;", "for i in [1..20]", "  s = s + i;", "endfor", "return s;"]
LIST = ["this.seen = {@this.seen, this.n};", "if (length(this.seen) > 20)", "  this.seen = {};", "endif", "return length(this.seen);"]
LOOK = ["return {this.n, $limit, player.name, this.name, verbs(this), parent(this), connected_players()};"]
TELL = ["notify(player, tostr(this.n));"]
DICE = ["this.n = random(1000);", "return this.n;"]
WRONG = ["this.n = this.n + 1;", "return 1 / 0;"]
LATE = ["fork (0)", "  this.n = 0;", "endfork"]
MAKE = ['return create(#1).name;']
TICK = ["$limit = $limit + 1;", "return $limit;"]

# Verbs of a room that have to do with it alone, and those that do more or that other rooms notice.
OWN = ["count", "count", "total", "list", "look", "tell", "dice", "wrong"]
KINDS = {"apart": [], "peeks": ["peek"], "pokes": ["poke"], "limits": ["limit"], "forks": ["late"], "objects": ["make"], "all": ["peek", "poke", "limit", "late", "make"]}
# One of so many steps is such a one.
SELDOM = 1500


def number_of(link):
    return 8 + 2 * link


def world():
    """The lines of the world."""
    made = World()
    made.things[0].defines["limit"] = 7
    for link in range(1, ROOMS + 1):
        room, other = number_of(link), number_of(1 + link % ROOMS)
        thing = made.put(room, Thing(f"Room {link}"))
        thing.defines["n"], thing.defines["seen"] = 0, []
        for name, lines in [("count", COUNT), ("total", TOTAL), ("list", LIST), ("look", LOOK), ("tell", TELL), ("dice", DICE), ("wrong", WRONG), ("late", LATE), ("make", MAKE), ("tick", TICK)]:
            thing.verb(name, lines)
        thing.verb("peek", [f"return #{other}.n;"])
        thing.verb("poke", [f"#{other}.n = this.n;"])
        thing.verb("limit", ["$limit = this.n;"])
        made.enter(link, room + 1, room)
    return [line + "\n" for line in made.lines()]


def script(kind, seed):
    """The lines of a script. In an uneven one nearly half of the steps are of one link, in one of few links they are of three, in a crowded one of one."""
    chance = random.Random(seed)
    yield "key " + "".join(chance.choice("0123456789abcdef") for _ in range(64)) + "\n"
    seldom = KINDS.get(kind, KINDS["apart"])
    for _ in range(STEPS):
        link = chance.randint(1, 3 if kind == "few" else ROOMS)
        if chance.random() < {"uneven": 0.45, "crowded": 0.7}.get(kind, 0):
            link = 1
        verb = chance.choice(seldom) if seldom and chance.randrange(SELDOM) == 0 else chance.choice(["tick"] if kind == "counter" else OWN)
        yield f"line {link} {verb}\n"


def played(play, work, workers, on_one):
    """What a run prints and tells, its status, and the world that it leaves."""
    end = os.path.join(work, "end")
    words = [play, os.path.join(work, "world"), os.path.join(work, "script"), "--workers", str(workers), "--out", end]
    run = subprocess.run((["taskset", "-c", "0"] if on_one else []) + words, capture_output=True)
    left = None
    if os.path.exists(end):
        with open(end, "rb") as file:
            left = file.read()
        os.remove(end)
    return run.stdout, run.stderr, run.returncode, left


def refuser(work):
    """The library that refuses one request for memory, where there is a compiler for it."""
    compiler = shutil.which("cc") or shutil.which("gcc") or shutil.which("clang")
    source = os.path.join(os.path.dirname(os.path.abspath(__file__)), "refuse.c")
    made = os.path.join(work, "refuse.so")
    return made if compiler and subprocess.run([compiler, "-shared", "-fPIC", "-O2", "-o", made, source, "-ldl"]).returncode == 0 else None


def refused(play, work, library, number, sticky=False):
    """What a run by two workers prints and tells, and its status, with this request refused, or all from it on; and whether there were so many."""
    met = os.path.join(work, "met")
    if os.path.exists(met):
        os.remove(met)
    words = [play, os.path.join(work, "world"), os.path.join(work, "script"), "--workers", "2"]
    given = {"LD_PRELOAD": library, "REFUSE": str(number), "MET": met, **({"STICKY": "1"} if sticky else {})}
    run = subprocess.run(words, capture_output=True, env={**os.environ, **given})
    return run.stdout, run.stderr, run.returncode, os.path.exists(met)


def first_steps(lines, count):
    """The lines of the first so many steps."""
    kept, inside = [], False
    for line in lines.splitlines(keepends=True):
        if line.startswith(b"step "):
            inside = int(line.split()[1]) <= count
        if inside:
            kept.append(line)
    return b"".join(kept)


def refusals(play, work, wanted):
    """How many runs went wrong in which one of some requests, spread over all, was refused."""
    library = refuser(work)
    if library is None:
        return 0
    most = 1
    while refused(play, work, library, most)[3]:
        most *= 2
    failures = 0
    for place, number in enumerate(range(1, most, max(1, most // REFUSALS))):
        out, told, status, _ = refused(play, work, library, number, place % 3 == 2)
        stopped = told.split()
        is_part = status == 3 and stopped[:2] == [b"stopped", b"after"] and out == first_steps(wanted, int(stopped[2]))
        is_refused = status == 2 and not out
        if (out, told, status) != (wanted, b"", 0) and not is_part and not is_refused:
            print(f"request {number} refused: status {status}, told {told[:200]!r}, {out.count(b'step ')} steps")
            failures += 1
    return failures


def main(play, kinds):
    failures = 0
    with tempfile.TemporaryDirectory() as work:
        with open(os.path.join(work, "world"), "w", encoding="ascii") as file:
            file.writelines(world())
        for seed, kind in enumerate(kinds):
            with open(os.path.join(work, "script"), "w", encoding="ascii") as file:
                file.writelines(script(kind, seed))
            wanted = played(play, work, 1, False)
            count = wanted[0].count(b"\nstep ") + wanted[0].startswith(b"step ")
            if wanted[1:3] != (b"", 0) or count != STEPS:
                print(f"{kind}: status {wanted[2]}, {count} of {STEPS} steps, told {wanted[1][:200]!r}")
                failures += 1
            runs = [(workers, False) for workers in WORKERS] + ([(4, True)] if shutil.which("taskset") else [])
            for workers, on_one in runs:
                got = played(play, work, workers, on_one)
                if got != wanted:
                    where = [name for name, a, b in zip(("lines", "faults", "status", "world"), wanted, got) if a != b]
                    print(f"{kind}: {workers} workers{' on one processor' if on_one else ''} differ in {', '.join(where)}")
                    failures += 1
            if kind in ("apart", "all"):
                failures += refusals(play, work, wanted[0])
    return 1 if failures else 0


if __name__ == "__main__":
    sys.exit(main(sys.argv[1], sys.argv[2:] or [*KINDS, "counter", "uneven", "few", "crowded"]))
