"""What lists of steps cost by several workers, by the clock and by the processors' time, beyond a run that reads the same world and script and runs no step.
`moo-play` runs every list by `run_list`; the plain play of a list cannot be seen from outside, so there is no column of it. Beside several workers stand
as many runs at once, each of its part of the list by one worker: what the processors of this machine give to work that shares nothing."""
import os

from runs import Figure, at_once, beyond, play, refused, script, sized, values_of
from worlds import Thing, World

ROOMS = 64
WORKERS = (1, 2, 4)
COUNT = ["this.n = this.n + 1;", "return this.n;"]
# 1,000 ticks, and nothing changed
TOTAL = [*(sized(999, 9) * ["1 + 1;"]), "return 1;"]


def rooms():
    """A world of rooms, each with a counter, these verbs and a player on the link of its number."""
    world = World()
    for number in range(1, ROOMS + 1):
        room, player = 8 + 2 * number, 9 + 2 * number
        thing = world.put(room, Thing("Room"))
        thing.defines["n"] = 0
        thing.verb("count", COUNT)
        thing.verb("total", TOTAL)
        world.enter(number, player, room)
    return world.write("world")


def lists():
    """What each list is called, and the lines of its steps."""
    many, heavy = sized((100000, 20000), (200, 2))
    return [
        ("count on one counter", many * ["line 1 count"]),
        (f"count in {ROOMS} rooms", [f"line {1 + number % ROOMS} count" for number in range(many)]),
        (f"1,000 ticks in {ROOMS} rooms", [f"line {1 + number % ROOMS} total" for number in range(heavy)]),
    ]


def apart(world, lines, count):
    """The seconds that so many runs at once take for the list, each for its part, beyond as many that read the same and run no step."""
    part = lines[: len(lines) // count]
    read = at_once(count, world, script("refused", [*part, "open none"]))
    return max(at_once(count, world, script("part", part)) - read, 1e-9)


def figures(_peers):
    yield Figure("processors of this machine", "times", os.cpu_count() or 1)
    world = rooms()
    for what, lines in lists():
        path, count = script("steps", lines), len(lines)
        idle = refused(world, lines)
        alone = None
        for workers in WORKERS:
            played = play(world, path, "--workers", str(workers))
            clock, processor = max(played.seconds - idle.seconds, 1e-9), beyond(played, idle)
            alone = alone or (values_of(played) and (clock, processor))
            beside = {"1 worker": count / alone[0], f"{workers} runs": count / apart(world, lines, workers)} if workers > 1 else {}
            name = f"{what}, workers {workers}"
            yield Figure(f"{name}, by the clock", "steps/s", count / clock, beside)
            beside = {"1 worker": alone[1] / count} if workers > 1 else {}
            yield Figure(f"{name}, processor time a step", "us", processor / count, beside)
