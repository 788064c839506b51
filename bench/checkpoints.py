"""What it costs to read and to write the text of a world: one of objects with slots, and one of verbs. Beside it Python's `json`, which is written in C,
reads and writes the same objects in its own format."""
import json
import os
import sys

from parsing import ORDINARY
from runs import Figure, by_one, folder, play, run, sized
from worlds import WIZARD, Literal, Thing, World

BYTES = sized(20_000_000, 20_000)
SLOTS = 20
# The same spelled values again and again, so that this process stays small.
NUMBERS = range(100, 164)
VALUES = [Literal(f'{{"a text of some words, number {number}", {number}, #{number}}}') for number in NUMBERS]
ITEMS = [[f"a text of some words, number {number}", number, number] for number in NUMBERS]
# Reads and writes a text of `json`, and tells the least seconds of three times each.
JSON = """
import json, sys, time
text = open(sys.argv[1]).read()
def least(do):
    took = []
    for _ in range(3):
        start = time.perf_counter()
        done = do()
        took.append(time.perf_counter() - start)
    return min(took), done
reading, objects = least(lambda: json.loads(text))
writing, _ = least(lambda: json.dumps(objects))
print(len(text) / reading, len(text) / writing)
"""


class Twin:
    """The same objects as `json` writes them, in a file, so that this process stays small."""

    def __init__(self, name):
        self.path = folder.file(name)
        self.file = open(self.path, "w")
        self.file.write("[")

    def put(self, number, thing, slots=(), verbs=()):
        """One object more. A last one follows that is none."""
        its = {"object": number, "name": thing.name, "owner": WIZARD, "parent": thing.parent, "location": thing.location, "slots": slots, "verbs": verbs}
        self.file.write(json.dumps(its) + ", ")

    def end(self):
        self.file.write("0]")
        self.file.close()
        return self.path


def with_slots():
    """Objects, each below one that defines some properties, with a value of its own for each of them; and the same for `json`."""
    world, twin = World(), Twin("slots.json")
    kind = world.put(10, Thing("Kind"))
    names = [f"property{number}" for number in range(SLOTS)]
    for name in names:
        kind.defines[name] = 0
    for number in range(BYTES // 1400):
        thing = world.put(11 + number, Thing("Thing", parent=10))
        places = [(number + at) % len(VALUES) for at in range(SLOTS)]
        thing.values = {name: VALUES[place] for name, place in zip(names, places)}
        twin.put(11 + number, thing, slots=[[WIZARD, "r", ITEMS[place]] for place in places])
    return world.write("slots"), twin.end()


def with_verbs():
    """Objects, each with ten verbs of ordinary code; and the same for `json`."""
    world, twin = World(), Twin("verbs.json")
    for number in range(BYTES // 8500):
        thing = world.put(10 + number, Thing("Thing"))
        for at in range(10):
            thing.verb(f"verb{at}", ORDINARY)
        twin.put(10 + number, thing, verbs=[[names, WIZARD, "xd", lines] for names, lines in thing.verbs])
    return world.write("verbs"), twin.end()


def figures(_peers):
    for what, make in (("slots", with_slots), ("verbs", with_verbs)):
        world, twin = make()
        size = os.path.getsize(world)
        reading, writing = map(float, run(sys.executable, "-c", JSON, twin).output.split())
        read, encoded, written = play(world, []), play(world, [], "--out", os.devnull), play(world, [], "--out", folder.file("written"))
        yield Figure(f"the text of a world of {what}", "MB", size)
        yield Figure(f"{what}, read, by the clock", "MB/s", size / read.seconds, {"json": reading})
        yield Figure(f"{what}, read, in processor time", "MB/s", size / read.processor)
        yield Figure(f"{what}, memory to read it, beside its text", "times", read.memory / size)
        yield Figure(f"{what}, encoded, by the clock", "MB/s", size / longer(encoded, read), {"json": writing})
        yield Figure(f"{what}, encoded and written to a disk, by the clock", "MB/s", size / longer(written, read))
        yield Figure(f"{what}, memory to read and write it, beside its text", "times", written.memory / size)
        read, encoded = by_one(lambda: play(world, [])), by_one(lambda: play(world, [], "--out", os.devnull))
        yield Figure(f"{what}, read by one processor, by the clock", "MB/s", size / read.seconds, {"json": reading})
        yield Figure(f"{what}, encoded by one processor, by the clock", "MB/s", size / longer(encoded, read), {"json": writing})


def longer(more, less):
    """The seconds by the clock that one run takes longer than another: a hundredth of one at least, since less is noise."""
    return max(more.seconds - less.seconds, 0.01)
