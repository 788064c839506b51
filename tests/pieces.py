#!/usr/bin/env python3
"""pieces.py PLAY: worlds that are long enough for several threads to read a piece each. One is written again as the bytes that were read; where one line of
it is damaged, anywhere, the first fault is told at that line, whichever piece it stands in. So too on one processor, and with lines that look as if an object
began. Says what differs, and ends with status 1 then."""
import os
import re
import subprocess
import sys
import tempfile

sys.path.insert(0, os.path.join(os.path.dirname(os.path.dirname(os.path.abspath(__file__))), "bench"))
sys.dont_write_bytecode = True

from worlds import Literal, Thing, World

OBJECTS = 400
# In each of so many places of the text lines are damaged.
PLACES = 12
CODE = ["object = 5;", "object.name = tostr(object);", 'text = "object 7";', "for object in (this.contents)", "  objects = {@objects, object};", "endfor"]
failures = 0


def fail(text):
    global failures
    failures += 1
    print(f"tests/pieces.py: {text}", file=sys.stderr)


def deep():
    """The lines of a world in which some values nest as deep as they may, or have as many lists."""
    world = World()
    world.put(10, Thing("Kind")).defines["property"] = 0
    for number in range(11, 11 + OBJECTS):
        value = Literal("{" * 65535 + "}" * 65535) if number % 130 == 7 else Literal("{" + ", ".join(["{}"] * 30000) + "}") if number % 130 == 100 else "x" * 700
        world.put(number, Thing("Thing", parent=10)).values = {"property": value}
    return list(world.lines())


def lines():
    """The lines of a world of some 400,000 bytes."""
    world = World()
    kind = world.put(10, Thing("object 3"))
    for number in range(8):
        kind.defines[f"property{number}"] = 0
    for number in range(11, 11 + OBJECTS):
        thing = world.put(number, Thing(f"object {number}", parent=10))
        thing.values = {f"property{at}": ["object 9", number, "x" * (at * 12)] for at in range(7)}
        thing.verb("try", CODE)
    return list(world.lines())


# What becomes of a line that is so, and which fault that is: it is told at this line, or at one so many behind it.
DAMAGE = [
    (r"object \d+", lambda line: line.replace("object ", "object 0"), "Number", 0),
    (r"object \d+", lambda line: line + " ", "Line", 0),
    (r"name .*", lambda line: line.replace("name ", "nome "), "Line", 0),
    (r"parent #10", lambda line: "parent #010", "Number", 0),
    (r"children {}", lambda line: "children {1}", "Value", 0),
    (r"flags 0+", lambda line: "flags 00000", "Number", 0),
    (r"slots 8", lambda line: "slots 9", "Line", 9),
    (r"slot #2 r {.*", lambda line: line.replace("{", "{ "), "Value", 0),
    (r"slot #2 r {.*", lambda line: line.replace(" r ", " wr "), "Number", 0),
    (r"verb .* 6", lambda line: line[:-1] + "7", "Code", 1),
    (r"object = 5;", lambda line: "object = 05;", "Code", 0),
    (r"object\.name = .*", lambda line: "object 7", "Code", -1),
]


class Folder:
    """A world, a script without a step, and what a run leaves."""

    def __init__(self, path, play):
        self.path, self.play = path, play
        with open(self.file("script"), "w") as script:
            script.write("key " + 64 * "0" + "\n")

    def file(self, name):
        return os.path.join(self.path, name)

    def read(self, text, processors):
        """What comes of a text: the status, what is told, and what is written."""
        with open(self.file("world"), "w") as world:
            world.write(text)
        out = self.file("out")
        if os.path.exists(out):
            os.remove(out)
        hold = (lambda: os.sched_setaffinity(0, processors)) if processors else None
        ran = subprocess.run([self.play, self.file("world"), self.file("script"), "--out", out], capture_output=True, text=True, preexec_fn=hold)
        written = None
        if os.path.exists(out):
            with open(out) as file:
                written = file.read()
        return ran.returncode, ran.stderr, written


def main(play):
    good = lines()
    text = "\n".join(good) + "\n"
    with tempfile.TemporaryDirectory() as path:
        folder = Folder(path, play)
        for processors in (None, {min(os.sched_getaffinity(0))}):
            for what in (text, "\n".join(deep()) + "\n"):
                status, told, written = folder.read(what, processors)
                if (status, told) != (0, "") or written != what:
                    fail(f"a world of {len(what)} bytes is read with status {status}, told {told[:200]}, or another one is written")
        for place in range(PLACES):
            for pattern, damaged, name, behind in DAMAGE:
                first = len(good) * place // PLACES + 60
                at = next((at for at in range(first, len(good)) if re.fullmatch(pattern, good[at])), None)
                if at is None:
                    continue
                bad = [*good[:at], damaged(good[at]), *good[at + 1 :]]
                wanted = f"moo-play: world: line {at + 1 + behind}: {name}\n"
                status, told, written = folder.read("\n".join(bad) + "\n", None)
                if (status, told, written) != (2, wanted, None):
                    fail(f"{damaged(good[at])!r} in line {at + 1}: status {status}, told {told[:200]!r}, {wanted!r} is wanted")
            end = len(text) * place // PLACES + 1
            wanted = f"moo-play: world: line {text.count(chr(10), 0, end) + 1}: Ended\n"
            status, told, written = folder.read(text[:end], None)
            if (status, told, written) != (2, wanted, None):
                fail(f"the first {end} bytes: status {status}, told {told[:200]!r}, {wanted!r} is wanted")
    return min(failures, 1)


if __name__ == "__main__":
    sys.exit(main(sys.argv[1]))
