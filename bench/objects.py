"""What worlds cost: properties and verbs that are found along ancestors, in a world of 10,000 objects, and changes of an object with 10,000 below it."""
from runs import Figure, beyond, play, sized, values_of
from worlds import Thing, World, loop

STEPS = sized(100, 1)
# Rust takes many times as many.
STEPS_FOR_RUST = sized(20, 1)
TURNS = sized(2400, 10)
MANY = sized(10000, 200)
# The first object of a line of ancestors.
TOP = 10
VERBS = 30
# The first class of a line of classes, how many they are, and how many verbs each has that nobody calls.
CLASSES, LEVELS, OTHERS = 40, 6, 40


def line_of(world, levels):
    """A line of objects, each below the one before; the first one defines a property and has verbs, of which the last two have these names."""
    for level in range(levels + 1):
        world.put(TOP + level, Thing("Line", parent=1 if level == 0 else TOP + level - 1))
    top = world.things[TOP]
    top.defines["p"] = 7
    for number in range(VERBS - 2):
        top.verb(f"verb{number}", [])
    top.verb("lo*ngest", [])
    top.verb("last", [])


def classes_of(world):
    """A line of classes, each with verbs of many names, the first one with the verb `last` behind them; and an object below the last one."""
    for level in range(LEVELS + 1):
        thing = world.put(CLASSES + level, Thing("Class", parent=1 if level == 0 else CLASSES + level - 1))
        if level < LEVELS:
            for number in range(OTHERS):
                thing.verb(f"{chr(97 + number % 26)}{chr(97 + (5 * number + level) % 26)}*method{number} other{number}", [])
    world.things[CLASSES].verb("last", [])


def filled(lines):
    """A world of many objects with a line of 17 and one of classes, whose room has the verb `try`."""
    world = World()
    line_of(world, 16)
    classes_of(world)
    for number in range(len(world.things), MANY):
        world.put(100 + number, Thing("Thing"))
    world.room.verb("try", lines)
    return world.write("world")


def trying(level, call):
    """A loop over a call of the object so many levels below the first one."""
    return [*loop(TURNS, 10 * [f"o{call};"], [f"o = #{TOP + level};"]), f"return {TURNS};"]


# Lua and Python know no names with stars.
RUST_ALONE = {"starred"}

LOOKS = [
    ("o.p of the parent", 1, ".p", "inherit1"),
    ("o.p, 4 ancestors up", 4, ".p", "inherit4"),
    ("o.p, 16 ancestors up", 16, ".p", "inherit16"),
    (f"o:last(), the last of its {VERBS} verbs", 0, ":last()", "find1"),
    ("o:long(), of lo*ngest, the last but one of them", 0, ":long()", "starred"),
    ("o:last(), 8 ancestors up", 8, ":last()", "find8"),
    (f"o:last(), {LEVELS} ancestors up, each with {OTHERS} other verbs", CLASSES - TOP + LEVELS, ":last()", "classes"),
]


def figures(peers):
    yield from looks(peers)
    yield from changes()


def looks(peers):
    tries = ["line 1 try"] * STEPS
    idle = play(filled([]), tries)
    count = 10 * TURNS * STEPS
    for what, level, call, name in LOOKS:
        played = play(filled(trying(level, call)), tries)
        values_of(played)
        yield Figure(what, "ns", beyond(played, idle) / count, dict(beside(peers, name)))


def beside(peers, name):
    """Each peer with its seconds for one look."""
    given = "7" if "inherit" in name else str(TURNS)
    others = [who for who in peers.here if who != "Rust"]
    for steps, without in ((STEPS_FOR_RUST, others), (STEPS, ["Rust", *others] if name in RUST_ALONE else ["Rust"])):
        for who, seconds in peers.loop(name, steps, TURNS, given, without=without).items():
            yield who, seconds / (10 * TURNS * steps)


def above_many(lines):
    """A world in which object TOP has many children, and two objects define a property each."""
    world = World()
    for number, name in ((5, "a"), (6, "b")):
        world.put(number, Thing("Parent")).defines[name] = 1
    world.put(TOP, Thing("Family", parent=5))
    for number in range(MANY):
        world.put(TOP + 1 + number, Thing("Thing", parent=TOP))
    world.room.verb("try", lines)
    return world.write("world")


CHANGES = [
    (f"chparent of an object above {MANY:,}", [f"chparent(#{TOP}, #6);", f"chparent(#{TOP}, #5);"]),
    (
        f"add_property and delete_property above {MANY:,}",
        [f'add_property(#{TOP}, "q", 1, {{#2, "r"}});', f'delete_property(#{TOP}, "q");'],
    ),
]


def changes():
    count = sized(5, 1)
    idle = play(above_many([]), ["line 1 try"])
    for what, lines in CHANGES:
        played = play(above_many(loop(count, lines)), ["line 1 try"])
        values_of(played)
        yield Figure(what, "ms", beyond(played, idle) / (2 * count))
