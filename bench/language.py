"""What the language costs: loops that a verb runs, beside the same loops in other languages. Of each run is taken off what the same script takes with a
verb that does nothing."""
from typing import NamedTuple

from runs import IS_SHORT, PLAY, Failure, Figure, beyond, play, run, script, sized, values_of
from worlds import World, loop

# A step has 30,000 ticks.
STEPS = sized(100, 1)


class Loop(NamedTuple):
    """A loop: its name to the peers, what one operation is, turns of a step, operations of a turn, the verb's lines, and whether its ticks are counted in
    place of operations."""

    name: str
    what: str
    turns: int
    each: int
    lines: list
    is_by_ticks: bool = False


def repeated(name, what, turns, each, body, gives, before=(), is_by_ticks=False):
    """A loop whose turn has one operation several times, and then gives a value."""
    return Loop(name, what, turns, each, [*loop(turns, each * [body], before), f"return {gives};"], is_by_ticks)


def counted(turns):
    return Loop("count", "a turn of while (i < n) i = i + 1;", turns, 1, ["i = 0;", f"while (i < {turns})", "  i = i + 1;", "endwhile", "return i;"])


def by_thousands(name, what, thousands, lines, gives, before=()):
    """A loop of so many thousand turns, by loops of a thousand."""
    return Loop(name, what, 1000 * thousands, 1, [*loop(thousands, lines, before), f"return {gives};"])


LOOPS = [
    repeated("add", "a tick of 1 + 1;", sized(1400, 10), 20, "1 + 1;", sized(1400, 10), is_by_ticks=True),
    counted(sized(7000, 50)),
    repeated("read", "this.n", sized(2700, 10), 10, "this.n;", "this.n", ["this.n = 0;"]),
    repeated("write", "this.n = i", sized(2700, 10), 10, "this.n = i;", "this.n"),
    repeated("update", "this.n = this.n + 1", sized(900, 10), 10, "this.n = this.n + 1;", "this.n", ["this.n = 0;"]),
    repeated("append", "l = {@l, i}", sized(9000, 100), 1, "l = {@l, i};", "length(l)", ["l = {};"]),
    by_thousands("join", 's = s + "x", texts of up to 1,000', sized(9, 1), ['s = "";', *loop(1000, ['s = s + "x";'])], "length(s)"),
    by_thousands("put", "x[i] = i, a list of 1,000", sized(13, 1), loop(1000, ["x[i] = i;"]), "x[1000]", ["x = this.l;"]),
    repeated("call", "this:leaf(), a verb without statements", sized(2400, 10), 10, "this:leaf();", sized(2400, 10)),
    repeated("next", "this:next(i), a verb that gives one more", sized(600, 10), 10, "this:next(i);", sized(600, 10)),
    repeated("length", "length(l)", sized(2700, 10), 10, "length(l);", "length(l)", ["l = this.l;"]),
]
FIB = ["n = args[1];", "if (n < 2)", "  return n;", "endif", "return this:fib(n - 1) + this:fib(n - 2);"]
APPENDS = [
    "l = {};",
    "for i in [1..this.most]",
    "  l = {@l, i};",
    "  if (ticks_left() < 20)",
    "    suspend(0);",
    "  endif",
    "endfor",
    "return length(l);",
]


def world_of(lines, most=0):
    """A world whose room has the verb `try` of these lines."""
    world = World()
    world.room.defines.update(n=0, l=[0] * 1000, most=most)
    world.room.verb("try", lines)
    world.room.verb("leaf", [])
    world.room.verb("next", ["return args[1] + 1;"])
    world.room.verb("fib", FIB)
    return world.write("world")


def once(lines, tries):
    """A run of a script over a world whose room has the verb `try` of these lines."""
    world, path = world_of(lines), script("script", tries)
    return lambda: run(PLAY, world, path)


def last(played):
    """What the last step of a run gave."""
    return values_of(played)[-1][0]


def figures(peers):
    tries = ["line 1 try"] * STEPS
    idle = play(world_of([]), tries)
    for it in LOOPS:
        played, taken = peers.beside(once(it.lines, tries), it.name, STEPS, it.turns, last)
        count = sum(ticks for _, ticks in values_of(played)) if it.is_by_ticks else STEPS * it.turns * it.each
        each = STEPS * it.turns * it.each
        yield Figure(it.what, "ns", beyond(played, idle) / count, {who: seconds / each for who, seconds in taken.items()})
    yield fibonacci(peers, tries, idle)
    yield from growth()


def fibonacci(peers, tries, idle):
    """A call of a verb that calls itself twice, by the count of its calls."""
    number, calls = sized((16, 3193), (5, 15))
    played, taken = peers.beside(once([f"return this:fib({number});"], tries), "fib", STEPS, number, last)
    count = calls * STEPS
    return Figure("a call of fib, by calls of verbs", "ns", beyond(played, idle) / count, {who: seconds / count for who, seconds in taken.items()})


def growth():
    """One list that grows over the tasks of a verb that waits: twice as many appends should take twice as long."""
    most = sized(60000, 2000)
    half, whole = appending(most // 2), appending(most)
    times = whole / half
    yield Figure(f"l = {{@l, i}}, {most:,} in one list", "ns", whole / most)
    fault = "GROWS FASTER THAN THE COUNT" if times > 3 and not IS_SHORT else ""
    yield Figure(f"{most:,} appends beside half of them", "times", times, fault=fault)


def appending(count):
    """The processor seconds of so many appends to one list. A task that goes on has 15,000 ticks, of which a turn takes 6."""
    world = world_of(APPENDS, count)
    idle = play(world, [])
    played = play(world, ["line 1 try"] + ["ready 1"] * (count // 2000 + 1))
    if f" value {count} " not in played.output:
        raise Failure(f"{count} appends did not end")
    return beyond(played, idle)
