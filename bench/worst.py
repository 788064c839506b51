"""The dearest calls: operations and built-in functions of values on operands of the greatest weight, which a world's properties have. Each is repeated by a
verb, so its operands are shared. A call that takes more than 20 ms is told, and the status is 1."""
from runs import IS_SHORT, Figure, beyond, play, sized, values_of
from worlds import Literal, World, loop

CALLS = sized(30, 1)
LIMIT = 0.020
# The items of the heaviest list, and the characters of the heaviest text. The arguments of a call are a list too, which may not be heavier: ALONE is the
# most that one argument may have, BESIDE the most of one beside a number, PAIR the most of each of two, and with a quarter goes LONG.
SIZE = sized(65535, 1500)
HALF = SIZE // 2
ALONE, BESIDE, PAIR = SIZE - 1, SIZE - 2, HALF - 1
QUARTER = SIZE // 4
LONG = SIZE - QUARTER - 6


def many(item, count=SIZE):
    return Literal("{" + ", ".join(count * [item]) + "}")


def letters(count=SIZE, first="", last=""):
    return first + count * "a" + last


def words():
    """Texts of 256 characters that differ in their ends."""
    return [253 * "a" + f"{number:03}" for number in range(SIZE // 257 - 1)]


def nest(depth):
    """A list that nests so deep."""
    return Literal(depth * "{" + "0" + depth * "}")


NUMBERS = many("-2147483648")
TEXTS = many('""')
LISTS = many("{}")
ERRORS = many("E_ARGS")
NEST, NEST_BELOW = nest(SIZE), nest(SIZE - 1)
LESS_NUMBERS, LESS_TEXTS = many("-2147483648", BESIDE), many('""', BESIDE)

# What is called, and its operands a, b and c. `n` is the size of a list or a text.
CASES = [
    ("a + b, texts", "a + b;", letters(HALF), letters(HALF)),
    ("a == b, texts", "a == b;", letters(), letters().upper()),
    ("a < b, texts", "a < b;", letters(), letters().upper()),
    ("a[n], text", "a[n];", letters()),
    ("a[1..n], text", "a[1..n];", letters()),
    ("a[1] = b, text", "a[1] = b;", letters(), "b"),
    ("a[2..n] = b, text", "a[2..n] = b;", letters(), letters(SIZE - 1)),
    ("a[n + 1..0] = b, text", "`a[n + 1..0] = b ! ANY';", letters(), "a"),
    ("tostr(a), text", "tostr(a);", letters(ALONE)),
    ("tostr(a, b), texts", "tostr(a, b);", letters(PAIR), letters(PAIR)),
    ("toliteral(a), text", "toliteral(a);", letters(SIZE - 2)),
    ("toliteral(a), text of quotes", "`toliteral(a) ! ANY';", ALONE * '"'),
    ("toint(a), text of spaces", "toint(a);", ALONE * " "),
    ("toint(a), text of letters", "toint(a);", letters(ALONE)),
    ("toobj(a), text of spaces", "toobj(a);", ALONE * " "),
    ("equal(a, b), texts", "equal(a, b);", letters(PAIR), letters(PAIR)),
    ("strcmp(a, b)", "strcmp(a, b);", letters(PAIR), letters(PAIR)),
    ("index(a, b), not there", "index(a, b);", letters(LONG), letters(QUARTER, last="b")),
    ("index(a, b, 1), not there", "index(a, b, 1);", letters(LONG), letters(QUARTER, last="b")),
    ("index(a, b), in other letters", "index(a, b);", letters(PAIR), letters(PAIR).upper()),
    ("index(a, b), short and not there", "index(a, b);", letters(SIZE - 5), "ab"),
    ("rindex(a, b), not there", "rindex(a, b);", letters(LONG), letters(QUARTER, first="b")),
    ("rindex(a, b, 1), not there", "rindex(a, b, 1);", letters(LONG), letters(QUARTER, first="b")),
    ("strsub(a, b, c), each character", "strsub(a, b, c);", letters(SIZE - 6), "a", "a"),
    ("strsub(a, b, c), each dropped", "strsub(a, b, c, 1);", letters(SIZE - 6), "a", ""),
    ("strsub(a, b, c), too long", "`strsub(a, b, c) ! ANY';", letters(PAIR - 2), "a", letters(PAIR - 2)),
    ("strsub(a, b, c), not there", "strsub(a, b, c);", letters(LONG), letters(QUARTER, last="b"), "a"),
    ("strsub(a, b, c), half of it", "strsub(a, b, c);", letters(2 * QUARTER), letters(QUARTER), letters(QUARTER)),
    ("a == b, integers", "a == b;", NUMBERS, NUMBERS),
    ("a == b, empty texts", "a == b;", TEXTS, TEXTS),
    ("a == b, empty lists", "a == b;", LISTS, LISTS),
    ("b in a, integers", "b in a;", NUMBERS, 1),
    ("b in a, empty texts", "b in a;", TEXTS, "a"),
    ("b in a, words", "b in a;", words(), words()[-1]),
    ("a[n], list", "a[n];", TEXTS),
    ("a[1..n], integers", "a[1..n];", NUMBERS),
    ("a[1..n], empty texts", "a[1..n];", TEXTS),
    ("a[1] = b, alone", "a[1] = b;", TEXTS, 0),
    ("a[1..1] = b, alone", "a[1..1] = b;", TEXTS, [0]),
    ("a[1..n] = b, empty texts", "a[1..n] = b;", TEXTS, TEXTS),
    ("a[n + 1..0] = b, too heavy", "`a[n + 1..0] = b ! ANY';", TEXTS, TEXTS),
    ("{@a}, integers", "{@a};", NUMBERS),
    ("{@a}, empty texts", "{@a};", TEXTS),
    ("{@a, b}, empty texts", "{@a, b};", LESS_TEXTS, 0),
    ("{b, @c} = a, integers", "{b, @c} = a;", NUMBERS),
    ("{b, @c} = a, empty texts", "{b, @c} = a;", TEXTS),
    ("a = b; a[1] = 0, copied", "a = b; a[1] = 0;", 0, TEXTS),
    ("length(a), list", "length(a);", LESS_TEXTS),
    ("tostr(@a), integers", "`tostr(@a) ! ANY';", NUMBERS),
    ("tostr(@a), errors", "`tostr(@a) ! ANY';", ERRORS),
    ("tostr(@a), empty texts", "tostr(@a);", TEXTS),
    ("toliteral(a), integers", "`toliteral(a) ! ANY';", LESS_NUMBERS),
    ("toliteral(a), empty texts", "`toliteral(a) ! ANY';", LESS_TEXTS),
    ("toliteral(a), empty lists", "`toliteral(a) ! ANY';", many("{}", ALONE)),
    ("equal(a, b), integers", "equal(a, b);", many("-2147483648", PAIR), many("-2147483648", PAIR)),
    ("equal(a, b), empty lists", "equal(a, b);", many("{}", PAIR), many("{}", PAIR)),
    ("is_member(b, a), integers", "is_member(b, a);", LESS_NUMBERS, 1),
    ("is_member(b, a), empty lists", "is_member(b, a);", many("{}", BESIDE), 1),
    ("is_member(b, a), words", "is_member(b, a);", words()[1:], words()[-1]),
    ("listappend(a, 0), integers", "listappend(a, 0);", LESS_NUMBERS),
    ("listappend(a, 0), empty texts", "listappend(a, 0);", LESS_TEXTS),
    ("listappend(a, 0, 0), at the front", "listappend(a, 0, 0);", many('""', BESIDE - 1)),
    ("listinsert(a, 0), integers", "listinsert(a, 0);", LESS_NUMBERS),
    ("listinsert(a, 0), empty texts", "listinsert(a, 0);", LESS_TEXTS),
    ("listinsert(a, b), two lists", "listinsert(a, b);", many('""', PAIR), many('""', PAIR)),
    ("listdelete(a, 1), integers", "listdelete(a, 1);", LESS_NUMBERS),
    ("listdelete(a, 1), empty texts", "listdelete(a, 1);", LESS_TEXTS),
    ("listset(a, 0, 1), integers", "listset(a, 0, 1);", many("-2147483648", BESIDE - 1)),
    ("listset(a, 0, 1), empty texts", "listset(a, 0, 1);", many('""', BESIDE - 1)),
    ("setadd(a, b), empty texts", "setadd(a, b);", many('""', BESIDE - 2), "a"),
    ("setremove(a, b), words", "setremove(a, b);", words()[1:], words()[-1]),
    ("setremove(a, b), not there", "setremove(a, b);", many('""', BESIDE - 2), "a"),
    ("min(@a)", "min(@a);", NUMBERS),
    ("max(@a)", "max(@a);", NUMBERS),
    ("a == b, nests", "a == b;", NEST, NEST),
    ("b in a, nests", "b in a;", NEST, NEST_BELOW),
    ("a[1], nest", "a[1];", NEST),
    ("a[1..1], nest", "a[1..1];", NEST),
    ("a[1..1] = b, nest", "`a[1..1] = b ! ANY';", NEST, NEST),
    ("toliteral(a), nest", "`toliteral(a) ! ANY';", NEST_BELOW),
    ("equal(a, b), nests", "equal(a, b);", nest(PAIR), nest(PAIR)),
    ("listappend(a, 0), nest", "listappend(a, 0);", nest(BESIDE)),
    ("setadd(a, b), nest", "setadd(a, b);", nest(PAIR), nest(PAIR)),
    ("a ^ b", "a ^ b;", -2147483647, 2147483647),
]


def world_of(operands, body):
    """A world whose room has the operands, and a verb that takes them and repeats what is called."""
    world = World()
    for name, value in zip("abc", operands):
        world.room.defines[name] = value
    taken = [f"{name} = this.{name};" for name in "abc"[: len(operands)]]
    world.room.verb("try", loop(CALLS, body, [f"n = {SIZE};", *taken]))
    return world.write("world")


def figures(_peers):
    dearest = ("", 0.0)
    for what, call, *operands in CASES:
        body = [statement + ";" for statement in call.rstrip(";").split("; ")]
        idle = play(world_of(operands, []), ["line 1 try"])
        played = play(world_of(operands, body), ["line 1 try"])
        values_of(played)
        taken = beyond(played, idle) / CALLS
        dearest = max(dearest, (what, taken), key=lambda it: it[1])
        fault = "MORE THAN 20 ms" if taken > LIMIT and not IS_SHORT else ""
        yield Figure(what, "ms", taken, fault=fault)
    yield Figure(f"the dearest call: {dearest[0]}", "ms", dearest[1])
