"""What programs cost to read and to spell: ordinary code, texts of 60,000 characters that are long, deep or wrong at their end, and texts of 10 MB, parsed
alone and as programs of a world."""
from runs import PARSE, PLAY, Failure, Figure, beyond, folder, least, play, run, script, sized
from worlds import World

CALLS = sized(20, 1)
CALLS_OF_HOSTILE = sized(5, 1)
LENGTH = sized(60000, 2000)
LENGTH_OF_LONG = sized(10_000_000, 2000)
# Ordinary code, in lines as the server spells them.
ORDINARY = [
    'if (typeof(args[1]) != str || length(args) < 2)',
    '  return E_INVARG;',
    'endif',
    '{name, ?count = 1, @rest} = args;',
    'found = {};',
    'for item in (this.contents)',
    '  if (item.name == name && count > 0)',
    '    found = {@found, item};',
    '    count = count - 1;',
    '  elseif (index(item.name, name) == 1)',
    '    this:tell("You see ", item.name, " here, and \\"" + name + "\\" is its name.");',
    '  else',
    '    total = (total + item.weight * 3) / (1 + length(rest));',
    '  endif',
    'endfor',
    'while (total > 0)',
    '  total = total - 1;',
    "  value = `this.(name)[total] ! E_RANGE, E_PROPNF => #-1';",
    'endwhile',
    'try',
    '  player.location:announce(player.name, " takes ", found[1..min($, 3)]);',
    'except error (E_VERBNF, E_TYPE)',
    '  notify(player, tostr(error[2]));',
    'endtry',
]
# What stands again and again, the middle, and what stands as often behind it.
HOSTILE = [
    ("open parentheses", "(", "", ""),
    ("parentheses", "(", "1", ")"),
    ("closed parentheses", "", "", ")"),
    ("a sum", "1+", "1;", ""),
    ("a sum without an end", "1+", "", ""),
    ("assignments", "o.p=", "1;", ""),
    ("properties", "", "o", ".p"),
    ("properties in parentheses", "o.(", "1", ")"),
    ("statements", "1;", "", ""),
    ("statements and a wrong one", "a;", "?", ""),
    ("empty statements", ";", "", ""),
    ("a name", "a", ";", ""),
    ("digits", "1", ";", ""),
    ("minus signs", "-", "1;", ""),
    ("a text of backslashes", "", '"', "\\\\"),
    ("texts", '""+', "1;", ""),
    ("spaces", " ", "1;", " "),
    ("open brackets", "a[", "", ""),
    ("brackets", "a[", "1", "]"),
    ("lists", "{", "", "}"),
    ("open scatterings", "{a, ", "", ""),
    ("a list", "{", "1", ", 1"),
    ("calls", "f(", "", ")"),
    ("calls of verbs", "a:b(", "", ")"),
    ("conditions", "1 ? 2 | ", "3;", ""),
    ("catches", "`", "1", " ! ANY'"),
    ("branches", "if (1) ", "", " endif"),
    ("a chain of branches", "if (1) ", "", " elseif (1)"),
    ("loops without an end", "while (1) ", "", ""),
    ("forks", "fork (0) ", "", " endfork"),
    ("leavings of no loop", "break;", "", ""),
]
# Texts of 10 MB: what stands again and again.
LONG = [("open parentheses", "("), ("a sum without an end", "1+"), ("open braces", "{"), ("one text", "x"), ("empty statements", ";")]
SET = ['return set_verb_code(#3, "given", this.text);']
PEEK = ["return length(this.text);"]
SPELL = ['return length(verb_code(#3, "given"));']


def ordinary(most=LENGTH):
    """Lines of ordinary code, of so many characters at most."""
    lines, rest = [], most
    while rest > sum(map(len, ORDINARY)) + len(ORDINARY):
        lines += ORDINARY
        rest -= sum(map(len, ORDINARY)) + len(ORDINARY)
    return lines


def hostile(before, middle, after):
    count = LENGTH // (len(before) + len(after))
    return count * before + middle + count * after


def world_of(text, lines, given=()):
    """A world whose room has a text as a list of lines, the verb `try` of these lines, and a verb to program."""
    world = World()
    world.room.defines["text"] = text
    world.room.verb("try", lines)
    world.room.verb("given", list(given))
    return world.write("world")


def characters(text):
    return sum(len(line) + 1 for line in text)


def by_call(text, calls):
    """Characters a second by set_verb_code."""
    tries = ["line 1 try"] * calls
    idle = play(world_of(text, PEEK), tries)
    return calls * characters(text) / beyond(play(world_of(text, SET), tries), idle)


def by_line(text, calls):
    """Characters a second by .program, from lines that a player types: what each of these steps takes is in it."""
    whole = "\n".join(text)
    typed = [line for part in whole.split("\n") for line in pieces(part)]
    steps = calls * [".program #3:given", *typed, "."]
    world = world_of([], PEEK)
    idle = play(world, [])
    played = play(world, [f"line 1 {line}" for line in steps])
    answers = [line for line in played.output.splitlines() if line.startswith(("> 1 Line ", "> 1 Verb programmed."))]
    if len(answers) != calls:
        raise Failure(f".program was answered {len(answers)} times, not {calls}: {played.output[-300:]}")
    return calls * characters(text) / beyond(played, idle)


def pieces(line):
    """A line in pieces that can be sent."""
    return [line[at : at + 4000] for at in range(0, len(line), 4000)] or [""]


def spelled(text, calls):
    """Characters a second that verb_code spells."""
    tries = ["line 1 try"] * calls
    idle = play(world_of(text, PEEK, text), tries)
    return calls * characters(text) / beyond(play(world_of(text, SPELL, text), tries), idle)


def in_world(lines, status):
    """Characters a second of a world's text, read whole or refused, which is a program nearly all."""
    world = World()
    world.room.verb("given", lines)
    path, idle = world.write("world"), script("script", [])
    return characters(lines) / least(lambda: run(PLAY, path, idle, status=status)).processor


def parsed(lines):
    """Characters a second of a text that is parsed and nothing else, with what the program takes to begin and to read it."""
    path = folder.file("text")
    with open(path, "w") as file:
        file.write("\n".join(lines))
    return characters(lines) / least(lambda: run(PARSE, given=path)).processor


def cut(peers, lines):
    """Characters a second of the same program where plain Rust cuts its tokens."""
    path = folder.file("program")
    with open(path, "w") as file:
        file.write("\n".join(lines))
    taken = peers.tokens(path)
    return {} if taken is None else {"Rust": characters(lines) / taken}


def long_ones():
    """Texts of 10 MB: what each is, its lines, and whether it is as a world's text spells a program."""
    for name, part in LONG:
        text = part * (LENGTH_OF_LONG // len(part))
        is_text = name == "one text"
        yield name, [f'"{text}";' if is_text else text], is_text


def figures_of_long(peers):
    text = ordinary(LENGTH_OF_LONG)
    peer = cut(peers, text)
    alone = parsed(text)
    yield Figure("ordinary code of 10 MB, parsed alone", "MB/s", alone, peer)
    in_worlds = in_world(text, 0)
    yield Figure("ordinary code, a world with a program of 10 MB", "MB/s", in_worlds, peer)
    for name, text, _ in long_ones():
        peer = cut(peers, text)
        yield Figure(f"{name}, 10 MB parsed alone", "MB/s", parsed(text), {"ordinary": alone, **peer})
    for name, text, is_spelled in long_ones():
        yield Figure(f"{name}, a world with 10 MB", "MB/s", in_world(text, 0 if is_spelled else 2), {"ordinary": in_worlds, **cut(peers, text)})


def figures(peers):
    yield from figures_of_long(peers)
    text = ordinary()
    yield Figure("ordinary code, set_verb_code", "MB/s", by_call(text, CALLS))
    yield Figure("ordinary code, .program and its lines", "MB/s", by_line(text, CALLS))
    yield Figure("ordinary code, spelled by verb_code", "MB/s", spelled(text, CALLS))
    for name, *parts in HOSTILE:
        text = [hostile(*parts)]
        yield Figure(f"{name}, set_verb_code", "MB/s", by_call(text, CALLS_OF_HOSTILE))
        yield Figure(f"{name}, .program", "MB/s", by_line(text, CALLS_OF_HOSTILE))
