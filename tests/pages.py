#!/usr/bin/env python3
"""pages.py PROGRAM PAGE..: runs the examples of the pages by PROGRAM (moo-play) over the fixture, each with one worker and with three, and says which
print something else than the page.

A block `expressions` has a line for each: what a player types behind `;`, two spaces or more, `=>`, and the value, or `raises` and the code of an error.
A block `steps` has lines of a script, each with the lines that its step prints behind it. Each block is a run of its own."""
import re
import subprocess
import sys

KEY = "key " + 64 * "0"
STEP = re.compile(r"(moment|open|line|close|ready) ")
failures = 0


def fail(text):
    global failures
    failures += 1
    print(f"tests/pages.py: {text}", file=sys.stderr)


def blocks(page):
    """Gives the kind, the line number and the lines of each block of a page."""
    kind, first, lines = None, 0, []
    with open(page, encoding="ascii") as it:
        for number, line in enumerate(it.read().split("\n"), 1):
            if kind is None and line.startswith("```"):
                kind, first, lines = line[3:], number, []
            elif line == "```":
                yield kind, first, lines
                kind = None
            elif kind is not None:
                lines.append(line)


def printed(program, script, workers):
    """Gives the lines that a script prints."""
    words = [program, "fixture", "stdin", "--workers", workers]
    ran = subprocess.run(words, input="\n".join([KEY, *script, ""]), capture_output=True, text=True, timeout=600)
    if ran.returncode != 0 or ran.stderr:
        return [f"status {ran.returncode}, told {ran.stderr}"]
    return ran.stdout.split("\n")[:-1]


def compare(where, wanted, got):
    for i in range(max(len(wanted), len(got))):
        pair = [lines[i] if i < len(lines) else "nothing" for lines in (wanted, got)]
        if pair[0] != pair[1]:
            fail(f"{where}: {pair[0]!r} is wanted, {pair[1]!r} came")
            return


def expressions(program, where, lines, workers):
    pairs = [re.fullmatch(r"(.*?) {2,}=> (.*)", line) for line in lines]
    if None in pairs:
        fail(f"{where}: no example: {lines[pairs.index(None)]!r}")
        return
    got = printed(program, ["line 1 ;" + pair[1] for pair in pairs], workers)
    # What a step tells and queues is not asked here.
    got = [re.sub(r"step \d+ (.*) ticks \d+", r"\1", line) for line in got if line[:2] not in ("> ", "+ ", "! ")]
    for pair, came in zip(pairs, got + len(pairs) * ["nothing"]):
        wanted = re.sub(r"^raises ", "raised ", pair[2]) if pair[2].startswith("raises ") else "value " + pair[2]
        if came != wanted:
            fail(f"{where}: {pair[1]}: {wanted!r} is wanted, {came!r} came")


def steps(program, where, lines, workers):
    script = [line for line in lines if STEP.match(line)]
    compare(where, [line for line in lines if not STEP.match(line)], printed(program, script, workers))


KINDS = {"expressions": expressions, "steps": steps}
program, count = sys.argv[1], 0
for page in sys.argv[2:]:
    for kind, first, lines in blocks(page):
        if kind not in KINDS:
            fail(f"{page}:{first}: a block of another kind")
            continue
        for workers in ("1", "3"):
            KINDS[kind](program, f"{page}:{first} by {workers}", lines, workers)
        count += 1
if not count:
    fail("no examples")
sys.exit(failures > 0)
