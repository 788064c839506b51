#!/usr/bin/env python3
"""files.py SERVER PLAY FOLDER: servers (moo-server) on worlds in files of the folder, which is empty, and runs of PLAY (moo-play) before and after them.
Says what went wrong, and ends with status 1 then."""
import os
import re
import signal
import subprocess
import sys
import time

from serving import CONNECTED, GREETING, UNKNOWN, Client, Fault, Server, play_rows, waits_for, wants, within

program, player, folder = sys.argv[1:4]


def path(name):
    return f"{folder}/{name}"


def text(name):
    with open(path(name), encoding="ascii") as it:
        return it.read()


def play(name, world, lines, out=None, printed=None):
    """A run of moo-play over a world, which writes FILE if a name is given for it. Gives what it prints."""
    words = [player, world, "stdin", *(["--out", path(out)] if out else [])]
    script = "".join(line + "\n" for line in ["key " + 64 * "0", *lines])
    run = subprocess.run(words, input=script, capture_output=True, text=True, timeout=60)
    if run.returncode != 0 or run.stderr:
        raise Fault(f"{name}: status {run.returncode}, told {run.stderr}")
    if printed is not None:
        wants(name, run.stdout, "".join(line + "\n" for line in printed))
    return run.stdout


def counts(link, *numbers):
    """The player counts, so many times, up to these numbers."""
    for number in numbers:
        link.sends("count")
        link.wants_value("the count", "#3.n", str(number))


def wants_whole(name, file):
    """The file is the text of a world, which is the same text when it was read and written again."""
    play(name, path(file), [], out="again", printed=[])
    wants(f"{name}: read and written again", text("again"), text(file).replace("\nending 1\n", "\nending 0\n", 1))


def begun(file, seconds):
    """A world with the fixture's two links and one more, which is in the middle of a program, with a task that waits for good, one that is due so many
    seconds from now and one that waits for a line. Gives the moment when the second is due."""
    now = int(time.time())
    play(
        "the world at the start",
        "fixture",
        [
            f"moment {now}",
            'line 1 ;notify(player, "held " + suspend())',
            f'line 1 ;suspend({seconds}) + notify(player, "due")',
            'line 2 ;notify(player, "got " + read())',
            "open 3",
            "line 3 connect #2",
            "line 3 .program #3:sum",
            'line 3 notify(player, "summed");',
            "line 1 count",
        ],
        out=file,
    )
    for line in ("task 1 idle", f"task 65 wait {now + seconds} 0", "task 129 read 2", 'link 3 #2 {#3, "sum", {"notify(player, \\"summed\\");"}}'):
        if line not in text(file).split("\n"):
            raise Fault(f"the world at the start has no line {line}")
    return now + seconds


def goes_on():
    """A server goes on from a file: its links are closed, and with them the task that reads and the program; the other tasks go on when they are to."""
    due = begun("start", 3)
    server = Server(program, path("start"), "--workers", "2")
    with Client(server, "#4") as ann, Client(server, "#5") as ben:
        ann.wants_value("the tasks", "queued_tasks()", f'{{{{1, -1, #2, #-1, "eval", #-1}}, {{65, {due}, #2, #-1, "eval", #-1}}}}')
        ben.says("the line of one whose task read", "looks", UNKNOWN)
        ann.wants("a task that is due", "due")
        if not due <= time.time() < due + 3:
            raise Fault(f"a task that is due at {due} went on at {time.time():.1f}")
        ben.says("a task that waits", ';{resume(1, "on"), notify(player, "resumed")}', "resumed")
        ann.wants("a task that is resumed", "held on")
        ann.wants_value("the tasks at the end", "queued_tasks()", "{}")
        counts(ann, 2, 3)
    with Client(server, "#2") as wizard:
        wizard.says("a line of one who was programming", ".", UNKNOWN)
        wizard.says("a verb that was not programmed", '.program #3:sum', "Now programming #3:sum.")
    wants("files", sorted(os.listdir(folder)), ["start"])
    wants("what it says", len(server.told()), 1)


def writes_while_it_goes_on():
    begun("start", 1000)
    file = path("asked")
    server = Server(program, path("start"), "--out", file)
    with Client(server, "#4") as ann, Client(server, "#5") as ben:
        counts(ann, 2)
        if os.path.exists(file):
            raise Fault("a file is written that nobody asked for")
        ben.says("a task that reads", ';notify(player, "reads") + notify(player, "got " + read())', "reads")
        ann.says("asked", ';dump_database() + notify(player, "asked")', "asked")
        counts(ann, 3, 4)
        server.wants_told("the first file", f"moo-server: wrote {file}")
        wants_whole("the first file", "asked")
        next_step = int(re.search(r"^next (\d+)$", text("asked"), re.M)[1])
        # Where the number of Ben's link is 2, moo-play's second link is his.
        play(
            "from the first file",
            path("asked"),
            ["line 1 count", "line 2 looks", 'line 1 ;resume(1, "on")'],
            printed=[
                f"step {next_step} value 3 ticks 5",
                f"step {next_step + 1} value 2 ticks 6",
                "> 2 got looks",
                f"step {next_step + 2} value 0 ticks 7",
            ],
        )
        ben.says("a task that reads on", "looks", "got looks")
        # Each time that it is asked.
        for turn in (2, 3):
            counts(ann, 3 + turn)
            ann.sends(";dump_database()")
            server.wants_told(f"file {turn}", *turn * [f"moo-server: wrote {file}"])
            wants_whole(f"file {turn}", "asked")
            play("the count of the file", path("asked"), ["line 1 ;#3.n"], printed=[f"step {step_of('asked')} value {3 + turn} ticks 7"])
        # The last world is written at the end.
        counts(ann, 7)
        ben.says("the end", ';{notify(player, "bye"), shutdown()}', "bye")
        ben.wants_end("the one who ended it")
        ann.wants_end("the other one")
    server.wants_end("the end", 0)
    wants("what it says", server.told()[1:], 4 * [f"moo-server: wrote {file}"])
    wants("the mark of the end", "\nending 1\n" in text("asked"), True)
    wants_whole("the last file", "asked")
    wants("files", sorted(os.listdir(folder)), ["again", "asked", "start"])
    # And it starts again, from the file that it writes.
    server = Server(program, file, "--out", file)
    with Client(server, "#4") as ann:
        counts(ann, 8)
        ann.says("a task from the first file", ';resume(1, "again")', "held again")
        ann.sends(";shutdown()")
    server.wants_end("the second end", 0)
    play("the count of the last file", file, ["line 1 ;#3.n"], printed=[f"step {step_of('asked')} value 8 ticks 7"])


def step_of(file):
    """The number of a file's next step."""
    return int(re.search(r"^next (\d+)$", text(file), re.M)[1])


def many_asks():
    """Asked many times at once, it writes whole texts, fewer than it was asked for, and the newest world last."""
    file = path("asked")
    server = Server(program, "fixture", "--workers", "2", "--out", file)
    with Client(server, "#4") as ann:
        ann.sends(b"".join(b"count\r\n;dump_database()\r\n" for _ in range(200)))
        ann.wants_value("the count", "#3.n", "200")
        for _ in range(50):
            if os.path.exists(file):
                wants("the last line of a file", text("asked").split("\n")[-2:], ["end", ""])
            time.sleep(0.005)
        waits_for("the newest world", lambda: os.path.exists(file) and "slot #2 r 200\n" in text("asked"))
        time.sleep(0.3)
        lines = server.told()[1:]
        wants("what it says", (set(lines), 1 <= len(lines) <= 200), ({f"moo-server: wrote {file}"}, True))
    wants_whole("the newest world", "asked")


def without_a_file():
    """Without `--out` nothing is written, and nothing is said of it."""
    server = Server(program, "fixture")
    with Client(server, "#4") as ann:
        ann.says("asked", ';dump_database() + notify(player, "asked")', "asked")
        ann.says("the end", ';shutdown() + notify(player, "bye")', "bye")
    server.wants_end("the end", 0)
    wants("what it says", server.told()[1:], [])
    wants("files", os.listdir(folder), [])


def cannot_write():
    """A file that cannot be written is told each time, the server goes on, and the last time decides the status."""
    for name, file in (("a folder that is not there", path("absent/file")), ("a folder", folder), ("a full device", "/dev/full")):
        server = Server(program, "fixture", "--out", file)
        line = f"moo-server: cannot write {file}"
        with Client(server, "#4") as ann:
            counts(ann, 1)
            ann.says(name, ';dump_database() + notify(player, "asked")', "asked")
            server.wants_told(name, line)
            counts(ann, 2)
            ann.says(f"{name}: the end", ';shutdown() + notify(player, "bye")', "bye")
            ann.wants_end(f"{name}: the link at the end")
        server.wants_end(name, 2)
        wants(f"{name}: what it says", server.told()[1:], [line, line])
    wants("files", os.listdir(folder), [])
    # What cannot be written now can be written later, and the other way.
    file = path("later/file")
    server = Server(program, "fixture", "--out", file)
    with Client(server, "#4") as ann:
        ann.sends(";dump_database()")
        server.wants_told("not yet", f"moo-server: cannot write {file}")
        os.mkdir(path("later"))
        ann.sends(";dump_database()")
        server.wants_told("later", f"moo-server: cannot write {file}", f"moo-server: wrote {file}")
        wants_whole("later", "later/file")
        os.rename(path("later"), path("moved"))
        ann.sends(";dump_database()")
        server.wants_told("no more", *[f"moo-server: {it} {file}" for it in ("cannot write", "wrote", "cannot write")])
        os.rename(path("moved"), path("later"))
        counts(ann, 1)
        ann.sends(";shutdown()")
    server.wants_end("written at the end", 0)
    wants("what it says at the end", server.told()[4:], [f"moo-server: wrote {file}"])
    wants("the file at the end", "slot #2 r 1\n" in text("later/file"), True)


def refused():
    """A file that is no world's text is refused before the server listens, and what it would write is not touched."""
    begun("start", 1000)
    lines = text("start").split("\n")
    out = path("kept")
    with open(out, "w", encoding="ascii") as it:
        it.write("old\n")

    def refuses(name, damaged, *told):
        with open(path("damaged"), "w", encoding="latin-1") as it:
            it.write(damaged)
        run = subprocess.run([program, path("damaged"), "--out", out, "--port", "1"], capture_output=True, text=True, timeout=30)
        wants(name, (run.returncode, run.stdout, run.stderr), (2, "", "".join(f"moo-server: world: {line}\n" for line in told)))
        wants(f"{name}: the file that was there", text("kept"), "old\n")

    refuses("a text that is not ended", "\n".join(lines[:-2]) + "\n", f"line {len(lines) - 1}: Ended")
    refuses("no text", "", "line 1: Ended")
    refuses("another first line", "MOO-CHECKPOINT 2\n" + "\n".join(lines[1:]), "line 1: Header")
    refuses("a line behind the end", text("start") + "x\n", f"line {len(lines)}: Line")
    for name, word, other, fault in (
        ("a needless zero", "next ", "next 0", "Number"),
        ("a value that is none", 'name "Room"', "name Room", "Value"),
        # (told at the program's first line)
        ("a line of a program", "this.n = this.n + 1;", "this.n = this.n+1;", "Code"),
        ("a task's state", "task 1 idle", "task 1 gone", "Line"),
        ("a place that is none", "place ", "place 9.9.", "Frame"),
        ("an object that is not there", "parent #7", "parent #77", "World"),
    ):
        at = next((at for at, line in enumerate(lines) if word in line), None)
        if at is None:
            raise Fault(f"{name}: the text has no {word!r}")
        damaged = lines[:at] + [lines[at].replace(word, other, 1)] + lines[at + 1 :]
        at = len(lines) - 2 if fault == "World" else at
        refuses(name, "\n".join(damaged), f"line {at + 1}: {fault}")
    at = lines.index('name "Room"')
    refuses("a byte that is no text", text("start").replace("Room", "R\xf6om", 1), f"line {at + 1}: Value")


def signals():
    """A signal ends it at once: what was written is whole, and the world is that of the last file."""
    for number in (signal.SIGINT, signal.SIGTERM, signal.SIGHUP, signal.SIGKILL):
        name = signal.Signals(number).name
        file = path(name)
        server = Server(program, "fixture", "--out", file)
        with Client(server, "#4") as ann:
            counts(ann, 1)
            ann.sends(";dump_database()")
            server.wants_told(name, f"moo-server: wrote {file}")
            counts(ann, 2)
            server.process.send_signal(number)
            ann.wants_end(f"{name}: a link")
        server.wants_end(name, -number)
        wants(f"{name}: what it says", server.told()[1:], [f"moo-server: wrote {file}"])
        wants(f"{name}: the file", "slot #2 r 1\n" in text(name), True)
        server = Server(program, file)
        with Client(server, "#4") as ann:
            counts(ann, 2)
    wants("files", sorted(os.listdir(folder)), ["SIGHUP", "SIGINT", "SIGKILL", "SIGTERM"])


def ended_before():
    """A world that a server had ended starts again; a world whose last step is used up does not go on."""
    play("a world that was ended", "fixture", ["line 1 ;shutdown()"], out="ended")
    wants("its mark", "\nending 1\n" in text("ended"), True)
    server = Server(program, path("ended"))
    with Client(server, "#4") as ann:
        counts(ann, 1)
    server.stop()
    with open(path("used"), "w", encoding="ascii") as it:
        it.write(text("ended").replace(f"\nnext {step_of('ended')}\n", "\nnext 33554431\n", 1).replace("\nending 1\n", "\nending 0\n", 1))
    server = Server(program, path("used"), "--out", path("last"))
    server.wants_end("no numbers", 2)
    wants("what it says", server.told()[1:], [f"moo-server: wrote {path('last')}", "moo-server: numbers"])


def row(function):
    """The row with an empty folder."""

    def inner():
        try:
            function()
        finally:
            clear()

    inner.__name__ = function.__name__
    return inner


def clear():
    for parent, folders, files in os.walk(folder, topdown=False):
        for name in files:
            os.remove(f"{parent}/{name}")
        for name in folders:
            os.rmdir(f"{parent}/{name}")


ROWS = [goes_on, writes_while_it_goes_on, many_asks, without_a_file, cannot_write, refused, signals, ended_before]
sys.exit(play_rows("tests/files.py", [row(it) for it in ROWS]))
