#!/usr/bin/env python3
"""terminals.py SERVER PLAY FOLDER: clients that people use, with SERVER (moo-server) on a world whose room tells what is looked at and counted, which PLAY
(moo-play) has written into the folder. Says what went wrong, and ends with status 1 then."""
import os
import shutil
import subprocess
import sys

from serving import CONNECTED, GREETING, PATIENCE, UNKNOWN, Client, Fault, Server, play_rows, waits_for, wants, within

program, player, folder = sys.argv[1:4]
# What a player types, and what that tells.
TALK = [
    ("connect #5", [CONNECTED]),
    ("look", ["Room", "Here are Ann and box."]),
    ("count", ["You count to 1."]),
    (";notify(player, toliteral({1 + 1, \"a;b\"}))", ['{2, "a;b"}']),
    ("count", ["You count to 2."]),
    ("dance", [UNKNOWN]),
]
# A client that stands in for `nc`.
STANDS_IN = """
import socket, sys, threading
link = socket.create_connection(("127.0.0.1", int(sys.argv[1])))
def shows():
    while piece := link.recv(4096):
        sys.stdout.buffer.write(piece)
        sys.stdout.buffer.flush()
threading.Thread(target=shows, daemon=True).start()
for line in sys.stdin.buffer:
    link.sendall(line)
"""


def world():
    """A world whose room tells what is looked at and counted."""
    script = [
        "key " + 64 * "0",
        "open 3",
        "line 3 connect #2",
        "line 3 .program #3:look",
        "line 3 notify(player, this.name);",
        "line 3 names = {};",
        "line 3 for it in (this.contents)",
        "line 3 if (it != player) names = {@names, it.name}; endif",
        "line 3 endfor",
        'line 3 notify(player, tostr("Here are ", names[1], " and ", names[2], "."));',
        "line 3 .",
        "line 3 .program #3:count",
        "line 3 this.n = this.n + 1;",
        'line 3 notify(player, tostr("You count to ", this.n, "."));',
        "line 3 .",
        "",
    ]
    file = f"{folder}/world"
    run = subprocess.run([player, "fixture", "stdin", "--out", file], input="\n".join(script), capture_output=True, text=True, timeout=60)
    wants("the world", (run.returncode, run.stderr, run.stdout.count("Verb programmed.")), (0, "", 2))
    return file


def found(*names):
    """The program of one of these names, if there is one; games have a folder of their own, which is not always looked into."""
    path = os.environ.get("PATH", "") + ":/usr/games:/usr/local/games"
    for name in names:
        file = shutil.which(name, path=path)
        if file:
            return file
    return None


def lacks(name, so="it is passed over"):
    print(f"tests/terminals.sh: no {name} here, so {so}", file=sys.stderr)


def wants_gone(server):
    """The player's link ends, which another player sees."""
    with Client(server, "#4") as ann:

        def is_gone():
            ann.sends(";notify(player, toliteral(connected_players()))")
            return ann.line() == "{#4}"

        waits_for("the end of the link of one who left", is_gone)


def nc():
    server = Server(program, world())
    file = found("nc", "netcat", "ncat")
    words = [file] if file else [sys.executable, "-c", STANDS_IN]
    words += ["127.0.0.1", str(server.port)] if file else [str(server.port)]
    with subprocess.Popen(words, stdin=subprocess.PIPE, stdout=subprocess.PIPE, bufsize=0) as client:
        try:
            os.set_blocking(client.stdout.fileno(), False)
            got = b""

            def has_got(lines):
                nonlocal got
                got += client.stdout.read() or b""
                return got.count(b"\n") >= lines

            wanted = [GREETING]
            within(lambda: has_got(1))
            for typed, told in TALK:
                client.stdin.write(typed.encode() + b"\n")
                wanted += told
                within(lambda: has_got(len(wanted)))
            wants("what it shows", got.decode("latin-1"), "".join(line + "\r\n" for line in wanted))
        finally:
            client.kill()
    wants_gone(server)


class Terminal:
    """A client on a terminal, by a server of `tmux` of its own."""

    def __init__(self, words, environment):
        self.tmux = ["tmux", "-S", f"{folder}/terminal", "-f", "/dev/null"]
        # Wide enough that no line is broken.
        how = {"env": {**os.environ, "TERM": "screen", "LANG": "C", "LC_ALL": "C", "HOME": folder, **environment}, "check": True, "timeout": 30}
        subprocess.run([*self.tmux, "new-session", "-d", "-x", "100", "-y", "50", *words], **how)

    def run(self, *words):
        return subprocess.run([*self.tmux, *words], capture_output=True, text=True, timeout=30)

    def types(self, text):
        self.run("send-keys", "-l", text)
        self.run("send-keys", "Enter")

    def screen(self):
        return [line.rstrip() for line in self.run("capture-pane", "-p").stdout.split("\n")]

    def wants(self, name, wanted, ignored):
        """The screen has these lines, in this order, after the greeting, and no others but those that the client puts there itself."""
        got = []

        def has_them():
            nonlocal got
            lines = self.screen()
            lines = lines[lines.index(GREETING) :] if GREETING in lines else []
            got = [line for line in lines if not ignored(line)]
            return got == wanted

        if not within(has_them):
            raise Fault(f"{name}: {wanted} is wanted, the screen has {got or self.screen()}")

    def end(self):
        self.run("kill-server")


def talks(words, leaves, before=(), is_own=lambda line: False, environment={}):
    """A client that is started by these words and these lines, and leaves by the last ones."""
    server = Server(program, world())
    terminal = Terminal([it.replace("PORT", str(server.port)) for it in words], environment)
    typed = {text for text, _ in TALK} | set(before) | {""}
    try:
        wanted = [GREETING]
        terminal.wants("the greeting", wanted, lambda line: line in typed or is_own(line))
        for line in before:
            terminal.types(line)
        for text, told in TALK:
            terminal.types(text)
            wanted += told
            terminal.wants(f"after {text!r}", wanted, lambda line: line in typed or is_own(line))
        for keys in leaves:
            terminal.run("send-keys", *keys)
        wants_gone(server)
        waits_for("the end of the client", lambda: terminal.run("list-sessions").returncode != 0)
    finally:
        terminal.end()


def telnet():
    talks([found("telnet"), "127.0.0.1", "PORT"], [("C-]",), ("-l", "quit"), ("Enter",)])


def tintin():
    talks(
        [found("tt++"), "-G", "-e", "#config verbatim on;#session moo 127.0.0.1 PORT"],
        [("-l", "#zap"), ("Enter",), ("-l", "#end"), ("Enter",)],
        is_own=lambda line: line.startswith("#"),
    )


def tinyfugue():
    talks(
        [found("tf", "tf5"), "-f", "-l", "127.0.0.1", "PORT"],
        [("-l", "/quit"), ("Enter",)],
        is_own=lambda line: line.startswith(("%", "____")),
    )


def rows():
    if not found("nc", "netcat", "ncat"):
        lacks("nc", "a few lines of Python stand in")
    yield nc
    if not found("tmux"):
        lacks("tmux", "no client gets a terminal")
        return
    for row, *names in ((telnet, "telnet"), (tintin, "tt++"), (tinyfugue, "tf", "tf5")):
        if found(*names):
            yield row
        else:
            lacks(names[0])


sys.exit(play_rows("tests/terminals.py", rows()))
