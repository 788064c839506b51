"""For end-to-end tests of a server: servers on ports that are free, clients of them, and rows that say what failed.

A row is a function that raises `Fault` where something is not as it must be. `play_rows` runs rows and gives the status of a script."""
import atexit
import os
import signal
import socket
import subprocess
import sys
import tempfile
import time

GREETING = "Type connect #n"
CONNECTED = "*** Connected ***"
UNKNOWN = "I couldn't understand that."
# How long anything may take that comes at once on an idle machine, in seconds.
PATIENCE = 15.0


class Fault(Exception):
    """What was not as it must be."""


def wants(name, got, wanted):
    if got == wanted:
        return
    if isinstance(got, (list, str, bytes)) and type(got) is type(wanted):
        # Of long ones what begins where they differ.
        at = len(os.path.commonprefix([got, wanted]))
        at = at if at > 20 else 0
        name, got, wanted = f"{name}, from {at} on" if at else name, got[at:], wanted[at:]
    raise Fault(f"{name}: {shown(wanted)} is wanted, {shown(got)} came")


def shown(value):
    text = repr(value)
    return text if len(text) <= 300 else text[:300] + ".."


def within(test, seconds=PATIENCE):
    """Whether the test gives true in time."""
    end = time.monotonic() + seconds
    while not test():
        if time.monotonic() > end:
            return False
        time.sleep(0.02)
    return True


def free_port():
    """A port that the system says is free."""
    with socket.socket() as it:
        it.bind(("127.0.0.1", 0))
        return it.getsockname()[1]


def restore_signals():
    # A script that runs in the background ignores this signal, and so would the programs that it starts.
    signal.signal(signal.SIGINT, signal.SIG_DFL)


class Server:
    """A server with these words, on a port that is free. What it says on standard error is kept."""

    all = []

    def __init__(self, program, *words):
        for _ in range(5):
            self.port = free_port()
            self.begin([program, *words, "--port", str(self.port)])
            line = f"moo-server: listening on 127.0.0.1:{self.port}"
            within(lambda: self.told() or self.has_ended())
            if self.told()[:1] == [line]:
                return
            self.stop()
            # Somebody else was faster.
            if self.told() != ["moo-server: port"]:
                break
        raise Fault(f"the server does not start: status {self.process.returncode}, told {self.told()}")

    def begin(self, words):
        self.errors = tempfile.TemporaryFile()
        self.output = tempfile.TemporaryFile()
        how = {"stdin": subprocess.DEVNULL, "stdout": self.output, "stderr": self.errors}
        self.process = subprocess.Popen(words, preexec_fn=restore_signals, **how)
        Server.all.append(self)

    def told(self):
        """The whole lines that it has said."""
        size = os.fstat(self.errors.fileno()).st_size
        return os.pread(self.errors.fileno(), size, 0).decode("latin-1").split("\n")[:-1]

    def wants_told(self, name, *lines):
        """It says these lines after the first one, in time, and no others until now."""
        within(lambda: len(self.told()) > len(lines) or self.has_ended())
        wants(name, self.told()[1:], list(lines))

    def has_ended(self):
        return self.process.poll() is not None

    def wants_end(self, name, status):
        """It ends by itself, in time, with this status, and has printed nothing."""
        if not within(self.has_ended):
            raise Fault(f"{name}: the server does not end")
        wants(f"{name}: the status", self.process.returncode, status)
        wants(f"{name}: what is printed", os.fstat(self.output.fileno()).st_size, 0)

    def stop(self):
        if not self.has_ended():
            self.process.kill()
        self.process.wait()


@atexit.register
def stop_all():
    for server in Server.all:
        server.stop()


signal.signal(signal.SIGTERM, lambda number, _: sys.exit(128 + number))


class Client:
    """A client, which has read the greeting, and has logged in where a player is given."""

    def __init__(self, server, player=None, is_greeted=True):
        self.socket = socket.create_connection(("127.0.0.1", server.port), timeout=PATIENCE)
        self.socket.setsockopt(socket.IPPROTO_TCP, socket.TCP_NODELAY, 1)
        self.rest = b""
        if is_greeted:
            self.wants("the greeting", GREETING)
        if player is not None:
            self.says(f"a login as {player}", f"connect {player}", CONNECTED)

    def __enter__(self):
        return self

    def __exit__(self, *_):
        self.socket.close()

    def sends(self, text):
        """Sends a line, or bytes as they are."""
        self.socket.sendall(text if isinstance(text, bytes) else text.encode("latin-1") + b"\r\n")

    def reads(self):
        """Takes what comes next. Whether the link goes on."""
        try:
            piece = self.socket.recv(65536)
        except ConnectionResetError:
            piece = b""
        except TimeoutError:
            raise Fault(f"nothing comes after {self.rest[-200:]!r}") from None
        self.rest += piece
        return piece != b""

    def line(self):
        """The next line, or what there is of it where the link ends."""
        while b"\r\n" not in self.rest and self.reads():
            pass
        line, _, self.rest = self.rest.partition(b"\r\n")
        return line.decode("latin-1")

    def wants(self, name, *lines):
        """It is told these lines next."""
        for line in lines:
            try:
                got = self.line()
            except Fault as fault:
                raise Fault(f"{name}: {line!r} is wanted, {fault}") from None
            wants(name, got, line)

    def says(self, name, text, *lines):
        """It sends a line, and is told these lines next."""
        self.sends(text)
        self.wants(name, *lines)

    def wants_value(self, name, expression, value):
        """What an expression gives, as a literal."""
        self.says(name, f";notify(player, toliteral({expression}))", value)

    def half_closes(self):
        self.socket.shutdown(socket.SHUT_WR)

    def all(self):
        """All that comes until the link ends."""
        while self.reads():
            pass
        rest, self.rest = self.rest, b""
        return rest

    def wants_end(self, name, *lines):
        """It is told these lines, and then the link ends."""
        wants(name, self.all().decode("latin-1"), "".join(line + "\r\n" for line in lines))


def waits_for(name, test):
    """Until the test gives true."""
    if not within(test):
        raise Fault(f"{name}: not in {PATIENCE:.0f} s")


def play_rows(script, rows):
    """Runs the rows, says which failed and why, and gives the status."""
    failures = 0
    for row in rows:
        try:
            row()
        except (Fault, OSError, subprocess.SubprocessError) as fault:
            print(f"{script}: {row.__name__.replace('_', ' ')}: {fault}", file=sys.stderr)
            failures += 1
        for server in Server.all:
            server.stop()
        Server.all.clear()
    return failures > 0
