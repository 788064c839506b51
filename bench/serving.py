"""What the server costs, beside one in plain Rust that answers the same lines and runs nothing, and beside TinyMUX where it is installed: links.py is the
client of all."""
import os
import shutil
import socket
import subprocess
import sys
import time

from peers import TWIN
from runs import ROOT, ROUNDS, SERVER, Failure, Figure, folder, run

RATES = ("MB/s", "steps/s")
# Where the package tinymux has its programs, and the world and the settings that come with it.
MUX = "/usr/lib/tinymux/game/bin"
MUX_GAME = "/usr/share/tinymux/game"
# As many lines as come.
MUX_SETTINGS = "command_quota_max 1000000\ncommand_quota_increment 1000000\n"


def free_port():
    """A port that nobody had a moment ago."""
    with socket.socket() as it:
        it.bind(("127.0.0.1", 0))
        return it.getsockname()[1]


def started(*words):
    """A server on a port of its own: its process and the port, once it says that it listens."""
    port = free_port()
    told = folder.file("told")
    with open(told, "wb") as errors:
        process = subprocess.Popen([*words, str(port)], stdin=subprocess.DEVNULL, stderr=errors)
    for _ in range(600):
        with open(told) as lines:
            if "listening" in lines.read():
                return process, port
        if process.poll() is not None:
            break
        time.sleep(0.05)
    ended(process)
    with open(told) as lines:
        raise Failure(f"{words[0]} does not serve: {lines.read(300)}")


def ended(process):
    process.kill()
    process.wait()


def has_mux():
    """Whether TinyMUX is here. Where it is not, that is told on standard error."""
    is_here = os.path.exists(f"{MUX}/netmux") and os.path.isdir(MUX_GAME)
    if not is_here:
        print("bench: no tinymux here, so there is none beside the server", file=sys.stderr)
    return is_here


def started_mux():
    """A TinyMUX over a copy of the world that comes with it: its process and the port, once one can connect."""
    game, port = folder.file("mux"), free_port()
    shutil.rmtree(game, ignore_errors=True)
    shutil.copytree(MUX_GAME, game)
    os.symlink(MUX, f"{game}/bin")
    with open(f"{game}/netmux.conf", "a") as settings:
        settings.write(f"port {port}\n{MUX_SETTINGS}")
    how = {"stdin": subprocess.DEVNULL, "stdout": subprocess.DEVNULL, "stderr": subprocess.DEVNULL, "env": {**os.environ, "LD_LIBRARY_PATH": MUX}}
    data = f"{game}/data"
    os.rename(f"{data}/netmux.db", f"{data}/netmux.flat")
    subprocess.run([f"{MUX}/netmux", "-dnetmux", "-l", "-inetmux.flat", "-onetmux.db"], cwd=data, check=True, **how)
    process = subprocess.Popen([f"{MUX}/netmux", "-c", "netmux.conf", "-p", "pid", "-e", "."], cwd=game, **how)
    for _ in range(100):
        time.sleep(0.1)
        try:
            socket.create_connection(("127.0.0.1", port)).close()
            return process, port
        except OSError:
            continue
    ended(process)
    raise Failure("tinymux does not serve")


def measured(group, process, port):
    """The best of the rounds, by what was measured: its unit and the amount. The server is ended."""
    best = {}
    try:
        for _ in range(ROUNDS):
            told = run(sys.executable, f"{ROOT}/bench/links.py", str(port), str(process.pid), group).output
            for line in told.splitlines():
                what, unit, amount = line.split("\t")
                better = max if unit in RATES else min
                best[what] = (unit, better(float(amount), best[what][1] if what in best else float(amount)))
    finally:
        ended(process)
    return best


def beside(ours, peers):
    """What was measured of the server, with what was measured of each peer."""
    for what, (unit, amount) in ours.items():
        yield Figure(what, unit, amount, {who: theirs[what][1] for who, theirs in peers.items() if what in theirs})


def ours(group):
    return measured(group, *started(SERVER, "fixture", "--port"))


def figures(peers):
    here = {}
    if "Rust" in peers.here:
        here["Rust"] = measured("lines", *started(TWIN, "serve"))
    if has_mux():
        here["tinymux"] = measured("tinymux", *started_mux())
    yield from beside(ours("lines"), here)


def floods(_peers):
    yield from beside(ours("floods"), {})
