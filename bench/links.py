#!/usr/bin/env python3
"""links.py PORT PID GROUP: measures a server of lines on this port, whose process is known: moo-server over the fixture, or what answers as it does. Prints
one line a measurement: what, unit, and the amount in seconds, bytes, or bytes and steps a second. What this client takes itself is in each. The groups are
`lines` and `floods`, and `tinymux`, of a TinyMUX over the world that comes with it: those of `lines` that it has too."""
import os
import selectors
import socket
import sys
import time

IS_SHORT = os.environ.get("BENCH_SHORT") == "1"
LINE = b"looks\r\n"
ANSWER = b"I couldn't understand that.\r\n"
# What a link is told when it is opened, and at each line until somebody has logged in.
GREETING = b"Type connect #n\r\n"
CONNECTED = b"*** Connected ***\r\n"
SECONDS = 60
# A line that leaves so many tasks, which wait for weeks, and has no answer.
TASKS = 60
FORKS = b';eval("for i in [1..60] fork (2000000) endfork endfor")\r\n'
# What TinyMUX answers to the same line, and how its wizard logs in. What it tells before has no end that is known, so it is over when nothing comes.
MUX_ANSWER = b'Huh?  (Type "help" for help.)\r\n'
MUX_LOGIN = b"connect wizard potrzebie\r\n"
QUIET = 0.5


def sized(full, short):
    return short if IS_SHORT else full


def opened():
    """A link of which nothing is read yet."""
    link = socket.create_connection(("127.0.0.1", port), timeout=SECONDS)
    link.setsockopt(socket.IPPROTO_TCP, socket.TCP_NODELAY, 1)
    return link


def connect():
    """A link on which nobody has logged in."""
    link = opened()
    read(link, len(GREETING))
    return link


def log_in():
    """A link on which a player has logged in."""
    link = connect()
    link.sendall(b"connect #4\r\n")
    read(link, len(CONNECTED))
    return link


def log_in_to_mux():
    """A link on which TinyMUX's wizard has logged in."""
    link = opened()
    read_until_quiet(link)
    link.sendall(MUX_LOGIN)
    read_until_quiet(link)
    return link


def read_until_quiet(link):
    link.settimeout(QUIET)
    try:
        while link.recv(65536):
            pass
    except TimeoutError:
        link.settimeout(SECONDS)


def read(link, count):
    while count > 0:
        piece = link.recv(65536)
        if not piece:
            sys.exit("links.py: the server ended a link")
        count -= len(piece)


def close(*links):
    """Closes the links, and lets the server see it: their numbers are free then."""
    for link in links:
        link.close()
    time.sleep(0.5)


def tell(what, unit, amount):
    print(f"{what}\t{unit}\t{amount}", flush=True)


def resident():
    """The memory that the server holds."""
    with open(f"/proc/{pid}/status") as lines:
        return int([line for line in lines if line.startswith("VmRSS:")][0].split()[1]) * 1024


def ticks():
    """The processor time of the server, in the kernel's ticks."""
    with open(f"/proc/{pid}/stat") as line:
        fields = line.read().rsplit(")", 1)[1].split()
    return int(fields[11]) + int(fields[12])


def ping_pong(link, answer, where="on one link"):
    """The median time of a line and its answer, and the ninety-ninth hundredth."""
    times = []
    for _ in range(sized(20000, 50)):
        start = time.perf_counter()
        link.sendall(LINE)
        read(link, len(answer))
        times.append(time.perf_counter() - start)
    close(link)
    times.sort()
    tell(f"a line and its answer {where}, median", "us", times[len(times) // 2])
    tell(f"a line and its answer {where}, 99 of 100", "us", times[len(times) * 99 // 100])


def pipelined(link, answer, most):
    """Lines on one link, 64 on their way at a time."""
    count = 0
    link.sendall(64 * LINE)
    rest, start = 0, time.perf_counter()
    while count < most:
        rest += len(link.recv(65536))
        lines, rest = divmod(rest, len(answer))
        count += lines
        link.sendall(lines * LINE)
    tell("lines on one link, 64 on their way", "steps/s", count / (time.perf_counter() - start))
    close(link)


def many():
    """Lines on 64 links on which nobody has logged in: each runs the verb that tells how to, and its answer is read while further lines are sent. Where the
    first link has all of its answers, the least that another one has is told as a share of them: 1 where all links are served alike."""
    links = [connect() for _ in range(64)]
    each, start = sized(4000, 4), time.perf_counter()
    chooser, unsent, unread, share = selectors.DefaultSelector(), {}, {}, None
    for link in links:
        link.setblocking(False)
        chooser.register(link, selectors.EVENT_READ | selectors.EVENT_WRITE)
        unsent[link], unread[link] = memoryview(each * LINE), each * len(GREETING)
    while chooser.get_map():
        ready = chooser.select(SECONDS)
        if not ready:
            sys.exit("links.py: the server answers no more")
        for key, events in ready:
            link = key.fileobj
            if events & selectors.EVENT_WRITE:
                unsent[link] = unsent[link][link.send(unsent[link][:4096]) :]
                if not unsent[link]:
                    chooser.modify(link, selectors.EVENT_READ)
            if events & selectors.EVENT_READ:
                piece = link.recv(65536)
                if not piece:
                    sys.exit("links.py: the server ended a link")
                unread[link] -= len(piece)
                if not unread[link]:
                    chooser.unregister(link)
                    share = share if share is not None else 1 - max(unread.values()) / (each * len(GREETING))
    tell("lines on 64 links before a login", "steps/s", 64 * each / (time.perf_counter() - start))
    tell("the same, the least served link's share of the first one's answers", "times", share)
    close(*links)


def beside_tasks():
    """The same while many tasks wait for a moment. Each round leaves as many more."""
    link, count = log_in(), sized(300, 2)
    link.sendall(count * FORKS + LINE)
    read(link, len(ANSWER))
    ping_pong(link, ANSWER, f"beside {count * TASKS:,} tasks that wait")


def idle():
    """Processor time of idle seconds, with a link that says nothing."""
    link, seconds = log_in(), sized(10, 1)
    time.sleep(0.2)
    before = ticks()
    time.sleep(seconds)
    tell(f"processor ticks in {seconds} idle seconds", "ticks", ticks() - before)
    close(link)


def flood(what, unit, count, answer=b""):
    """So many bytes without a line end, and then a line: how fast they are taken, and the most memory that the server holds meanwhile. Answers are read."""
    link = log_in()
    blob = (sized(1 << 20, 1 << 12) // len(unit)) * unit
    most, start = 0, time.perf_counter()
    for _ in range(count):
        link.sendall(blob)
        read(link, len(blob) // len(unit) * len(answer))
        most = max(most, resident())
    link.sendall(LINE)
    read(link, len(ANSWER))
    tell(what, "MB/s", count * len(blob) / (time.perf_counter() - start))
    tell(f"{what}, memory meanwhile", "MB", most)
    close(link)


def lines():
    ping_pong(log_in(), ANSWER)
    pipelined(log_in(), ANSWER, sized(500000, 200))
    many()
    idle()
    beside_tasks()


def tinymux():
    ping_pong(log_in_to_mux(), MUX_ANSWER)
    pipelined(log_in_to_mux(), MUX_ANSWER, sized(20000, 200))


def floods():
    flood("100 MB without a line end", b"x", sized(100, 2))
    flood("commands without an answer (IAC NOP)", b"\xff\xf1", sized(20, 2))
    flood("commands with an answer (IAC WILL x)", b"\xff\xfb\x01", sized(20, 2), b"\xff\xfe\x01")


if __name__ == "__main__":
    port, pid = int(sys.argv[1]), int(sys.argv[2])
    {"lines": lines, "floods": floods, "tinymux": tinymux}[sys.argv[3]]()
