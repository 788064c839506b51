#!/usr/bin/env python3
"""clients.py PORT PID [descriptors | shutdown]: clients of a moo-server over the fixture on this port, whose process is known. Says what went wrong, and
ends with status 1 then. With `descriptors`, the server has but a few descriptors; with `shutdown`, it is told to end."""
import os
import re
import socket
import struct
import sys
import threading
import time

port, pid = int(sys.argv[1]), int(sys.argv[2])
UNKNOWN = b"I couldn't understand that.\r\n"
# What an opened link is told, and each line of it until somebody has logged in.
GREETING = b"Type connect #n\r\n"
CONNECTED = b"*** Connected ***\r\n"
failures = 0


def fail(text):
    global failures
    failures += 1
    print(f"tests/clients.py: {text}", file=sys.stderr)


def wants(name, got, wanted):
    if got != wanted:
        fail(f"{name}: got {got!r}, not {wanted!r}")


def connect(seconds=5.0, greeted=True):
    link = socket.create_connection(("127.0.0.1", port), timeout=seconds)
    link.setsockopt(socket.IPPROTO_TCP, socket.TCP_NODELAY, 1)
    if greeted:
        wants("the greeting", read(link, len(GREETING)), GREETING)
    return link


def log_in(player):
    """A link on which this player has logged in."""
    link = connect()
    link.sendall(b"connect " + player + b"\r\n")
    wants("a login", read(link, len(CONNECTED)), CONNECTED)
    return link


def read(link, count):
    """So many bytes, or those before the end."""
    got = b""
    while len(got) < count:
        try:
            piece = link.recv(65536)
        except (ConnectionResetError, TimeoutError):
            break
        if not piece:
            break
        got += piece
    return got


def is_shut(link, seconds=5.0):
    """Whether the server ends the link."""
    link.settimeout(seconds)
    try:
        return link.recv(1) == b""
    except ConnectionResetError:
        return True
    except TimeoutError:
        return False


def answers(link):
    """Whether this link, on which nobody has logged in, is told how to."""
    link.sendall(b"looks\r\n")
    return read(link, len(GREETING)) == GREETING


def settle():
    """Lets the server see what was closed."""
    time.sleep(0.3)


def status_of(name):
    with open(f"/proc/{pid}/status") as lines:
        return int([line for line in lines if line.startswith(name + ":")][0].split()[1])


def ticks():
    with open(f"/proc/{pid}/stat") as line:
        fields = line.read().rsplit(")", 1)[1].split()
    return int(fields[11]) + int(fields[12])


def is_running():
    """Whether the server's process is there, and not merely not waited for."""
    try:
        with open(f"/proc/{pid}/stat") as line:
            return line.read().rsplit(")", 1)[1].split()[0] != "Z"
    except OSError:
        return False


def logins():
    """Players log in, are closed where they log in again, and have tasks that go on later."""
    link = log_in(b"#4")
    link.sendall(b"looks\r\n;notify(player, \"one\") + suspend(1) + notify(player, \"two\")\r\n")
    wants("a player's lines", read(link, len(UNKNOWN) + 10), UNKNOWN + b"one\r\ntwo\r\n")
    other = log_in(b"#5")
    other.sendall(b"tell\r\n")
    wants("another player's notice", read(link, 4), b"hi\r\n")
    again = log_in(b"#4")
    if not is_shut(link):
        fail("a player's older link is not closed")
    again.sendall(b";boot_player(#5)\r\n")
    if not is_shut(other):
        fail("a player who was booted is not cut")
    for ended in (link, other, again):
        ended.close()
    settle()


def says(name, link, text, *told):
    """A line, and what the link is then told."""
    link.sendall(text + b"\r\n")
    wanted = b"".join(line + b"\r\n" for line in told)
    wants(name, read(link, len(wanted)), wanted)


def tasks():
    """A player programs a verb, which another one runs; a task reads a line; forks run by themselves; what waits on a link ends with it."""
    wizard, link = log_in(b"#2"), log_in(b"#4")
    says("a verb to be programmed", wizard, b".program #3:sum", b"Now programming #3:sum.")
    says("a verb that is programmed", wizard, b'fork (0) notify(#4, "later"); endfork\r\nnotify(player, "now");\r\n.', b"Verb programmed.")
    says("what it tells", link, b"sum", b"now", b"later")
    says("a program with a fault", wizard, b".program #3:sum\r\nretrun 1;\r\n.", b"Now programming #3:sum.", b"Line 1: Token")
    says("a task that reads", link, b';notify(player, "got " + read())\r\nlooks', b"got looks")
    says("an error", link, b";1 / 0", b"#-1:eval: Division by zero", b"called from #3:eval", b"(End of traceback)")
    says("a task without an end", link, b"spin", b"#3:spin: Task ran out of ticks", b"(End of traceback)")
    link.sendall(b";read()\r\n")
    settle()
    link.close()
    settle()
    link = log_in(b"#4")
    says("tasks that are left", link, b";notify(player, toliteral(queued_tasks()))", b"{}")
    for ended in (wizard, link):
        ended.close()
    settle()


def lines_and_replies():
    link = log_in(b"#4")
    for piece in [b"loo", b"ks\r", b"\n\xff\xfd\x01cou", b"nt\n\xff\xf6LOOKS\n", b"\xff\xfa\x01\r\n\xff\xf0looks\r\0\n"]:
        link.sendall(piece)
        time.sleep(0.05)
    got = read(link, 3 + 7 + 3 * len(UNKNOWN))
    wants("pieces", sorted(got.replace(b"\xff\xfc\x01", b"WONT\r\n").split(b"\r\n")), sorted([b"WONT", b"[Yes]", b""] + 3 * [UNKNOWN[:-2]]))
    link.close()
    settle()


def half_closed():
    """What a list tells reaches a link that its client has half-closed, and then the link ends."""
    for count in (1, 2, 500):
        link = connect()
        link.sendall(count * b"looks\n")
        link.shutdown(socket.SHUT_WR)
        wants(f"half-closed after {count}", len(read(link, 1 << 30)), count * len(GREETING))
        link.close()
        settle()


def in_order():
    """Replies and lines come whole, and as many as were asked for."""
    link = connect()
    link.sendall(300 * b"looks\r\n\xff\xf6")
    got = read(link, 300 * (len(GREETING) + 7))
    wants("whole lines", (got.count(GREETING), got.count(b"[Yes]\r\n"), len(got)), (300, 300, 300 * (len(GREETING) + 7)))
    link.close()
    settle()


def numbers():
    """Each link is greeted, also one whose number another had."""
    one, two, three = connect(), connect(), connect()
    if not (answers(one) and answers(two) and answers(three)):
        fail("the first links are not told anything")
    two.close()
    settle()
    four = connect()
    if not answers(four):
        fail("a link with the number of one that was closed is not told anything")
    for link in (one, three, four):
        link.close()
    settle()


def crowd():
    """64 links, a 65th, and a place that comes free."""
    links = []
    for _ in range(64):
        links.append(connect())
        time.sleep(0.005)
    settle()
    if not (answers(links[0]) and answers(links[1])):
        fail("with 64 links the first two are not told anything")
    extra = connect(greeted=False)
    if not is_shut(extra):
        fail("a 65th socket is not refused")
    extra.close()
    for _ in range(5):
        links[0].close()
        settle()
        links[0] = connect()
        if not answers(links[0]):
            fail("with 64 links and one that has ended, a new one finds no place")
    for link in links:
        link.close()
    settle()
    link = connect()
    if not answers(link):
        fail("after a crowd the first link is not told anything")
    link.close()
    settle()


def beside(name, action):
    """Another link is answered while this goes on."""
    other = connect()
    wrong, over = [], threading.Event()

    def ask():
        while not over.is_set():
            start = time.monotonic()
            if not answers(other):
                wrong.append("no answer")
                return
            if time.monotonic() - start > 3:
                wrong.append("an answer after more than 3 s")
            time.sleep(0.01)

    thread = threading.Thread(target=ask)
    thread.start()
    action()
    over.set()
    thread.join()
    for text in wrong[:1]:
        fail(f"{name}: another link gets {text}")
    other.close()
    settle()


def never_reads():
    """A client that sends and never reads is cut."""
    link = connect(10.0)
    sent, end = 0, time.monotonic() + 60
    try:
        while time.monotonic() < end:
            link.sendall(1000 * b"looks\r\n")
            sent += 1000
        fail(f"a client that never reads goes on after {sent} lines")
    except TimeoutError:
        fail(f"a client that never reads waits after {sent} lines")
    except (ConnectionResetError, BrokenPipeError):
        pass
    link.close()


def no_line_end():
    """100 MB without a line end: memory stays flat."""
    link, blob = connect(20.0), (1 << 20) * b"x"
    for _ in range(100):
        link.sendall(blob)
    resident = status_of("VmRSS")
    link.sendall(b"\r\n")
    wants("100 MB without a line end", read(link, len(GREETING)), GREETING)
    if resident > 20_000:
        fail(f"100 MB without a line end: {resident} kB are resident")
    link.close()


def replies_never_read():
    """A client that asks for replies and never reads waits, and takes neither memory nor time."""
    link = connect(2.0)
    try:
        for _ in range(2000):
            link.sendall(5000 * b"\xff\xf6")
        fail("replies that nobody reads: the client never waits")
    except TimeoutError:
        pass
    before = ticks()
    time.sleep(1)
    if ticks() - before > 20:
        fail("replies that nobody reads take time")
    if status_of("VmRSS") > 20_000:
        fail(f"replies that nobody reads: {status_of('VmRSS')} kB are resident")
    link.close()


def resets():
    """Clients that reset their sockets."""
    for text in (b"", b"loo", 200 * b"looks\r\n"):
        for _ in range(20):
            link = connect()
            link.setsockopt(socket.SOL_SOCKET, socket.SO_LINGER, struct.pack("ii", 1, 0))
            link.sendall(text)
            link.close()
    settle()
    link = connect()
    if not answers(link):
        fail("after resets the first link is not told anything")
    link.close()
    settle()


def noise():
    """Any bytes."""
    for _ in range(20):
        link = connect()
        try:
            link.sendall(os.urandom(20000))
        except (ConnectionResetError, BrokenPipeError):
            fail("noise ends a link")
        link.close()
    settle()


def idle():
    """No time is taken where nothing comes, and no thread is left of links that have ended."""
    link = connect()
    answers(link)
    settle()
    before = ticks()
    time.sleep(3)
    wants("ticks of 3 idle seconds", ticks() - before, 0)
    wants("threads with one link", status_of("Threads"), 5)
    link.close()
    settle()
    wants("threads with no link", status_of("Threads"), 3)


def few_descriptors():
    """More sockets than the server has descriptors for: links that are open go on, and new ones get in when others are closed."""
    links = [connect(), connect()]
    settle()
    links += [connect(greeted=False) for _ in range(30)]
    settle()
    if not (answers(links[0]) and answers(links[1])):
        fail("without descriptors the first two links are not told anything")
    for link in links:
        link.close()
    time.sleep(1)
    link = connect()
    if not answers(link):
        fail("with descriptors again a new link is not told anything")
    link.close()


def shutdown():
    """The server ends, and what it told before is written."""
    link = log_in(b"#4")
    says("a last line", link, b';notify(player, "bye") + shutdown()', b"bye")
    if not is_shut(link):
        fail("a server that ends leaves a link open")
    end = time.monotonic() + 20
    while is_running():
        if time.monotonic() > end:
            fail("the server does not end")
            return
        time.sleep(0.1)


# Streams with the replies and the lines that RFC 854 and the rules of the line give them.
STREAMS = [
    # Options are refused, in the middle of a line too.
    (b"lo\xff\xfd\x01ok\r\n", b'\xff\xfc\x01', [b'look']),
    (b"a\xff\xfb\x03b\n", b'\xff\xfe\x03', [b'ab']),
    (b"a\xff\xfc\x03\xff\xfe\x01b\n", b'', [b'ab']),
    (b"\xff\xfd\xff\xff\xfb\xff", b'\xff\xfc\xff\xff\xfe\xff', []),
    (b"\xff\xfd\r\n", b'\xff\xfc\r', [b'']),
    # Line ends.
    (b"a\r\nb\nc", b'', [b'a', b'b']),
    (b"a\r\x00b\n", b'', [b'ab']),
    (b"a\rb\n", b'', [b'ab']),
    (b"a\x00b\r\n", b'', [b'ab']),
    (b"\r\r\n\n\r", b'', [b'', b'']),
    (b"a\r\xff\xf1\nb\r\x00\n", b'', [b'a', b'b']),
    (b"a\r\xff\n", b'', [b'a']),
    # Erasing.
    (b"\xff\xf7a\r\n", b'', [b'a']),
    (b"abc\xff\xf7\xff\xf7d\n", b'', [b'ad']),
    (b"ab\x01\xff\xf7\n", b'', [b'a']),
    (b"ab\xff\xf8c\n\xff\xf8\n", b'', [b'c', b'']),
    (b"ab\nc\xff\xf7\xff\xf7\n", b'', [b'ab', b'']),
    # Are you there.
    (b"a\xff\xf6b\n", b'[Yes]\r\n', [b'ab']),
    # Subnegotiations, with an IAC as data, with a command inside, not closed, closed by the first IAC SE.
    (b"\xff\xfa\x18\xff\xff\x01\xff\xf0a\n", b'', [b'a']),
    (b"\xff\xfa\xff\xf0a\n", b'', [b'a']),
    (b"\xff\xfa\x18\xff\xfd\x01\xff\xf6\r\n\xff\xf0a\n", b'', [b'a']),
    (b"a\n\xff\xfa\x18b\n\xf0c\n", b'', [b'a']),
    (b"\xff\xfa\x18\xff\xff\xf0b\n\xff\xf0a\n", b'', [b'a']),
    # 255 as data, an IAC before a byte below 240, and bytes that are no characters.
    (b"a\xff\xffb\n", b'', [b'ab']),
    (b"a\xffb\n\xff\nc\xff\r\n", b'', [b'ab', b'', b'c']),
    (b"\xff\xff\xfd\x01a\n", b'', [b'a']),
    (b"a\t~ \x7f\x1f\x80\xef\n", b'', [b'a\t~ ']),
    (b"", b'', []),
]

# Each command from SE on: the replies and the lines of `ab`, the command, `xy` and a line end, and those without `xy`.
COMMANDS = [
    (240, (b'', [b'abxy']), (b'', [b'ab'])),
    (241, (b'', [b'abxy']), (b'', [b'ab'])),
    (242, (b'', [b'abxy']), (b'', [b'ab'])),
    (243, (b'', [b'abxy']), (b'', [b'ab'])),
    (244, (b'', [b'abxy']), (b'', [b'ab'])),
    (245, (b'', [b'abxy']), (b'', [b'ab'])),
    (246, (b'[Yes]\r\n', [b'abxy']), (b'[Yes]\r\n', [b'ab'])),
    (247, (b'', [b'axy']), (b'', [b'a'])),
    (248, (b'', [b'xy']), (b'', [b''])),
    (249, (b'', [b'abxy']), (b'', [b'ab'])),
    (250, (b'', []), (b'', [])),
    (251, (b'\xff\xfex', [b'aby']), (b'\xff\xfe\r', [b'ab'])),
    (252, (b'', [b'aby']), (b'', [b'ab'])),
    (253, (b'\xff\xfcx', [b'aby']), (b'\xff\xfc\r', [b'ab'])),
    (254, (b'', [b'aby']), (b'', [b'ab'])),
    (255, (b'', [b'abxy']), (b'', [b'ab'])),
]

# A character many times, what comes after it, and the length of the line.
LONG_LINES = [(4095, b"", 4095), (4096, b"", 4096), (4097, b"", 4096), (10000, b"", 4096), (10000, b"\xff\xf7", 4095), (10000, b"\xff\xf7yz", 4096)]


def told(stream, cut):
    """The replies to a stream that comes in two pieces, and the lines that it has, on a link that is told each of its lines as a literal."""
    link = connect(greeted=False)
    wants("the first line of an open link", read(link, 4), b'""\r\n')
    link.sendall(stream[:cut])
    link.sendall(stream[cut:])
    link.shutdown(socket.SHUT_WR)
    got = read(link, 1 << 30)
    link.close()
    lines = re.compile(rb'"([^"\n]*)"\r\n')
    return lines.sub(b"", got), lines.findall(got)


def streams():
    """Whole streams, over sockets. Links on which nobody has logged in are told what they say."""
    wizard = log_in(b"#2")
    says("a verb to be programmed", wizard, b".program #0:do_login_command", b"Now programming #0:do_login_command.")
    says("a verb that is programmed", wizard, b"notify(player, toliteral(argstr));\r\n.", b"Verb programmed.")
    for stream, replies, lines in STREAMS:
        wants(f"the stream {stream!r}", told(stream, len(stream) // 2), (replies, lines))
    for command, behind, alone in COMMANDS:
        wants(f"command {command} in a line", told(b"ab" + bytes([255, command]) + b"xy\r\n", 3), behind)
        wants(f"command {command} at a line's end", told(b"ab" + bytes([255, command]) + b"\r\n", 3), alone)
    for options in (range(128), range(128, 256)):
        stream = b"".join(bytes([255, 253, option, 255, 251, option]) for option in options)
        replies = b"".join(bytes([255, 252, option, 255, 254, option]) for option in options)
        wants("every option", told(stream, 5), (replies, []))
    for count, after, length in LONG_LINES:
        replies, lines = told(count * b"x" + after + b"\n", 3000)
        wants(f"a line of {count} and {after!r}", (replies, [len(line) for line in lines]), (b"", [length]))
    wizard.close()
    settle()


if sys.argv[3:] == ["descriptors"]:
    few_descriptors()
elif sys.argv[3:] == ["shutdown"]:
    shutdown()
else:
    logins()
    tasks()
    lines_and_replies()
    half_closed()
    in_order()
    numbers()
    crowd()
    beside("never reads", never_reads)
    beside("no line end", no_line_end)
    beside("replies", replies_never_read)
    beside("resets", resets)
    beside("noise", noise)
    if os.path.exists(f"/proc/{pid}/stat"):
        idle()
    streams()
sys.exit(failures > 0)
