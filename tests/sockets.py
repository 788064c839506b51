#!/usr/bin/env python3
"""sockets.py PROGRAM: clients of PROGRAM (moo-server) over the fixture, each row with a server of its own. Says what went wrong, and ends with status 1
then."""
import re
import sys
import threading
import time

from serving import CONNECTED, GREETING, UNKNOWN, Client, Fault, Server, play_rows, waits_for, wants

program = sys.argv[1]
IAC, DONT, DO, WONT, WILL = b"\xff", b"\xfe", b"\xfd", b"\xfc", b"\xfb"
AYT, EC, EL, SB, SE, NOP = b"\xff\xf6", b"\xff\xf7", b"\xff\xf8", b"\xff\xfa", b"\xff\xf0", b"\xff\xf1"
YES = "[Yes]"
# What Telnet answers, among the lines of a link.
REPLY = re.compile(rb"\xff[\xfc\xfe].|\[Yes\]\r\n", re.S)


def tells(text):
    """A line that has the player told this text, without its end."""
    return f';notify(player, "{text}")'.encode()


def a_data_byte_255():
    server = Server(program, "fixture")
    with Client(server) as link:
        link.sends(bytes.fromhex("6c6ffff66f6b730d0a"))
        link.wants("before a login", YES, GREETING)
    with Client(server, "#4") as link:
        link.sends(bytes.fromhex("6c6ffff66f6b730d0a"))
        link.wants("after a login", YES, UNKNOWN)


def options():
    """Every option is refused, once for each time that it is asked for, and nothing else is answered."""
    with Client(Server(program, "fixture")) as link:
        numbers = [bytes([it]) for it in range(256)]
        link.sends(b"".join(IAC + DO + it + IAC + WILL + it + IAC + DONT + it + IAC + WONT + it for it in numbers))
        link.sends(SB + b"\x18\x00xterm\r\n" + IAC + IAC + IAC + b"\xf6" + SE + AYT)
        link.half_closes()
        wants("the answers", link.all(), b"".join(IAC + WONT + it + IAC + DONT + it for it in numbers) + b"[Yes]\r\n")


def what_is_kept_of_a_line():
    with Client(Server(program, "fixture"), "#4") as link:
        for name, text, told in (
            ("EC", tells("abX")[:-2] + EC + b'c")\r\n', "abc"),
            ("EC of an empty line", EC + EC + tells("x") + b"\r\n", "x"),
            ("EL", b";1 / 0" + EL + tells("el") + b"\r\n", "el"),
            ("EC after EL", b";1 / 0" + EL + EC + tells("ec") + b"\r\n", "ec"),
            ("a data byte 255", tells("@").replace(b"@", b"a" + IAC + IAC + b"b") + b"\r\n", "ab"),
            ("no operation", tells("@").replace(b"@", b"a" + NOP + b"b") + b"\r\n", "ab"),
            ("other bytes", tells("@").replace(b"@", bytes(range(1, 9)) + bytes(range(14, 32)) + bytes(range(127, 240)) + b"b") + b"\r\n", "b"),
            ("a tab", tells("a\tb") + b"\r\n", "a\tb"),
            ("LF alone", tells("lf") + b"\n", "lf"),
            ("CR NUL and CR", tells("@").replace(b"@", b"a\r\0b\rc") + b"\r\n", "abc"),
            ("CR CR LF", tells("cr") + b"\r\r\n", "cr"),
        ):
            link.sends(text)
            link.wants(name, told)
        # Both ends of a pair in pieces of their own.
        for piece in (tells("pieces") + b"\r", b"\n" + IAC, b"\xf6"):
            link.sends(piece)
            time.sleep(0.02)
        got = sorted([link.line(), link.line()])
        wants("pieces", got, [YES, "pieces"])


def long_lines():
    """Of a line 4,096 characters are kept; what is told may be longer."""
    server = Server(program, "fixture")
    with Client(server, "#4") as link:
        link.says("a verb", ';{add_verb(#3, {#2, "xd", "measure"}, {"any", "any", "any"}), set_verb_code(#3, "measure", {"notify(player, tostr(length(argstr)));"})}')
        for length in (0, 1, 4087, 4088, 4089, 5000, 100000):
            link.says(f"a line of {8 + length} characters", "measure " + length * "x", str(min(length, 4088)))
        link.sends(b"measure " + 5000 * b"x" + 10 * EC + b"\r\n")
        link.wants("EC behind what was dropped", "4078")
        link.says("a verb that tells much", ';set_verb_code(#3, "measure", {"s = argstr;", "for i in [1..4]", "s = s + s;", "endfor", "notify(player, s);"})')
        link.says("a long line that is told", "measure " + 4000 * "y", 16 * 4000 * "y")


def makes_lines(link, name, told="tostr(i)", last="return;"):
    """Makes a verb that tells as many lines as its first word says (a step tells 4,096 at most), and then does something more."""
    link.says("a verb", f';{{add_verb(#3, {{#2, "xd", "{name}"}}, {{"any", "any", "any"}}), notify(player, "made")}}', "made")
    link.says("its code", f';{{set_verb_code(#3, "{name}", {{"for i in [1..toint(args[1])]", "notify(player, {told});", "endfor", "{last}"}}), notify(player, "coded")}}', "coded")


def numbered(count):
    return [str(it) for it in range(1, count + 1)]


def many_lines_at_once():
    """However many lines a list tells, a link that reads them gets them all, in order, and goes on."""
    with Client(Server(program, "fixture"), "#4") as link:
        makes_lines(link, "lines")
        for count in (1000, 1024, 1025, 2049, 4000):
            link.says(f"{count} lines", f"lines {count}", *numbered(count))
        # One list takes the first of these together; the others wait until what it told is on its way.
        link.sends(20 * b"lines 4000\r\n" + tells("behind them") + b"\r\n")
        link.wants("20 times 4,000 lines", *(20 * numbered(4000)), "behind them")
        link.says("a line afterwards", "looks", UNKNOWN)


def last_lines():
    """All that was told reaches a link before it ends: where its client has half-closed it, where its player is booted and where the server ends."""
    server = Server(program, "fixture")
    with Client(server, "#4") as link:
        makes_lines(link, "lines")
        makes_lines(link, "leave", last="boot_player(player);")
        makes_lines(link, "finish", last="shutdown();")
        link.sends(20 * b"lines 4000\r\n")
        link.half_closes()
        link.wants_end("a link that was half-closed", *(20 * numbered(4000)))
    for name in ("leave", "finish"):
        with Client(server, "#4") as link:
            link.sends(3 * b"lines 4000\r\n" + f"{name} 4000\r\n".encode())
            link.wants_end(name, *(4 * numbered(4000)))
    server.wants_end("a server that ends", 0)


def a_slow_reader():
    """A link that reads slowly gets all that its own lines tell, and all that others tell it meanwhile, and no other link waits for it."""
    server = Server(program, "fixture")
    with Client(server, "#4") as slow, Client(server, "#5") as other:
        makes_lines(slow, "lines", told="argstr")
        long = 1000 * "x"
        slow.sends(4 * f"lines 4000 {long}\r\n".encode())
        got, begun = b"", time.monotonic()
        for at in range(300):
            other.says("another link", f';{{notify(#4, "{at}"), notify(player, "{at}")}}', str(at))
            got += slow.socket.recv(50_000)
        slow.half_closes()
        lines = (got + slow.all()).decode().split("\r\n")
        wants("its own lines", [it for it in lines if len(it) > 100], 4 * 4000 * [f"4000 {long}"])
        wants("lines of another", [it for it in lines if len(it) < 100], [*[str(at) for at in range(300)], ""])
        if time.monotonic() - begun > 60:
            raise Fault("a slow reader is served too slowly")


def one_that_never_reads():
    """A link that does not read what it is told is cut alone, with its threads, in little memory; its number is free again."""
    server = Server(program, "fixture")

    def status(name):
        with open(f"/proc/{server.process.pid}/status") as lines:
            return int(next(it for it in lines if it.startswith(name + ":")).split()[1])

    with Client(server, "#5") as other:
        makes_lines(other, "lines", told="argstr")
        long = 1000 * "x"
        for name, sent in (("one who asks for many lines", 3 * f"lines 4000 {long}\r\n".encode()), ("one who asks for lines without an end", None)):
            before = status("Threads")
            with Client(server, "#4") as link:
                end = time.monotonic() + 30
                greatest, longest = 0, 0.0
                if sent is not None:
                    link.sends(sent)
                while status("Threads") > before:
                    if sent is None:
                        try:
                            link.socket.settimeout(0.01)
                            link.sends(1000 * b"looks\r\n")
                        except OSError:
                            pass
                    asked = time.monotonic()
                    other.says("another link", "looks", UNKNOWN)
                    longest = max(longest, time.monotonic() - asked)
                    greatest = max(greatest, status("VmRSS"))
                    if time.monotonic() > end:
                        raise Fault(f"{name}: it is not cut")
                if longest > 3:
                    raise Fault(f"{name}: another link waited {longest:.1f} s")
                if greatest > 60_000:
                    raise Fault(f"{name}: {greatest} kB are resident")
        with Client(server, "#4") as link:
            link.says("a link afterwards", "looks", UNKNOWN)


def one_that_is_told_and_never_reads():
    """A link that only listens, and does not read, is cut when others have told it enough."""
    server = Server(program, "fixture")
    with Client(server, "#4") as link, Client(server, "#5") as other:
        other.says("a verb", ';{add_verb(#3, {#2, "xd", "lines"}, {"any", "any", "any"}), set_verb_code(#3, "lines", {"for i in [1..1000]", "notify(#4, argstr);", "endfor"}), notify(player, "made")}', "made")
        long = 4000 * "x"
        for at in range(60):
            other.says("the one who tells", f"lines {long}\r\nlooks", UNKNOWN)
        waits_for("the end of the link", lambda: connected(other) == "{#5}")
        link.all()


def connected(link):
    link.sends(";notify(player, toliteral(connected_players()))")
    return link.line()


def a_half_closed_link():
    """It gets all that its lines tell, in their order, and then the end; what has no line end is no line."""
    with Client(Server(program, "fixture", "--workers", "3"), "#5") as link:
        link.sends(b"".join(tells(f"line {it}") + b"\r\n" for it in range(300)) + b";1 / 0\r\n" + tells("no line"))
        link.half_closes()
        wanted = [f"line {it}" for it in range(300)] + ["#-1:eval: Division by zero", "called from #3:eval", "(End of traceback)"]
        link.wants_end("what it is told", *wanted)


def links_do_not_mix():
    """Links on which much is sent at once, in pieces, are each told their own lines, in their order, beside replies that are whole."""
    server = Server(program, "fixture", "--workers", "3")
    wrong = []

    def talks(name, link, lines, told):
        try:
            text = b"".join(line + b"\r\n" + (AYT if at % 7 == 0 else b"") for at, line in enumerate(lines))
            for at in range(0, len(text), 997):
                link.sends(text[at : at + 997])
            link.half_closes()
            got = link.all()
            wants(f"lines to {name}", REPLY.sub(b"", got).decode("latin-1").split("\r\n"), [*told, ""])
            wants(f"replies to {name}", len(REPLY.findall(got)), len(range(0, len(lines), 7)))
        except (Fault, OSError) as fault:
            wrong.append(str(fault))

    with Client(server, "#4") as ann, Client(server, "#5") as ben, Client(server) as nobody:
        each = [(name, link, [f"{name} {it} {name * (it % 40)}" for it in range(400)]) for name, link in (("ann", ann), ("ben", ben))]
        all_of_them = [(name, link, [tells(it) for it in told], told) for name, link, told in each]
        all_of_them.append(("nobody", nobody, 400 * [b"looks"], 400 * [GREETING]))
        threads = [threading.Thread(target=talks, args=it) for it in all_of_them]
        for it in threads:
            it.start()
        for it in threads:
            it.join()
    if wrong:
        raise Fault("; ".join(wrong))


def a_line_between_players():
    server = Server(program, "fixture")
    with Client(server, "#4") as ann, Client(server, "#5") as ben, Client(server) as nobody:
        ben.sends(b"tell\r\n" + tells("behind") + b"\r\n")
        ben.wants("the one who tells", "behind")
        ann.wants("the one who is told", "hi")
        nobody.says("nobody", "looks", GREETING)
        ben.says("another player and oneself", ';{notify(#4, "from Ben"), notify(#-3, "to no link"), notify(#-6, "to the third"), notify(player, "done")}', "done")
        nobody.wants("a link by its number", "to the third")
        ann.says("a player's own lines", ';notify(player, "own")', "from Ben", "own")


def a_second_login():
    """The older link is told what was told to it before, and ends; the newer one goes on. No verb learns of an end."""
    server = Server(program, "fixture")
    with Client(server, "#4") as old, Client(server) as new, Client(server, "#5") as other:
        old.says("a verb", ';{add_verb(#0, {#2, "xd", "user_disconnected"}, {"this", "none", "this"}), set_verb_code(#0, "user_disconnected", {"#3.n = #3.n + 100;"}), notify(player, "made")}', "made")
        old.sends(b"".join(tells(f"line {it}") + b"\r\n" for it in range(60)))
        old.wants("the first of its lines", "line 0")
        new.says("the second login", "connect #4", CONNECTED)
        old_lines = [f"line {it}" for it in range(1, 60)]
        rest = old.all().decode("latin-1").split("\r\n")
        # Lines that came after the login are dropped, so the others may be fewer.
        wants("the older link", (rest[-1], rest[:-1]), ("", old_lines[: len(rest) - 1]))
        new.says("the newer link", ';notify(player, "new")', "new")
        new.wants_value("what verbs learned", "#3.n", "0")
        # A login on a link of a player is a command like any other.
        new.says("a login of one who is logged in", "connect #5", UNKNOWN)
        other.sends(';notify(#4, "still there")')
        new.wants("what others tell", "still there")


def an_older_link_that_waits():
    """A second login ends the older link, and with it a task that reads there, also where the older client is silent."""
    server = Server(program, "fixture")
    with Client(server, "#4") as old:
        old.says("a task that reads", ';notify(player, "reads") + notify(player, "got " + read())', "reads")
        with Client(server, "#4") as new:
            old.wants_end("the older link")
            new.wants_value("tasks that wait", "queued_tasks()", "{}")
            new.says("a line", "looks", UNKNOWN)
            new.says("a player who is booted", ';{notify(player, "bye"), boot_player(#4)}', "bye")
            new.wants_end("a player who was booted")


def a_read_of_a_closed_link():
    """A task whose reader's link has ended gets no line: it is gone where it was reading, and is refused where it begins to."""
    server = Server(program, "fixture")
    with Client(server, "#5") as other:
        with Client(server, "#4") as link:
            link.says("a task that reads", ';notify(player, "one") + (#3.n = toint(read()))', "one")
            link.sends(b"7")
        waits_for("the end of a link in the middle of a line", lambda: tasks_of(other) == "{}")
        with Client(server, "#4") as link:
            link.says("a task that will read", ';notify(player, "two") + suspend(1) + (#3.n = `read() ! E_INVARG => 77\')', "two")
        waits_for("a task that read on no link", lambda: tasks_of(other) == "{}")
        other.wants_value("what it got", "#3.n", "77")
        with Client(server, "#4") as link:
            link.sends(b';#3.n = toint(read()) + toint(read())\r\n30\r\n')
            link.sends(b"12\r\n;notify(player, tostr(#3.n))\r\n")
            link.wants("a task that reads twice", "42")


def tasks_of(link):
    link.sends(";notify(player, toliteral(queued_tasks()))")
    return link.line()


def a_task_between_links():
    """A task that waits tells the link that its player has then."""
    server = Server(program, "fixture")
    with Client(server, "#4") as first:
        first.says("a task", ';notify(player, "waits") + suspend(1) + notify(player, "later")', "waits")
    with Client(server, "#4") as second:
        second.wants("a newer link", "later")


def many_tasks_that_wait():
    """Of many tasks each goes on that is resumed, and none that is killed; those that are due go on meanwhile."""
    server = Server(program, "fixture")
    with Client(server, "#4") as link:
        for name, code in (
            ("sleepers", ("for i in [1..60]", "fork t (0)", "v = suspend();", "#3.n = #3.n + v;", "endfork", "#3.tasks = {@#3.tasks, t};", "endfor")),
            ("later", ("for i in [1..60]", "fork (1)", "#3.n = #3.n + 1000;", "endfork", "endfor")),
            ("wake", ("for i in [1..length(#3.tasks)]", "if (i % 3)", "resume(#3.tasks[i], 1);", "else", "kill_task(#3.tasks[i]);", "endif", "endfor")),
        ):
            lines = ", ".join(f'"{it}"' for it in code)
            link.says("a verb", f';{{add_verb(#3, {{#2, "xd", "{name}"}}, {{"any", "any", "any"}}), set_verb_code(#3, "{name}", {{{lines}}}), notify(player, "made")}}', "made")
        link.says("a property", ';{add_property(#3, "tasks", {}, {#2, "rwc"}), notify(player, "made")}', "made")
        for _ in range(20):
            link.sends("sleepers")
        link.wants_value("the tasks", "length(#3.tasks)", "1200")
        waits_for("tasks that wait", lambda: tasks_of(link).count(", -1, ") == 1200)
        link.says("tasks that are due later", "later\r\nlooks", UNKNOWN)
        link.says("tasks that are resumed and killed", "wake\r\nlooks", UNKNOWN)
        waits_for("tasks that go on", lambda: tasks_of(link) == "{}")
        link.wants_value("what they did", "#3.n", str(800 + 60_000))


def the_order_of_tasks():
    """Tasks go on by the moments for which they wait, and of one moment in the order of their ids; one that is resumed is due at once."""
    server = Server(program, "fixture")
    with Client(server, "#4") as link:
        code = (
            "fork (3)", 'notify(player, "d");', "endfork", "fork t (0)", "suspend(4);", 'notify(player, "a");', "endfork",
            "fork (2)", 'notify(player, "b");', "endfork", "fork (3)", 'notify(player, "e");', "endfork", "fork (2)", 'notify(player, "c");', "endfork",
            "suspend(1);", "resume(t);",
        )
        lines = ", ".join("\"" + it.replace('"', '\\"') + "\"" for it in code)
        link.says("a verb", f';{{add_verb(#3, {{#2, "xd", "queue"}}, {{"any", "any", "any"}}), set_verb_code(#3, "queue", {{{lines}}}), notify(player, "made")}}', "made")
        link.says("tasks", "queue", "a", "b", "c", "d", "e")


def programming():
    """A program is a link's own, and ends with it."""
    server = Server(program, "fixture")
    with Client(server, "#2") as one:
        one.says("a program that is not ended", ".program #3:sum", "Now programming #3:sum.")
        one.sends("return 99;")
    with Client(server, "#2") as one, Client(server, "#4") as other:
        one.says("a line of the program that was not ended", ".", UNKNOWN)
        one.says("a program", ".program #3:sum", "Now programming #3:sum.")
        one.sends("notify(player, \"summed\");")
        other.says("another link meanwhile", "looks", UNKNOWN)
        one.says("its end", ".", "Verb programmed.")
        other.says("the verb", "sum", "summed")
        other.says("one who may not", ".program #3:sum", UNKNOWN)


def cut_at_every_byte():
    """A script of lines gives the same, cut at any byte into two pieces, and in pieces of one byte."""
    server = Server(program, "fixture")
    script = (
        b"connect #4\r\n" + tells("aX")[:-2] + EC + b'b")\n' + IAC + DO + b"\x1f" + tells("one\r\0") + b"\r\n" + AYT
        + SB + b"\x1f\0P\0\x18" + IAC + IAC + b"\r\n" + SE + b"rubbish" + EL + b';notify(player, "got " + read())\r\nlook ' + IAC + WILL + b"\r"
        + b"s\r\n;1 / 0\r\nlooks\r\n\r\n" + tells("no end")
    )

    def told(*pieces):
        with Client(server) as link:
            for piece in pieces:
                link.sends(piece)
                time.sleep(0.002)
            link.half_closes()
            got = link.all()
            return REPLY.findall(got), REPLY.sub(b"", got)

    whole = told(script)
    wants("uncut", whole, ([IAC + WONT + b"\x1f", b"[Yes]\r\n", IAC + DONT + b"\r"], "\r\n".join([
        CONNECTED, "ab", "one", "got look s", "#-1:eval: Division by zero", "called from #3:eval", "(End of traceback)", UNKNOWN, "",
    ]).encode()))
    for at in range(1, len(script)):
        wants(f"cut at {at}", told(script[:at], script[at:]), whole)
    wants("bytes", told(*[script[at : at + 1] for at in range(len(script))]), whole)


def a_login_that_fails():
    """Words that name no player leave the link as it was."""
    with Client(Server(program, "fixture")) as link:
        # A number that is no player's is told nothing.
        for text in ("connect #3", "connect #-1", "connect #99", "connect Ann"):
            link.sends(text)
        for text in ("", "looks", "connect", "connect #4 x", ";shutdown()", '"hello', ".program #3:sum", "."):
            link.says(repr(text), text, GREETING)
        link.says("a login after all", '  CONNECT "#4', CONNECTED)


ROWS = [
    a_data_byte_255, options, what_is_kept_of_a_line, long_lines, many_lines_at_once, last_lines, a_slow_reader, one_that_never_reads,
    one_that_is_told_and_never_reads, a_half_closed_link, links_do_not_mix, a_line_between_players,
    a_second_login, an_older_link_that_waits, a_read_of_a_closed_link, a_task_between_links, many_tasks_that_wait, the_order_of_tasks,
    programming, cut_at_every_byte, a_login_that_fails,
]
sys.exit(play_rows("tests/sockets.py", ROWS))
