#!/usr/bin/env python3
"""loops.py NAME STEPS TURNS: a loop of the benchmarks in Python, so many turns of it in each step. Prints what the last step gave; `nothing` does
nothing."""
import sys


class Room:
    """An object with a property, and with verbs."""

    def __init__(self):
        self.n = 0

    def leaf(self):
        pass

    def next(self, n):
        return n + 1

    def fib(self, n):
        if n < 2:
            return n
        return self.fib(n - 1) + self.fib(n - 2)


def family(levels, name, value, others=0):
    """An object that has something from an ancestor so many levels above it. Each ancestor has so many others."""
    def has(level, **more):
        return {f"other{level}_{number}": value for number in range(others)} | more

    below = type("Top", (), has(0, **{name: value}))
    for level in range(1, levels):
        below = type("Below", (below,), has(level))
    return below()


def nothing(turns):
    return 0


def add(turns):
    a = b = 1
    for i in range(turns):
        a + b; a + b; a + b; a + b; a + b; a + b; a + b; a + b; a + b; a + b
        a + b; a + b; a + b; a + b; a + b; a + b; a + b; a + b; a + b; a + b
    return turns


def count(turns):
    i = 0
    while i < turns:
        i = i + 1
    return i


def read(turns):
    this = Room()
    for i in range(turns):
        this.n; this.n; this.n; this.n; this.n; this.n; this.n; this.n; this.n; this.n
    return this.n


def write(turns):
    this = Room()
    for i in range(1, turns + 1):
        this.n = i; this.n = i; this.n = i; this.n = i; this.n = i; this.n = i; this.n = i; this.n = i; this.n = i; this.n = i
    return this.n


def update(turns):
    this = Room()
    for i in range(turns):
        this.n = this.n + 1; this.n = this.n + 1; this.n = this.n + 1; this.n = this.n + 1; this.n = this.n + 1
        this.n = this.n + 1; this.n = this.n + 1; this.n = this.n + 1; this.n = this.n + 1; this.n = this.n + 1
    return this.n


def append(turns):
    l = []
    for i in range(1, turns + 1):
        l.append(i)
    return len(l)


def join(turns):
    for j in range(turns // 1000):
        s = ""
        for i in range(1000):
            s = s + "x"
    return len(s)


def put(turns):
    x = [0] * 1000
    for j in range(turns // 1000):
        for i in range(1000):
            x[i] = i
    return x[999] + 1


def call(turns):
    this = Room()
    for i in range(turns):
        this.leaf(); this.leaf(); this.leaf(); this.leaf(); this.leaf(); this.leaf(); this.leaf(); this.leaf(); this.leaf(); this.leaf()
    return turns


def next_of(turns):
    this = Room()
    for i in range(turns):
        this.next(i); this.next(i); this.next(i); this.next(i); this.next(i); this.next(i); this.next(i); this.next(i); this.next(i); this.next(i)
    return turns


def fib(turns):
    return Room().fib(turns)


def length(turns):
    l = [0] * 1000
    for i in range(turns):
        len(l); len(l); len(l); len(l); len(l); len(l); len(l); len(l); len(l); len(l)
    return len(l)


def inherit(levels):
    def loop(turns):
        o = family(levels, "p", 7)
        for i in range(turns):
            o.p; o.p; o.p; o.p; o.p; o.p; o.p; o.p; o.p; o.p
        return o.p
    return loop


def find(levels, others=0):
    def loop(turns):
        o = family(levels, "last", lambda this: None, others)
        for i in range(turns):
            o.last(); o.last(); o.last(); o.last(); o.last(); o.last(); o.last(); o.last(); o.last(); o.last()
        return turns
    return loop


LOOPS = {it.__name__: it for it in (nothing, add, count, read, write, update, append, join, put, call, fib, length)}
LOOPS |= {"next": next_of, "inherit1": inherit(1), "inherit4": inherit(4), "inherit16": inherit(16), "find1": find(1), "find8": find(8), "classes": find(6, 40)}

if __name__ == "__main__":
    given = None
    for _ in range(int(sys.argv[2])):
        given = LOOPS[sys.argv[1]](int(sys.argv[3]))
    print(given)
