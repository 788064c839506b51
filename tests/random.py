#!/usr/bin/env python3
"""random.py PLAY [mixed|objects SEED..]: random scripts over the fixture, made from fixed seeds, are printed the same by every number of workers, and on
one processor. Says what differs, and ends with status 1 then. With a kind and seeds, only those are run."""
import os
import random
import shutil
import subprocess
import sys
import tempfile

MIXED = [1, 2, 3, 4, 5]
OBJECTS = [11, 12]
RESULTS = ["value", "raised", "suspended", "reading", "ticks", "killed", "none", "absent", "early"]


class Script:
    """A script that is being written. It knows the number of the next step, and guesses which tasks wait and which links are open."""

    def __init__(self, seed):
        self.chance = random.Random(seed)
        self.lines = ["key " + "".join(self.chance.choice("0123456789abcdef") for _ in range(64))]
        self.step, self.moment = 1, 0
        self.links = {1: 4, 2: 5}
        self.tasks = []
        self.objects, self.created = [7], 0
        self.properties, self.verbs = [(7, "a")], [(7, "va")]
        self.add('line 1 ;add_property(#7, "a", 0, {#2, "rc"})')
        self.add('line 1 ;add_verb(#7, {#2, "xd", "va"}, {"this", "none", "this"})')

    def add(self, line):
        self.lines.append(line)
        self.step += 1

    def link(self):
        """A link whose player is likely to stand in the room."""
        inside = sorted(link for link, player in self.links.items() if player in (4, 5))
        return self.chance.choice(inside) if inside and self.chance.random() < 0.95 else self.chance.randint(1, 9)

    def close(self, link):
        self.add(f"close {link}")
        self.links.pop(link, None)

    def open(self, link, player):
        """A link is opened, if it was not, and a player logs in on it, whose older link is closed then."""
        if link not in self.links:
            self.add(f"open {link}")
        self.add(f"line {link} connect #{player}")
        if self.links.get(link) is None:
            self.links = {each: other for each, other in self.links.items() if other != player}
            self.links[link] = player if player in (2, 4, 5) else None

    def say(self, text, tasks=0):
        """A line of some link, whose step may queue so many tasks."""
        self.tasks += [(self.step - 1) * 64 + place + 1 for place in range(tasks)]
        self.add(f"line {self.link()} {text}")

    def task(self):
        """The number of a task, which was queued most likely."""
        if not self.tasks or self.chance.random() < 0.1:
            return self.chance.randint(1, self.step * 64)
        if self.chance.random() < 0.5:
            return self.tasks.pop(self.chance.randrange(len(self.tasks)))
        return self.chance.choice(self.tasks[-10:])

    def body(self):
        """Statements of a fork."""
        return self.chance.choice([
            "#3:count();", "notify(#4, tostr(random(1000)));", "kill_task(t);", "suspend(2); #3:count();", "#3.n = random(100);",
            "fork (1) #3:count(); endfork #3:count();", "x = {suspend(), task_id()}; notify(#5, toliteral(x));", "raise(E_RANGE, tostr(#3.n));",
            "return queued_tasks();", "try suspend(1); finally #3.n = #3.n + 10; endtry", "for i in [1..5] suspend(i); #3:count(); endfor",
            "set_task_perms(#5); suspend(0); #3.n = 1;", "return read();",
        ] if self.chance.random() < 0.97 else ["while (1) endwhile"])

    def queue(self):
        """A line that queues tasks, or waits."""
        kind = self.chance.randrange(8)
        if kind == 0:
            self.say("plot", 2)
        elif kind == 1:
            self.say("dice", 2)
        elif kind == 2:
            self.say("hold", 1)
        elif kind == 3:
            self.say(f";suspend({self.chance.randint(0, 5)})", 1)
        elif kind == 4 and self.chance.random() < 0.3:
            self.say("storm", 64)
        else:
            self.say(f';eval("fork t ({self.chance.randint(0, 6)}) {self.body()} endfork return t;")', 1)

    def number(self):
        """The number of an object, which is there most likely."""
        if self.chance.random() < 0.05:
            return self.chance.choice([-2, -1, 0, 1, *range(8, 40)])
        return self.chance.choice(self.objects[-25:])

    def change(self):
        """A line that changes objects, or asks for what they have."""
        one, other, name = self.number(), self.number(), self.chance.choice("abcd")
        kind = self.chance.randrange(16)
        if kind in (7, 13):
            (self.properties if kind == 7 else self.verbs).append((one, name if kind == 7 else "v" + name))
        elif 7 < kind < 13 and self.chance.random() < 0.9:
            one, name = self.chance.choice(self.properties[-12:])
        elif kind > 13 and self.chance.random() < 0.9:
            one, name = self.chance.choice(self.verbs[-12:])
        if kind < 2:
            self.add(f"line {1 + self.step % 2} ;create(#{self.chance.choice(self.objects[-25:])})")
            self.objects.append(8 + self.created)
            self.created += 1
        elif kind == 2 and one > 7:
            self.say(f";recycle(#{one})")
            if one in self.objects:
                self.objects.remove(one)
                self.properties = [it for it in self.properties if it[0] != one]
                self.verbs = [it for it in self.verbs if it[0] != one]
        elif kind < 5:
            self.say(f";move(#{one}, #{self.chance.choice([other, 3, -1])})")
        elif kind == 5:
            self.say(f";chparent(#{one}, #{other})")
        elif kind == 6:
            self.say(f';#{one}.name = "{name}{self.step}"')
        elif kind == 7:
            self.say(f';add_property(#{one}, "{name}", {self.step}, {{#{self.chance.choice([2, 4])}, "{self.chance.choice(["r", "rc", "rwc", ""])}"}})')
        elif kind == 8 and one != 7:
            self.say(f';delete_property(#{one}, "{name}")')
            self.properties = [it for it in self.properties if it != (one, name)]
        elif kind < 11:
            self.say(f";#{self.chance.choice([one, other])}.{name} = {{#{other}, #3.n}}")
        elif kind == 11:
            self.say(f";{{#{one}.{name}, property_info(#{one}, \"{name}\"), #{one}.contents, children(#{other})}}")
        elif kind == 12:
            self.say(f';clear_property(#{self.chance.choice([one, other])}, "{name}")')
        elif kind == 13:
            self.say(f';add_verb(#{one}, {{#2, "xd", "v{name}"}}, {{"this", "none", "this"}})')
        elif kind == 14:
            self.say(f';set_verb_code(#{one}, "{name}", {{"#3.n = #3.n + 1;", "return {{this, verb, this.name, {self.step}}};"}})')
        else:
            self.say(f";#{one}:{name}()")

    def telling(self):
        """Steps after which Ann, who has logged in again, is told all objects."""
        self.close(1)
        self.open(1, 4)
        self.add('line 1 ;eval("for o in [#0..max_object()] if (valid(o)) notify(#4, toliteral({o, o.name, o.owner, parent(o), children(o), o.location, '
                 'o.contents, properties(o), verbs(o)})); for p in (properties(o)) notify(#4, toliteral({p, property_info(o, p), o.(p)})); endfor endif endfor")')
        self.add("line 1 ;{queued_tasks(), players(), connected_players(), #3.n}")


def mixed(seed):
    """1,000 steps of all kinds."""
    it = Script(seed)
    while it.step <= 990:
        chance = it.chance.random()
        if chance < 0.25:
            it.say("count")
        elif chance < 0.33:
            it.say(it.chance.choice(["look", "l", "sum", "tell", "looks", "", 'put "red ball" in box', "look in front of box", "call", ";random(100)",
                                     ";queued_tasks()", ";{task_id(), ticks_left(), time()}", ";connected_players()", ";1 / 0", "emote waves", '"Hello']))
        elif chance < 0.50:
            it.queue()
        elif chance < 0.55:
            it.say(f";kill_task({it.task()})")
        elif chance < 0.61:
            it.say(f';resume({it.task()}, {{"a", {it.step}}})')
        elif chance < 0.82:
            if it.chance.random() < 0.3:
                it.moment += it.chance.randint(0, 3)
                it.lines.append(f"moment {it.moment}")
            it.add(f"ready {it.task()}")
        elif chance < 0.84:
            it.say(";read()", 1)
        elif chance < 0.89:
            it.change()
        elif chance < 0.92:
            it.open(it.chance.randint(1, 8), it.chance.choice([4, 5, 5, 4, 2, 6]))
        elif chance < 0.93:
            it.close(it.chance.randint(1, 8))
        elif chance < 0.94:
            it.say(it.chance.choice([";boot_player(#5)", ";boot_player(#4)", ";set_player_flag(#6, 1)", ";set_player_flag(#6, 0)"]))
            it.links = {}
            it.open(1, 4)
            it.open(2, 5)
        elif chance < 0.955:
            it.say("spin")
        else:
            it.say(f";#3.n = #3.n + {it.chance.randint(1, 9)}")
    it.telling()
    return it


def objects(seed):
    """5,000 steps over the counter and objects."""
    it = Script(seed)
    while it.step <= 4990:
        if it.chance.random() < 0.4:
            it.say("count")
        else:
            it.change()
    it.telling()
    return it


def printed(play, script, workers, on_one=False):
    """What a run prints, its errors and its status."""
    words = [play, "fixture", script, "--workers", str(workers)]
    ran = subprocess.run((["taskset", "-c", "0"] if on_one else []) + words, capture_output=True, timeout=600)
    return ran.stdout, ran.stderr, ran.returncode


def difference(wanted, got):
    """The first line that differs."""
    wanted, got = wanted[0].split(b"\n") + [wanted[1], wanted[2]], got[0].split(b"\n") + [got[1], got[2]]
    for at, (one, other) in enumerate(zip(wanted, got)):
        if one != other:
            return f"line {at + 1}: {other!r}, not {one!r}"
    return f"{len(got)} lines, not {len(wanted)}"


def main(play, kinds):
    failures, results = 0, set()
    runs = {"mixed": (mixed, [2, 3, 63, 64]), "objects": (objects, [2, 3, 5, 63, 64])}
    with tempfile.TemporaryDirectory() as work:
        for kind, seed in kinds:
            make, counts = runs[kind]
            script = make(seed)
            path = os.path.join(work, "script")
            with open(path, "w", encoding="ascii") as file:
                file.write("\n".join(script.lines) + "\n")
            wanted = printed(play, path, 1)
            steps = [line.split() for line in wanted[0].decode().split("\n") if line.startswith("step ")]
            results.update(words[2] for words in steps)
            if wanted[1:] != (b"", 0) or len(steps) != script.step - 1:
                print(f"{kind} {seed}: status {wanted[2]}, {len(steps)} of {script.step - 1} steps, told {wanted[1][:200]!r}")
                failures += 1
            others = [(f"{workers} workers", workers, False) for workers in counts]
            if shutil.which("taskset"):
                others += [(f"{workers} workers on one processor", workers, True) for workers in ([64] if kind == "mixed" else [1, 3, 64])]
            for name, workers, on_one in others:
                got = printed(play, path, workers, on_one)
                if got != wanted:
                    print(f"{kind} {seed}: {name} print another {difference(wanted, got)}")
                    failures += 1
    if len(kinds) > 3 and results != set(RESULTS):
        print(f"the results are {sorted(results)}")
        failures += 1
    return 1 if failures else 0


if __name__ == "__main__":
    only = sys.argv[2:]
    which = [(only[0], int(seed)) for seed in only[1:]] if only else [("mixed", seed) for seed in MIXED] + [("objects", seed) for seed in OBJECTS]
    sys.exit(main(sys.argv[1], which))
