"""What the product is measured beside: plain Rust, Lua and Python, where they are installed."""
import os
import shutil
import subprocess
import sys

from runs import ROOT, Failure, in_turn, least, run

TWIN = f"{ROOT}/bench/out/twin"
# The peers' loops are run more often, since most take a few nanoseconds, and Python takes long to start.
STEPS_OF_RUST = 20
STEPS_OF_OTHERS = 10


def has_twin():
    """Compiles the Rust where that is to be done and can be."""
    source = f"{ROOT}/bench/twin.rs"
    if not shutil.which("rustc"):
        return False
    sources = [f"{ROOT}/bench/{name}" for name in ("twin.rs", "family.rs", "tokens.rs")]
    if not os.path.exists(TWIN) or os.path.getmtime(TWIN) < max(map(os.path.getmtime, sources)):
        os.makedirs(os.path.dirname(TWIN), exist_ok=True)
        words = ["rustc", "--edition", "2024", "-O", "-o", TWIN, source]
        return subprocess.run(words, stderr=subprocess.DEVNULL).returncode == 0
    return True


def found():
    """The peers that are here: how each is called, and how many times as many steps it takes. The others are told on standard error."""
    here = {}
    if has_twin():
        here["Rust"] = ([TWIN], STEPS_OF_RUST)
    else:
        print("bench: no rustc here that compiles bench/twin.rs, so there is no plain Rust beside the product", file=sys.stderr)
    if shutil.which("lua5.4"):
        here["lua5.4"] = (["lua5.4", f"{ROOT}/bench/loops.lua"], STEPS_OF_OTHERS)
    else:
        print("bench: no lua5.4 on PATH, so there is no Lua beside the product", file=sys.stderr)
    here["python3"] = ([sys.executable, f"{ROOT}/bench/loops.py"], STEPS_OF_OTHERS)
    return here


class Peers:
    """Those that are here, with what each takes to do nothing."""

    def __init__(self):
        self.here = found()
        self.idle = {who: self.timed(who, "nothing", 1, 1)[0] for who in self.here}

    def measure(self, who, name, steps, turns):
        """A run of a loop by one of them."""
        words, times = self.here[who]
        return lambda: run(*words, name, str(steps * times), str(turns))

    def timed(self, who, name, steps, turns):
        """Processor seconds of the least of such runs, and what the last step gave."""
        done = least(self.measure(who, name, steps, turns))
        return done.processor, done.output.strip()

    def tokens(self, path):
        """Processor seconds in which plain Rust cuts the tokens of a program; None where it is not here."""
        if "Rust" not in self.here:
            return None
        words, _ = self.here["Rust"]
        return max(least(lambda: run(*words, "tokens", path)).processor - self.idle["Rust"], 1e-9)

    def loop(self, name, steps, turns, given, without=()):
        """Processor seconds of each for the same steps of a loop. The last step gives what the product's did."""
        they = [who for who in self.here if who not in without]
        return self.taken(name, given, they, in_turn([self.measure(who, name, steps, turns) for who in they]))

    def beside(self, measure, name, steps, turns, given):
        """A run of the product, and processor seconds of each for the same steps of a loop, all measured in turn. The last step gives what the product's did, which
        `given` tells."""
        they = [*self.here]
        ours, *theirs = in_turn([measure, *(self.measure(who, name, steps, turns) for who in they)])
        return ours, self.taken(name, given(ours), they, theirs)

    def taken(self, name, given, they, runs):
        """Processor seconds of each in its run of a loop, of which the last step has to give this."""
        for who, done in zip(they, runs):
            if done.output.strip() != given:
                raise Failure(f"the loop {name} gives {done.output.strip()} by {who}, and {given} here")
        return {who: max(done.processor - self.idle[who], 1e-9) / self.here[who][1] for who, done in zip(they, runs)}
