#!/usr/bin/env python3
"""measure.py [GROUP..]: what the product costs, as a user meets it: see bench/run."""
import sys

import checkpoints
import language
import objects
import parsing
import serving
import steps
import worst
from peers import Peers
from runs import Failure, folder

GROUPS = {
    "language": language.figures,
    "world": objects.figures,
    "steps": steps.figures,
    "parse": parsing.figures,
    "checkpoint": checkpoints.figures,
    "worst": worst.figures,
    "telnet": serving.floods,
    "server": serving.figures,
}
# How many of each unit are in a second, or in one; and the units of which more is better.
UNITS = {"ns": 1e9, "us": 1e6, "ms": 1e3, "s": 1, "MB": 1e-6, "MB/s": 1e-6, "steps/s": 1, "times": 1, "ticks": 1}
RATES = ("MB/s", "steps/s")


def shown(amount, unit):
    """An amount with three digits that count, or all in front of the point."""
    amount *= UNITS[unit]
    digits = 0 if amount >= 100 else 1 if amount >= 10 else 2
    return f"{amount:,.{digits}f} {unit}"


def ratio(own, other, unit):
    """How many times as long the product takes as the other."""
    if own <= 0 or other <= 0:
        return "-"
    times = other / own if unit in RATES else own / other
    return f"x {times:.2g}" if times < 100 else f"x {times:,.0f}"


def line(group, figure):
    parts = [f"{group + ': ' + figure.what:<68} {shown(figure.amount, figure.unit):>16}"]
    for who, amount in figure.peers.items():
        parts.append(f"{who} {shown(amount, figure.unit):>10} {ratio(figure.amount, amount, figure.unit):>6}")
    if figure.fault:
        parts.append(figure.fault)
    return " | ".join(parts)


def main(names):
    unknown = [name for name in names if name not in GROUPS]
    if unknown:
        print(f"bench: no group {unknown[0]}; there are {' '.join(GROUPS)}", file=sys.stderr)
        return 2
    status = 0
    try:
        peers = Peers()
        for name in names or GROUPS:
            for figure in GROUPS[name](peers):
                print(line(name, figure), flush=True)
                status = status or int(figure.fault != "")
    except Failure as failure:
        print(f"bench: {failure}", file=sys.stderr)
        return 2
    finally:
        folder.remove()
    return status


if __name__ == "__main__":
    sys.exit(main(sys.argv[1:]))
