#!/usr/bin/env python3
"""How often a sender must ask for STATUS and repair, so that 64 runs suffice: the figures of docs/LINK.md.

    host/link/runs.py            the table
    host/link/runs.py --check    exit status 1 unless docs/LINK.md holds these very figures

A file of PACKETS packets goes over a link that loses each packet with the same chance, by itself. The sender sends
`window` packets, asks for STATUS, sends again what it names until nothing of the window is missing, and goes on. (STATUS
and its request are taken as not lost: a loss of these costs time, not runs.) A packet that would begin a 65th run is
refused with 16.
"""
import math
import os
import random
import sys

PACKETS, MOST_RUNS, TRIALS = 20000, 64, 400
LOSSES = (0.001, 0.01, 0.05)
WINDOWS = (100, 200, 400, 500, 600, 800, 1000, 1500, 2000, 4000, 5000, 6000, 8000, 20000)


def losses(loss, chance):
    """The numbers of the packets that are lost, in order."""
    lost = []
    at = -1
    while True:
        at += 1 + int(math.log(1 - chance.random()) / math.log(1 - loss))
        if at >= PACKETS:
            return lost
        lost.append(at)


def packets_before_refusal(loss, window, chance):
    """How many packets of the file were sent before the first refusal with 16; None where there was none."""
    start = runs = 0
    before = -1  # the loss before; one at -1 would be that of a packet before the first
    for number in losses(loss, chance):
        if number // window != start:
            start, runs = number // window, 0
        # A packet that comes after one or more losses ends a hole: the runs are one more than the holes.
        runs += number != before + 1
        before = number
        if runs >= MOST_RUNS:
            return number + 1
    return None


def table():
    lines = ["| Loss | Sent without a pause: first refusal after | Largest window never refused in 400 files "
             "| Refused at the next larger window tried |", "|---|---|---|---|"]
    for loss in LOSSES:
        chance = random.Random(int(loss * 1000))
        ends = [packets_before_refusal(loss, PACKETS, chance) for _ in range(TRIALS)]
        refused = sorted(end for end in ends if end is not None)
        first = f"{refused[len(refused) // 2]:,} packets (median)" if len(refused) > TRIALS // 2 else (
            f"never, in {TRIALS} files" if not refused else f"{len(refused)} of {TRIALS} files refused")
        best, worse = 0, ""
        for window in WINDOWS:
            count = sum(packets_before_refusal(loss, window, chance) is not None for _ in range(TRIALS))
            if count:
                worse = f"{window:,} packets: {count / TRIALS:.1%} of files"
                break
            best = window
        lines.append(f"| {loss:.1%} | {first} | {best:,} packets | {worse or 'none'} |")
    return "\n".join(lines) + "\n"


def main():
    made = table()
    if sys.argv[1:] == ["--check"]:
        path = os.path.join(os.path.dirname(os.path.abspath(__file__)), "..", "..", "docs", "LINK.md")
        with open(path, encoding="utf-8") as file:
            return 0 if made in file.read() else 1
    sys.stdout.write(made)
    return 0


if __name__ == "__main__":
    sys.exit(main())
