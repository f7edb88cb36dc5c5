#!/usr/bin/env python3
"""Measures how fast `wreplay view` comes to a break behind many steps, and `wreplay replay` to the end of a log of local steps.

usage: view.py PATH_OF_WREPLAY PATH_OF_WREPLAY_BENCH

A module is made with a function that goes round a loop and computes alone, and a log by hand of one and of two threads that run
it, with ends and no events. `wreplay view` stops where thread 0 has made STEPS steps, in rounds of a step of each thread;
`wreplay replay` replays the log of one thread. The peer is `wreplay_bench machine`, which runs the same function alone over its
memory. Times are processor time, the least of ROUNDS, less what the program takes for one turn of the loop. It prints the steps
of all threads, millions of steps a second of each, and their speed as a part of the peer's.
"""

import hashlib
import os
import sys
import tempfile

from record import least, module, written

STEPS = 50_000_000
A_TURN = 7


def piece(digest, thread, steps, outcome):
    """A line with the end of a thread that made no event."""
    number = lambda value, size: value.to_bytes(size, "little")
    return (b"IRP\2" + digest + number(0, 8) + b"\6" + number(thread, 1) + number(0, 4) + number(0, 2) + b"\1"
            + number(steps, 4) + number(0, 4) + outcome).hex().encode() + b"\n"


def log(folder, name, turns, threads):
    """The words that name a module, its plan and its log."""
    wasm = module(turns, False)
    plan = b"wreplay plan 1\n" + b"thread run\n" * threads
    digest = hashlib.sha256(wasm + plan).digest()
    steps = turns * A_TURN + 4
    end = b"\3" + turns.to_bytes(4, "little")
    lines = b"".join(piece(digest, thread, steps, end) for thread in range(threads))
    return [written(folder, name + ".wasm", wasm), written(folder, name + ".plan", plan), written(folder, name + ".pieces", lines)]


def main():
    if len(sys.argv) != 3:
        sys.exit(__doc__)
    _, wreplay, bench = sys.argv
    turns = STEPS // A_TURN + 1
    print("| what | steps | million steps a second | part of the peer's speed |")
    print("|---|---:|---:|---:|")
    with tempfile.TemporaryDirectory() as folder:
        one, two = log(folder, "one", turns, 1), log(folder, "two", turns, 2)
        one_turn, two_turns = log(folder, "one-turn", 1, 1), log(folder, "two-turns", 1, 2)
        alone = least([bench, "machine", *one[:2]]) - least([bench, "machine", *one_turn[:2]])
        peer = turns * A_TURN / alone
        viewed = least([wreplay, "view", *two, "--step", f"0.{STEPS}"]) - least([wreplay, "view", *two_turns, "--step", "0.5"])
        replayed = least([wreplay, "replay", *one]) - least([wreplay, "replay", *one_turn])
        print(f"| the peer, one thread | {turns * A_TURN:,} | {peer / 1e6:.0f} | 1.00 |")
        print(f"| a view of two threads | {2 * STEPS:,} | {2 * STEPS / viewed / 1e6:.0f} | {2 * STEPS / viewed / peer:.2f} |")
        print(f"| a replay of one thread | {turns * A_TURN:,} | {turns * A_TURN / replayed / 1e6:.0f} | {turns * A_TURN / replayed / peer:.2f} |")


if __name__ == "__main__":
    main()
