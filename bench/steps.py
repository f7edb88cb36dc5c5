#!/usr/bin/env python3
"""Measures what a step of a world costs over the machine's and the space's own work.

usage: steps.py PATH_OF_WREPLAY_BENCH [STEPS]

Four scripted threads make STEPS operations each on three cells, one of each thread in turn, half of them reads: once the
machine's and the space's own calls alone, once as steps of a world with each entry looked at, and once as steps of a
world with each entry kept, as a recorder keeps them. What opening the threads costs is taken off: it is timed with no
step. It prints, best of five each, nanoseconds a step, millions of steps a second, and the ratio to the first.
"""

import subprocess
import sys
import time

RUNS = 5
THREADS = 4


def seconds(program, word, steps):
    """The best time of so many runs."""
    best = float("inf")
    for _ in range(RUNS):
        begin = time.perf_counter()
        subprocess.run([program, "steps", word, str(steps)], stdout=subprocess.DEVNULL, check=True)
        best = min(best, time.perf_counter() - begin)
    return best


def main():
    program = sys.argv[1]
    steps = int(sys.argv[2]) if len(sys.argv) > 2 else 1_000_000
    base = None
    print("| steps | ns a step | million steps a second | ratio to the parts alone |")
    print("|---|---:|---:|---:|")
    for word, name in (("parts", "the parts alone"), ("read", "a world, entries read"), ("kept", "a world, entries kept")):
        spent = seconds(program, word, steps) - seconds(program, word, 0)
        each = spent / (steps * THREADS) * 1e9
        base = base or each
        print(f"| {name} | {each:.1f} | {1000 / each:.0f} | {each / base:.2f} |")


main()
