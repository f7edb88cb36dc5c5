#!/usr/bin/env python3
"""Measures what an access of a memory under locks costs, alone and by four threads at once.

usage: locks.py PATH_OF_WREPLAY_BENCH [COUNT]

Each thread makes COUNT loads of four bytes of a memory of one page in blocks of 64 bytes. One thread's load is measured beside a
lock and unlock of a mutex of the standard library. Four threads load from blocks of their own, or all from one block; both are
measured beside one thread, and so are the locks alone when four threads take them: the same mutex, and a read-write lock for reading,
each of which a load takes once. It prints, best of nine rounds each, nanoseconds of a load, loads a second, and ratios.
"""

import subprocess
import sys
import time

ROUNDS = 9
ROWS = (("mutex", 1), ("mutex", 4), ("readers", 4), ("same", 1), ("apart", 4), ("same", 4))


def seconds(program, mode, threads, count):
    """The time of one run."""
    begin = time.perf_counter()
    subprocess.run([program, "locks", mode, str(threads), str(count)], stdout=subprocess.DEVNULL, check=True)
    return time.perf_counter() - begin


def main():
    program = sys.argv[1]
    count = int(sys.argv[2]) if len(sys.argv) > 2 else 3_000_000
    full = {row: float("inf") for row in ROWS}
    empty = dict(full)
    for _ in range(ROUNDS):
        for mode, threads in ROWS:
            row = (mode, threads)
            empty[row] = min(empty[row], seconds(program, mode, threads, 0))
            full[row] = min(full[row], seconds(program, mode, threads, count))
    rate = {(mode, threads): threads * count / (full[mode, threads] - empty[mode, threads]) for mode, threads in ROWS}
    alone = rate["same", 1]
    print("| what | nanoseconds each | million a second | ratio |")
    print("|---|---:|---:|---:|")
    print(f"| lock and unlock of a mutex | {1e9 / rate['mutex', 1]:.1f} | {rate['mutex', 1] / 1e6:.1f} | |")
    print(f"| loads of one thread | {1e9 / alone:.1f} | {alone / 1e6:.1f} | {rate['mutex', 1] / alone:.1f} times a mutex |")
    for row, name in (
        (("mutex", 4), "lock and unlock of a mutex by four threads"),
        (("readers", 4), "lock and unlock for reading by four threads"),
    ):
        print(f"| {name} | {1e9 / rate[row]:.1f} | {rate[row] / 1e6:.1f} | {rate[row] / alone:.2f} times one thread's loads |")
    for row, name in ((("apart", 4), "loads of four threads, each of its own block"), (("same", 4), "loads of four threads of one block")):
        print(f"| {name} | {1e9 / rate[row]:.1f} | {rate[row] / 1e6:.1f} | {rate[row] / alone:.2f} times one thread |")


main()
