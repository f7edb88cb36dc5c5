#!/usr/bin/env python3
"""Measures what an access costs through a shared memory with its versions, beside the same access of a plain slice.

usage: accesses.py PATH_OF_WREPLAY_BENCH [COUNT]

A memory of one page in blocks of 64 bytes; COUNT loads, or stores, of four bytes, each 68 bytes behind the one before, so
that each is of another block. Each access through the memory finds its block, counts its version, makes an entry and
makes the load or the store. One more row makes loads whose kind is read from a table, so that the compiler does not know it.
What opening the memory costs is taken off: it is timed with no access. It prints, best of nine rounds each, nanoseconds an
access, millions of accesses a second, and the ratio to the slice. Each round runs each kind once, the slice first. Then it
prints what opening a memory of 16 and of 256 pages in blocks of 64 bytes takes, in milliseconds of processor time more than the
program takes with a slice.
"""

import os
import subprocess
import sys
import time

ROUNDS = 9
ROWS = (
    ("slice-load", "loads of a slice", "slice-load"),
    ("load", "loads through the memory", "slice-load"),
    ("load-of-kind", "loads of a kind from a table", "slice-load"),
    ("slice-store", "stores of a slice", "slice-store"),
    ("store", "stores through the memory", "slice-store"),
)


def seconds(program, word, count):
    """The time of one run."""
    begin = time.perf_counter()
    subprocess.run([program, "accesses", word, "1", "64", str(count)], stdout=subprocess.DEVNULL, check=True)
    return time.perf_counter() - begin


def opening(program, word, pages):
    """The processor time of a run with no access, the least of nine, in milliseconds."""
    least = float("inf")
    for _ in range(ROUNDS):
        process = subprocess.Popen([program, "accesses", word, str(pages), "64", "0"], stdout=subprocess.DEVNULL)
        _, status, used = os.wait4(process.pid, 0)
        process.returncode = os.waitstatus_to_exitcode(status)
        if status != 0:
            sys.exit(f"{word} {pages}: status {status}")
        least = min(least, used.ru_utime + used.ru_stime)
    return 1000 * least


def main():
    program = sys.argv[1]
    count = int(sys.argv[2]) if len(sys.argv) > 2 else 100_000_000
    full = {word: float("inf") for word, _, _ in ROWS}
    empty = dict(full)
    for _ in range(ROUNDS):
        for word, _, _ in ROWS:
            empty[word] = min(empty[word], seconds(program, word, 0))
            full[word] = min(full[word], seconds(program, word, count))
    each = {word: (full[word] - empty[word]) / count * 1e9 for word in full}
    print("| accesses | ns an access | million accesses a second | ratio to the slice |")
    print("|---|---:|---:|---:|")
    for word, name, peer in ROWS:
        print(f"| {name} | {each[word]:.2f} | {1000 / each[word]:.0f} | {each[word] / each[peer]:.1f} |")
    for pages in (16, 256):
        more = opening(program, "load", pages) - opening(program, "slice-load", 1)
        print(f"opening {pages} pages: {more:.2f} ms")


main()
