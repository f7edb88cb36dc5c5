#!/usr/bin/env python3
"""How often a hunt finds a fault that needs two changes of thread, each at one access of 200.

usage: two_changes.py PATH_OF_WREPLAY [NUMBERS] [RANGES]

Two threads make 200 accesses each. Thread 0 sets A, reads B and takes A back, thread 1 sets B, reads A and takes B back, each by three of
its accesses that follow one another; the fault is that both read a 1. So one thread has to stop between two given accesses of its own, and
the other too. Hunts of RANGES ranges (10) of NUMBERS numbers (100,000) say how many find it, and behind how many numbers. Beside it as
many seconds of recordings by threads.
"""

import os
import subprocess
import sys
import tempfile
import time

sys.path.insert(0, os.path.join(os.path.dirname(os.path.abspath(__file__)), "rows"))
from model import Module  # noqa: E402

A, B, READ_B, READ_A, OWN = 0, 64, 512, 516, (128, 192)
FAULT = "00000200 0100000001000000"
ACCESSES, BEFORE = 200, 98


def store(address, value):
    return [("i32.const", address), *value, "i32.store"]


def thread(number, mine, other, result):
    """A set, what the other holds, taken back; and what was read is kept; all others touch a block of the thread's own."""
    idle = [("i32.const", OWN[number]), "i32.load", "drop"]
    window = store(mine, [("i32.const", 1)]) + store(result, [("i32.const", other), "i32.load"]) + store(mine, [("i32.const", 0)])
    return idle * BEFORE + window + idle * (ACCESSES - BEFORE - 4) + ["end"]


def made(folder):
    module = Module([("f", [], None, thread(0, A, B, READ_B)), ("g", [], None, thread(1, B, A, READ_A))])
    names = os.path.join(folder, "two.wasm"), os.path.join(folder, "two.plan")
    with open(names[0], "wb") as file:
        file.write(module.bytes)
    with open(names[1], "w", encoding="ascii") as file:
        file.write("wreplay plan 1\nthread f\nthread g\n")
    return names


def main():
    program = os.path.abspath(sys.argv[1])
    numbers = int(sys.argv[2]) if len(sys.argv) > 2 else 100_000
    ranges = int(sys.argv[3]) if len(sys.argv) > 3 else 10
    with tempfile.TemporaryDirectory() as folder:
        words = [program, "hunt", *made(folder), "--until", FAULT]
        behind, begin = [], time.monotonic()
        for nth in range(ranges):
            first = nth * numbers
            done = subprocess.run([*words, "--from", str(first), "--runs", str(numbers)], capture_output=True, check=False)
            told = done.stderr.decode().split()
            if done.returncode == 0:
                behind.append(int(told[1]) - first + 1)
        seconds = time.monotonic() - begin
        print(f"{len(behind)} of {ranges} ranges of {numbers:,} numbers have the fault, behind {sorted(behind)} numbers")
        begin, runs, found = time.monotonic(), 0, 0
        while time.monotonic() - begin < max(seconds, 10):
            done = subprocess.run([*words, "--threads", "--from", str(runs), "--runs", "1000"], capture_output=True, check=False)
            found += done.returncode == 0
            runs += 1000
        print(f"by threads, of {runs:,} runs at most in {time.monotonic() - begin:.0f} s: found {found} times")


main()
