#!/usr/bin/env python3
"""Measures how fast `wreplay` records a run by a schedule, and replays it.

usage: record.py PATH_OF_WREPLAY PATH_OF_WREPLAY_BENCH

Two modules are made, each with a function that goes round a loop: one computes alone, one adds 1 to a counter in memory at
each turn. The peer is `wreplay_bench machine`, which runs the same function alone over its memory, with
neither schedule nor log.
Recorded are one thread by one line of a schedule, `go 0 STEPS`, once with its report and once with its pieces, and two threads
by lines of one step each in turn; the pieces of the recording by one line are replayed. A schedule has at most a million
picks, so the peer goes round its loop LONGER times as often, for a time that can be measured. Times are processor time, the least
of ROUNDS, less what the program takes for one step. It prints the steps, millions of steps a second of the peer, and the
seconds of each as multiples of the peer's, for the same number of steps; those of the replay as multiples of the time of the
recording with its pieces.
"""

import os
import subprocess
import sys
import tempfile

ROUNDS = 20
LONGER = 50


def number(value):
    """LEB128, with a sign."""
    out = bytearray()
    while True:
        low, value = value & 127, value >> 7
        if (value == 0 and not low & 64) or (value == -1 and low & 64):
            return bytes(out + bytes([low]))
        out.append(low | 128)


def section(kind, content):
    return bytes([kind, len(content)]) + content


def module(turns, has_access, apart=0):
    """A module whose function `run` goes round a loop so many times, and at each turn round one inside it, `apart` times."""
    add = bytes.fromhex("41004100280200 41016a 360200") if has_access else b""
    inner = b"\x41\x00\x21\x01\x03\x40\x20\x01\x41\x01\x6a\x22\x01\x41" + number(apart) + b"\x49\x0d\x00\x0b" if apart else b""
    outer = b"\x03\x40" + inner + add + b"\x20\x00\x41\x01\x6a\x22\x00\x41" + number(turns) + b"\x49\x0d\x00\x0b\x20\x00\x0b"
    body = b"\x01\x02\x7f" + outer
    code = b"\x01" + bytes([len(body)]) + body
    return (
        b"\0asm\1\0\0\0" + section(1, b"\1\x60\0\1\x7f") + section(3, b"\1\0") + section(5, b"\1\3\1\1")
        + section(7, b"\1\3run\0\0") + section(10, code)
    )


def run(words, kept=os.devnull):
    """The processor time of a command, its own and the system's, whose output goes to a file."""
    with open(kept, "wb") as out:
        process = subprocess.Popen(words, stdout=out)
        _, status, used = os.wait4(process.pid, 0)
        process.returncode = os.waitstatus_to_exitcode(status)
    if process.returncode != 0:
        sys.exit(f"{' '.join(words)}: status {process.returncode}")
    return used.ru_utime + used.ru_stime


def least(words, kept=os.devnull):
    return min(run(words, kept) for _ in range(ROUNDS))


def written(folder, name, content):
    path = os.path.join(folder, name)
    with open(path, "wb") as file:
        file.write(content)
    return path


def alone(folder, bench, turns, has_access):
    """The seconds of the peer."""
    wasm = written(folder, "alone.wasm", module(turns, has_access))
    return least([bench, "machine", wasm, written(folder, "one.plan", b"wreplay plan 1\nthread run\n")])


def measured(folder, wreplay, turns, has_access, steps, picks):
    """The seconds of recording by one line, with the report and with the pieces, of its replay, and of recording by lines of
    one step."""
    name = f"{turns}-{has_access}"
    wasm = written(folder, name + ".wasm", module(turns, has_access))
    one = written(folder, "one.plan", b"wreplay plan 1\nthread run\n")
    two = written(folder, "two.plan", b"wreplay plan 1\nthread run\nthread run\n")
    long = written(folder, "long.schedule", f"go 0 {steps}\n".encode())
    short = written(folder, "short.schedule", b"go 0 1\ngo 1 1\n" * (picks // 2))
    pieces = os.path.join(folder, name + ".pieces")
    reported = least([wreplay, "record", wasm, one, "--schedule", long, "--report"])
    recorded = least([wreplay, "record", wasm, one, "--schedule", long], pieces)
    replayed = least([wreplay, "replay", wasm, one, pieces])
    stepped = least([wreplay, "record", wasm, two, "--schedule", short, "--report"])
    return reported, recorded, replayed, stepped


def main():
    if len(sys.argv) != 3:
        sys.exit(__doc__)
    _, wreplay, bench = sys.argv
    picks = 400_000
    print("| loop | steps | million steps a second alone | record / alone | with its pieces | replay / record | one pick a step |")
    print("|---|---:|---:|---:|---:|---:|---:|")
    with tempfile.TemporaryDirectory() as folder:
        for has_access, turns, a_turn in ((False, 140_000, 7), (True, 76_000, 13)):
            steps = turns * a_turn
            start = measured(folder, wreplay, 1, has_access, 1, 2)
            spent = measured(folder, wreplay, turns, has_access, steps, picks)
            reported, recorded, replayed, stepped = (x - y for x, y in zip(spent, start))
            peer = (alone(folder, bench, turns * LONGER, has_access) - alone(folder, bench, 1, has_access)) / LONGER
            print(
                f"| {'with an access' if has_access else 'alone'} | {steps:,} | {steps / peer / 1e6:.0f} | {reported / peer:.1f}"
                f" | {recorded / peer:.1f} | {replayed / recorded:.2f} | {stepped / picks * steps / peer:.1f} |",
                flush=True,
            )


if __name__ == "__main__":
    main()
