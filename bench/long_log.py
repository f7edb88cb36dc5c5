#!/usr/bin/env python3
"""Measures the memory that `wreplay replay` takes for a long log of one thread, and how long `wreplay trace` of it takes.

usage: long_log.py PATH_OF_WREPLAY [EVENTS]

A module is made with a function that goes round a loop and adds 1 to a counter in memory at each turn, by a load and a store, and
the log of its run by one thread, EVENTS events (10,000,000 by default), in pieces of 4,096 entries. A schedule has at most a million
picks, so `wreplay record` makes no log of that length: the pieces are made here, and of a short run they are compared with those
of `wreplay record`. It prints the log's bytes, which are half of the digits of its lines, the seconds of the replay, its greatest
resident memory, less that of the replay of a log of two events, the ratio of the two, and the seconds of a trace to /dev/null beside
those of the replay. Half a gigabyte of files is written.
"""

import hashlib
import os
import subprocess
import sys
import tempfile

from record import module, written

A_PIECE = 4096
A_TURN = 13
PLAN = b"wreplay plan 1\nthread run\n"


def number(value, size):
    return int(value).to_bytes(size, "little")


def entry(place):
    """The entry at a place: loads and stores of the counter in turn. A store writes the next version, after one read."""
    version = number(place // 2, 8)
    read = b"\0\1" + number(1, 4) + b"\0" + version
    return read if place % 2 == 0 else b"\0\1" + number(1, 4) + b"\1" + version + number(1, 8)


def lines(wasm, turns):
    """The lines of the log of a run of so many turns, which has two events a turn."""
    head = b"IRP\2" + hashlib.sha256(wasm + PLAN).digest() + number(0, 8) + b"\6" + number(0, 1)
    events = 2 * turns
    for first in range(0, events, A_PIECE):
        places = range(first, min(first + A_PIECE, events))
        is_last = first + A_PIECE >= events
        end = number(turns * A_TURN + 4, 4) + number(events, 4) + b"\3" + number(turns, 4) if is_last else b""
        body = b"".join(map(entry, places))
        yield (head + number(first, 4) + number(len(places), 2) + number(is_last, 1) + body + end).hex().encode() + b"\n"


def files(folder, turns):
    """The words that name a module, its plan and its log, and the log's bytes."""
    wasm = module(turns, True)
    words = [written(folder, f"{turns}.wasm", wasm), written(folder, "one.plan", PLAN), os.path.join(folder, f"{turns}.pieces")]
    size = 0
    with open(words[2], "wb") as file:
        for line in lines(wasm, turns):
            size += file.write(line) // 2
    return words, size


def measured(wreplay, command, words):
    """The processor time of a command, and its greatest resident memory in bytes."""
    process = subprocess.Popen([wreplay, command, *words], stdout=subprocess.DEVNULL)
    _, status, used = os.wait4(process.pid, 0)
    if os.waitstatus_to_exitcode(status) != 0:
        sys.exit(f"{command}: status {os.waitstatus_to_exitcode(status)}")
    return used.ru_utime + used.ru_stime, used.ru_maxrss * 1024


def check(wreplay, folder, turns):
    """The pieces made here are those of a recording."""
    words, _ = files(folder, turns)
    schedule = written(folder, "all.schedule", f"go 0 {turns * A_TURN + 4}\n".encode())
    made = subprocess.run([wreplay, "record", *words[:2], "--schedule", schedule], stdout=subprocess.PIPE, check=True).stdout
    with open(words[2], "rb") as file:
        if made != file.read():
            sys.exit("the pieces that are made here are not those of a recording")


def main():
    if len(sys.argv) not in (2, 3):
        sys.exit(__doc__)
    wreplay, events = sys.argv[1], int(sys.argv[2]) if len(sys.argv) == 3 else 10_000_000
    with tempfile.TemporaryDirectory() as folder:
        check(wreplay, folder, 5000)
        start = measured(wreplay, "replay", files(folder, 1)[0])[1]
        words, size = files(folder, events // 2)
        seconds, memory = measured(wreplay, "replay", words)
        traced, _ = measured(wreplay, "trace", words)
    print("| events | log's MB | replay s | replay's peak MB | peak / log | trace s | trace / replay |")
    print("|---:|---:|---:|---:|---:|---:|---:|")
    print(f"| {events:,} | {size / 1e6:.0f} | {seconds:.2f} | {(memory - start) / 1e6:.0f} | {(memory - start) / size:.2f} | {traced:.2f} | {traced / seconds:.2f} |")


if __name__ == "__main__":
    main()
