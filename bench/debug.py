#!/usr/bin/env python3
"""Measures how fast `wreplay debug` goes over local steps, goes back, and answers who wrote a byte.

usage: debug.py PATH_OF_WREPLAY PATH_OF_WREPLAY_BENCH [EVENTS]

`continue` goes over the 50,000,000 local steps of the logs of bench/view.py, of one thread and of two; the peer is
`wreplay_bench machine`, which runs the same function alone. Times are processor time, less what the program takes for one turn of
the loop. In the log of bench/long_log.py, of EVENTS events (10,000,000 by default), it goes to POINTS places drawn at random (`goto`),
and there a step back (`back`) and asks for the writer of the counter (`writer`): the medians of the clock, from the command to its
answer, in milliseconds.
"""

import random
import subprocess
import sys
import tempfile
import time

import long_log
from record import least
from view import A_TURN, STEPS, log

POINTS = 9


def going(wreplay, words):
    """The processor time of a session that goes on to the end of a log."""
    return least(["sh", "-c", 'echo continue | "$0" debug "$@"', wreplay, *words])


class Session:
    def __init__(self, wreplay, words):
        how = {"stdin": subprocess.PIPE, "stdout": subprocess.PIPE, "bufsize": 0}
        self.process = subprocess.Popen([wreplay, "debug", *words], **how)
        self.took("threads", 1)

    def took(self, command, lines):
        """The milliseconds from a command to the last of so many lines of its answer."""
        begun = time.perf_counter()
        self.process.stdin.write(command.encode() + b"\n")
        while lines:
            lines -= self.process.stdout.read(65536).count(b"\n")
        return (time.perf_counter() - begun) * 1000


def median(times):
    return sorted(times)[len(times) // 2]


def main():
    if len(sys.argv) not in (3, 4):
        sys.exit(__doc__)
    wreplay, bench = sys.argv[1:3]
    events = int(sys.argv[3]) if len(sys.argv) == 4 else 10_000_000
    turns = STEPS // A_TURN + 1
    with tempfile.TemporaryDirectory() as folder:
        print("| continue | steps | million steps a second | part of the peer's speed |")
        print("|---|---:|---:|---:|")
        one, one_turn = log(folder, "one", turns, 1), log(folder, "one-turn", 1, 1)
        peer = turns * A_TURN / (least([bench, "machine", *one[:2]]) - least([bench, "machine", *one_turn[:2]]))
        print(f"| the peer, one thread | {turns * A_TURN:,} | {peer / 1e6:.0f} | 1.00 |")
        for threads in 1, 2:
            some, few = log(folder, "some", turns, threads), log(folder, "few", 1, threads)
            speed = threads * turns * A_TURN / (going(wreplay, some) - going(wreplay, few))
            print(f"| {threads} threads | {threads * turns * A_TURN:,} | {speed / 1e6:.0f} | {speed / peer:.2f} |")
        words, _ = long_log.files(folder, events // 2)
        session = Session(wreplay, words)
        places = random.Random(1).sample(range(2, events), POINTS)
        took = [(session.took(f"goto 0 {it}", 2), session.took("back", 2), session.took("writer 4", 1)) for it in places]
    print("| events | goto ms | back ms | writer ms |")
    print("|---:|---:|---:|---:|")
    print(f"| {events:,} |" + "".join(f" {median(times):.1f} |" for times in zip(*took)))


if __name__ == "__main__":
    main()
