#!/usr/bin/env python3
"""Records runs by threads, replays each, and counts how often an update was lost.

usage: recordings.py PATH_OF_WREPLAY [TIMES]

Three modules are recorded TIMES times (1,000 without a number): two threads that add to a counter, those of `examples/lost`, which
load, add and store, and those of the worked rows' counter, which add by one access; and the C example, `examples/hunt`, whose third
thread adds up what it takes of a queue. Each recording is replayed from its pieces by three orders and by threads, and the four
reports must be one. It prints, for each module, how many recordings were replayed, how often an update was lost, and how often each
report came: the last line alone of those of the C example, with its sum.
"""

import collections
import os
import subprocess
import sys
import tempfile

HERE = os.path.dirname(os.path.abspath(__file__))
LOST = os.path.join(HERE, "..", "examples", "lost")
COUNTER = os.path.join(HERE, "..", "crates", "worked_rows", "data", "counter")
QUEUE = os.path.join(HERE, "..", "examples", "hunt", "queue")
# What is recorded, with which options, what stands in a report of no lost update, and from which line on a report is shown.
MODULES = [
    (LOST, [], "\n00000000 02", 1),
    (COUNTER, [], "\n00000000 04", 1),
    (QUEUE, ["--size", "16"], "\nthread 2 i32 303\n", -1),
]
ORDERS = [[], ["--order", "1,0,1,0,1"], ["--order", "0,0,0,0,1"], ["--threads"]]


def run(words):
    """What a command writes; it must be done."""
    done = subprocess.run(words, capture_output=True)
    if done.returncode != 0 or done.stderr:
        sys.exit("%s: exit %d, %s" % (" ".join(words), done.returncode, done.stderr.decode()))
    return done.stdout


def replayed(program, files, pieces):
    """The one report of a recording's replays."""
    reports = {run([program, "replay", *files, pieces, *order]) for order in ORDERS}
    if len(reports) != 1:
        sys.exit("replays of %s differ" % pieces)
    return reports.pop().decode()


def main():
    program = sys.argv[1]
    times = int(sys.argv[2]) if len(sys.argv) > 2 else 1000
    with tempfile.TemporaryDirectory() as folder:
        pieces = os.path.join(folder, "pieces")
        for path, options, whole, first in MODULES:
            files = [path + ".wasm", path + ".plan"]
            reports = collections.Counter()
            for _ in range(times):
                with open(pieces, "wb") as out:
                    out.write(run([program, "record", *files, "--threads", *options]))
                reports[replayed(program, files, pieces)] += 1
            lost = sum(n for text, n in reports.items() if whole not in text)
            print("%s: %d recordings, each with one report in %d replays, %d of them with a lost update" % (os.path.basename(path), times, len(ORDERS), lost))
            shown = collections.Counter()
            for text, n in reports.items():
                shown["; ".join(text.strip().split("\n")[first:])] += n
            for text, n in shown.most_common():
                print("%6d  %s" % (n, text))


main()
