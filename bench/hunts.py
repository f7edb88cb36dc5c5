#!/usr/bin/env python3
"""Times hunts on the shipped hunt of examples/hunt.

usage: hunts.py PATH_OF_WREPLAY [RUNS]

Lists RUNS runs (1,000) that numbers draw, by one job, two and four, and counts those whose sum is wrong: all jobs must list the same.
Beside it, what people do without `hunt`: a loop of the shell over `record --threads` and `gather`, of a tenth of the runs.
"""

import os
import subprocess
import sys
import time

HERE = os.path.join(os.path.dirname(os.path.abspath(__file__)), "..", "examples", "hunt")
FILES = [os.path.join(HERE, "queue.wasm"), os.path.join(HERE, "queue.plan")]
RIGHT = "i32 303"
LOOP = 'n=0; while [ $n -lt %d ]; do n=$((n+1)); "%s" record %s %s --threads --size 16 | "%s" gather | grep "^2 end"; done'


def timed(words):
    begin = time.monotonic()
    done = subprocess.run(words, stdout=subprocess.PIPE, check=True)
    return time.monotonic() - begin, done.stdout.decode().splitlines()


def main():
    program = os.path.abspath(sys.argv[1])
    runs = int(sys.argv[2]) if len(sys.argv) > 2 else 1000
    lists, rows = [], []
    for jobs in (1, 2, 4):
        seconds, lines = timed([program, "hunt", *FILES, "--list", "--runs", str(runs), "--jobs", str(jobs)])
        lists.append(lines)
        rows.append((f"hunt, jobs {jobs}", runs, seconds, sum(not line.endswith(RIGHT) for line in lines)))
    if any(lines != lists[0] for lines in lists):
        sys.exit("hunts by other numbers of jobs list other runs")
    few = runs // 10
    seconds, lines = timed(["sh", "-c", LOOP % (few, program, *FILES, program)])
    rows.append(("loop of record --threads and gather", few, seconds, sum(not line.endswith(RIGHT) for line in lines)))
    print("| what | runs | runs a second | times one job | wrong sums |")
    print("|---|---:|---:|---:|---:|")
    one = rows[0][1] / rows[0][2]
    for name, count, seconds, wrong in rows:
        print(f"| {name} | {count:,} | {count / seconds:,.0f} | {count / seconds / one:.2f} | {wrong} |")


main()
