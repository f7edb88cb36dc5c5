#!/usr/bin/env python3
"""Measures how fast `wreplay` records threads that run at once, and the memory that a long recording takes.

usage: threads.py PATH_OF_WREPLAY [EVENTS]

The modules are those of record.py. Threads that compute alone: the seconds of a recording by threads of one thread, of four that each
do the same, and of four programs of one thread each that run side by side, the least of ROUNDS, less those of one turn; and how many
times the steps a second of one thread the four make. The four programs share nothing, so they are what the machine has to give.
Threads that share a counter: four of them make EVENTS accesses (10,000,000 by default) between them, and the greatest
resident memory, less that of a recording of few events, is given for each event, once where the report is written and once
where the pieces are. Then ROUNDS logs of a tenth of these events are recorded, as many of a hundredth of them between which each
thread computes, and as many of threads that compute alone. The pieces of each are replayed by threads REPLAYS times, and the median of
these is set beside the seconds of just that recording: the medians of both, and the least and the greatest of the ratios. At last a
log of few events is replayed beside programs that each keep a processor busy, by threads and in turns. Seconds are those of the clock,
so nothing else should run; the last line says how much of the processors' time other machines took meanwhile, as the system counts it.
"""

import os
import statistics
import subprocess
import sys
import tempfile
import time

from record import module, written

ROUNDS = 5
REPLAYS = 3
FEW_EVENTS = 50_000
TURNS = 30_000_000
MOST = "1000000000"


def plan_of(folder, threads):
    return written(folder, f"{threads}.plan", b"wreplay plan 1\n" + b"thread run\n" * threads)


def recorded(wreplay, folder, wasm, threads, *more):
    """The seconds of a recording by threads, and its greatest resident memory in bytes."""
    plan = plan_of(folder, threads)
    start = time.monotonic()
    with open(os.path.join(folder, "out"), "wb") as out:
        process = subprocess.Popen([wreplay, "record", wasm, plan, "--threads", "--steps", MOST, *more], stdout=out)
        _, status, used = os.wait4(process.pid, 0)
    seconds = time.monotonic() - start
    if os.waitstatus_to_exitcode(status) != 0:
        sys.exit(f"record --threads: status {os.waitstatus_to_exitcode(status)}")
    return seconds, used.ru_maxrss * 1024


def timed(words):
    """The seconds of a command that is to be done."""
    start = time.monotonic()
    subprocess.run(words, stdout=subprocess.DEVNULL, check=True)
    return time.monotonic() - start


def logged(wreplay, folder, wasm, threads):
    """The seconds of a recording by threads, with its pieces, and the words that replay these in turns."""
    pieces = os.path.join(folder, "pieces")
    seconds = recorded(wreplay, folder, wasm, threads)[0]
    os.replace(os.path.join(folder, "out"), pieces)
    return seconds, [wreplay, "replay", wasm, plan_of(folder, threads), pieces]


def replayed(wreplay, folder, wasm, threads):
    """For each of some logs, the seconds of its recording by threads, and the median of those of its replays by threads."""
    pairs = []
    for _ in range(ROUNDS):
        seconds, words = logged(wreplay, folder, wasm, threads)
        pairs.append((seconds, statistics.median(timed([*words, "--threads"]) for _ in range(REPLAYS))))
    return pairs


def beside(words, busy):
    """The medians of the seconds of replays by threads, and in turns, beside so many programs that keep a processor busy each."""
    programs = [subprocess.Popen([sys.executable, "-c", "while True: pass"]) for _ in range(busy)]
    try:
        return [statistics.median(timed([*words, *more]) for _ in range(REPLAYS)) for more in (["--threads"], [])]
    finally:
        for program in programs:
            program.kill()
            program.wait()


def taken():
    """The time of all processors since the start, and what other machines took of it, in ticks."""
    with open("/proc/stat") as file:
        ticks = [int(word) for word in file.readline().split()[1:9]]
    return sum(ticks), ticks[7]


def least(wreplay, folder, wasm, threads):
    return min(recorded(wreplay, folder, wasm, threads, "--report")[0] for _ in range(ROUNDS))


def side_by_side(wreplay, folder, wasm, count):
    """The least seconds of so many programs that each record one thread."""
    words = [wreplay, "record", wasm, plan_of(folder, 1), "--threads", "--steps", MOST, "--report"]
    best = None
    for _ in range(ROUNDS):
        start = time.monotonic()
        processes = [subprocess.Popen(words, stdout=subprocess.DEVNULL) for _ in range(count)]
        if any(process.wait() != 0 for process in processes):
            sys.exit("record --threads failed")
        seconds = time.monotonic() - start
        best = seconds if best is None else min(best, seconds)
    return best


def main():
    if len(sys.argv) not in (2, 3):
        sys.exit(__doc__)
    before = taken()
    wreplay, events = sys.argv[1], int(sys.argv[2]) if len(sys.argv) == 3 else 10_000_000
    with tempfile.TemporaryDirectory() as folder:
        short = written(folder, "short.wasm", module(1, False))
        wasm = written(folder, "long.wasm", module(TURNS, False))
        one = least(wreplay, folder, wasm, 1) - least(wreplay, folder, short, 1)
        four = least(wreplay, folder, wasm, 4) - least(wreplay, folder, short, 4)
        apart = side_by_side(wreplay, folder, wasm, 4) - side_by_side(wreplay, folder, short, 4)
        print("| what records | turns of each thread | s | times the steps a second of one |")
        print("|---|---:|---:|---:|")
        print(f"| one thread | {TURNS:,} | {one:.2f} | 1 |")
        print(f"| four threads | {TURNS:,} | {four:.2f} | {4 * one / four:.2f} |")
        print(f"| four programs of one thread | {TURNS:,} | {apart:.2f} | {4 * one / apart:.2f} |")
        print()
        few = written(folder, "few.wasm", module(1, True))
        many = written(folder, "many.wasm", module(events // 8, True))
        print("| events of four threads | written | s | peak bytes an event |")
        print("|---:|---|---:|---:|")
        for name, more in [("report", ["--report"]), ("pieces", [])]:
            _, least_memory = recorded(wreplay, folder, few, 4, *more)
            seconds, memory = recorded(wreplay, folder, many, 4, *more)
            print(f"| {events:,} | {name} | {seconds:.2f} | {(memory - least_memory) / events:.1f} |")
        print()
        tenth = written(folder, "tenth.wasm", module(events // 80, True))
        print("| four threads | recording, s | replay by threads, s | times the recording's speed |")
        print("|---|---:|---:|---:|")
        apart = written(folder, "apart.wasm", module(events // 800, True, 1_000))
        logs = [("that compute alone", wasm), (f"of {events // 100:,} events on one counter, 7,000 steps apart", apart)]
        for name, path in [*logs, (f"of {events // 10:,} events on one counter", tenth)]:
            pairs = replayed(wreplay, folder, path, 4)
            record, replay = (statistics.median(seconds) for seconds in zip(*pairs))
            ratios = [record / replay for record, replay in pairs]
            print(f"| {name} | {record:.2f} | {replay:.2f} | {min(ratios):.2f} to {max(ratios):.2f} |")
        print()
        _, words = logged(wreplay, folder, written(folder, "little.wasm", module(FEW_EVENTS // 8, True)), 4)
        print(f"| busy programs beside a replay of {FEW_EVENTS:,} events | by threads, s | in turns, s |")
        print("|---:|---:|---:|")
        for busy in range(os.cpu_count() + 1):
            by_threads, in_turns = beside(words, busy)
            print(f"| {busy} | {by_threads:.2f} | {in_turns:.2f} |")
    ticks, others = (now - then for now, then in zip(taken(), before))
    print(f"\nOther machines took {100 * others / ticks:.1f} of a hundred parts of the processors' time.")


if __name__ == "__main__":
    main()
