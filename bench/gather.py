#!/usr/bin/env python3
"""Measures `wreplay gather` against a program that decodes the same digits and does nothing more.

usage: gather.py PATH_OF_WREPLAY [MB..]

First it measures piece lines of several sizes, then entries of one read each, then 1,000,000 pieces of one entry each in
four orders. For each size it writes the log of one made-up run of 16 threads as piece lines, in a temporary folder: pieces of 4,096
entries, each entry with one or two touches, an end on each thread's last piece, the lines in an order drawn from a fixed
seed, a tenth of them repeated. MB are 1,000,000 bytes of that text. Then it times, best of three each, how long `gather`
and the peer take from that file to /dev/null, and prints a line of the table. It ends with status 1 where `gather`
failed, or its listing does not end in the counts that the log has.

Entries of one read are lines of the same kind, of 30 MB. Pieces of one entry come in the order of their places, in the
reverse order, in an order drawn from a fixed seed, and with every second place first.
"""

import os
import random
import shutil
import struct
import subprocess
import sys
import tempfile
import time

THREADS = 16
PIECE_ENTRIES = 4096
OBJECTS = 32769
RUNS = 3
SEED = 20
SINGLES = 1_000_000
COUNTS = b"ends 16 missing 0 strays 0 clashes 0\n"
NO_ENDS = b"ends 0 missing 0 strays 0 clashes 0\n"
HEAD = b"IRP\x01" + b"\xaa" * 32 + struct.pack("<Q", 1)
READ = struct.Struct("<IBQ")
WRITE = struct.Struct("<IBQQ")
# What an entry has on average: kind, count, and one and a half touches, half of them writes. Two digits a byte.
ENTRY_DIGITS = 2 * (2 + 1.5 * (READ.size + WRITE.size) / 2)
READ_DIGITS = 2 * (2 + READ.size)


def touch(draw, versions, reads, block):
    """The bytes of a touch of an object, by the versions and read totals of the run so far."""
    if draw.random() < 0.5:
        reads[block] += 1
        return READ.pack(block, 0, versions[block])
    written = WRITE.pack(block, 1, versions[block], reads[block])
    versions[block] += 1
    reads[block] = 0
    return written


def entry(draw, versions, reads):
    """The bytes of an entry: an access of one object or of two neighbours."""
    block = int(draw.random() * (OBJECTS - 1))
    if draw.random() < 0.5:
        return b"\x00\x01" + touch(draw, versions, reads, block)
    return b"\x00\x02" + touch(draw, versions, reads, block) + touch(draw, versions, reads, block + 1)


def thread_lines(thread, entries):
    """The lines of a thread's pieces; the last piece has the thread's end."""
    lines = []
    for first in range(0, len(entries), PIECE_ENTRIES):
        part = entries[first : first + PIECE_ENTRIES]
        is_last = first + PIECE_ENTRIES >= len(entries)
        fields = struct.pack("<BIHB", thread, first, len(part), is_last)
        end = struct.pack("<IIB", 4 * len(entries), len(entries), 2) if is_last else b""
        lines.append((HEAD + fields + b"".join(part) + end).hex().encode() + b"\n")
    return lines


def thread_entries(size, digits=ENTRY_DIGITS):
    """How many entries each thread has where all lines have some `size` bytes."""
    return max(1, round(size / 1.1 / digits / THREADS))


def shuffled(draw, logs):
    """The lines of the threads' pieces, a tenth of them repeated, in an order that is drawn."""
    lines = [line for thread, log in enumerate(logs) for line in thread_lines(thread, log)]
    lines += draw.sample(lines, max(1, len(lines) // 10))
    draw.shuffle(lines)
    return lines


def run_lines(size):
    """The lines of a run, some `size` bytes in all."""
    draw = random.Random(SEED)
    versions = [0] * OBJECTS
    reads = [0] * OBJECTS
    logs = [[] for _ in range(THREADS)]
    for _ in range(thread_entries(size)):
        for log in logs:
            log.append(entry(draw, versions, reads))
    return shuffled(draw, logs)


def read_lines(size):
    """The lines of a run whose entries are one read each, some `size` bytes in all."""
    draw = random.Random(SEED)
    count = thread_entries(size, READ_DIGITS)
    logs = [
        [b"\x00\x01" + READ.pack(draw.randrange(OBJECTS), 0, draw.randrange(100_000)) for _ in range(count)]
        for _ in range(THREADS)
    ]
    return shuffled(draw, logs)


def single_lines(order):
    """A line for each place of one thread, in an order of them."""
    return [
        (HEAD + struct.pack("<BIHB", 0, place, 1, 0) + b"\x00\x01" + READ.pack(place % 1000, 0, place)).hex().encode() + b"\n"
        for place in order
    ]


def drawn_order():
    """The places in an order that is drawn."""
    places = list(range(SINGLES))
    random.Random(SEED).shuffle(places)
    return places


# The orders in which pieces of one entry come: each is made in the process that writes the lines.
ORDERS = {
    "in order": lambda: range(SINGLES),
    "reversed": lambda: reversed(range(SINGLES)),
    "shuffled": drawn_order,
    "every second place first": lambda: [*range(0, SINGLES, 2), *range(1, SINGLES, 2)],
}


def timed(command, source, sink):
    """The seconds of wall time that a command took, its peak resident memory in bytes, and its exit status."""
    with open(source, "rb") as stdin, open(sink, "wb") as stdout:
        start = time.perf_counter()
        process = subprocess.Popen(command, stdin=stdin, stdout=stdout)
        _, status, usage = os.wait4(process.pid, 0)
        seconds = time.perf_counter() - start
    process.returncode = os.waitstatus_to_exitcode(status)
    unit = 1 if sys.platform == "darwin" else 1024
    return seconds, usage.ru_maxrss * unit, process.returncode


def best(command, source):
    """The least seconds and the greatest memory of some runs of a command; it leaves where one fails."""
    runs = [timed(command, source, os.devnull) for _ in range(RUNS)]
    if any(status != 0 for _, _, status in runs):
        sys.exit(f"{command[0]}: exit status {[status for _, _, status in runs]}")
    return min(seconds for seconds, _, _ in runs), max(memory for _, memory, _ in runs)


def peer():
    """What decodes hexadecimal lines and does nothing more: its name and its command."""
    if shutil.which("xxd"):
        return "xxd", ["xxd", "-r", "-p"]
    # The same work in the host's C code: a line in, its bytes out.
    decode = "import sys\nfor line in sys.stdin.buffer: sys.stdout.buffer.write(bytes.fromhex(line.decode()))"
    return "python3 bytes.fromhex (no xxd here)", [sys.executable, "-c", decode]


def check(command, source, listing, counts=COUNTS):
    """Leaves where the listing of a file does not end in these counts."""
    _, _, status = timed(command, source, listing)
    with open(listing, "rb") as file:
        file.seek(-min(os.path.getsize(listing), 200), os.SEEK_END)
        last = file.read().splitlines(keepends=True)[-1:]
    os.remove(listing)
    if status != 0 or last != [counts]:
        sys.exit(f"gather: exit status {status}, the listing ends in {last}")


def write_lines(path, lines):
    """Writes the lines that a function makes to a file. A process of its own does so: the memory that a process is
    said to have had counts what its parent had when it started."""
    child = os.fork()
    if child == 0:
        status = 1
        try:
            with open(path, "wb") as file:
                file.writelines(lines())
            status = 0
        finally:
            os._exit(status)
    _, status = os.waitpid(child, 0)
    if status != 0:
        sys.exit("the lines were not written")


def measure(gather, other, size, folder):
    """Measures one size and prints its line of the table."""
    source = os.path.join(folder, "pieces")
    write_lines(source, lambda: run_lines(size))
    text = os.path.getsize(source)
    decoded = text // 2
    check(gather, source, os.path.join(folder, "listing"))
    other_seconds, _ = best(other, source)
    seconds, memory = best(gather, source)
    print(
        f"| {text / 1e6:.1f} | {THREADS * thread_entries(size):,} | {other_seconds:.3f} | {seconds:.3f} "
        f"| {other_seconds / seconds:.2f} | {memory / 1e6:.0f} | {memory / decoded:.1f} | {seconds / (text / 1e6):.4f} |",
        flush=True,
    )


def measure_reads(gather, other, folder):
    """Measures entries of one read each and prints their line."""
    source = os.path.join(folder, "pieces")
    size = 30_000_000
    write_lines(source, lambda: read_lines(size))
    check(gather, source, os.path.join(folder, "listing"))
    other_seconds, _ = best(other, source)
    seconds, memory = best(gather, source)
    decoded = os.path.getsize(source) / 2
    print(
        f"\nentries of one read, {os.path.getsize(source) / 1e6:.1f} MB: peer {other_seconds:.3f} s, gather {seconds:.3f} s, "
        f"{other_seconds / seconds:.2f} of the peer's speed, peak {memory / decoded:.1f} times the decoded bytes",
        flush=True,
    )


def measure_singles(gather, folder):
    """Measures pieces of one entry each, in four orders, and prints a table."""
    print("\n| 1,000,000 pieces of one entry | gather s | ratio to in order | peak MB |\n|---|---:|---:|---:|")
    source = os.path.join(folder, "pieces")
    in_order = None
    for name, order in ORDERS.items():
        write_lines(source, lambda order=order: single_lines(order()))
        check(gather, source, os.path.join(folder, "listing"), NO_ENDS)
        seconds, memory = best(gather, source)
        in_order = in_order or seconds
        print(f"| {name} | {seconds:.3f} | {seconds / in_order:.2f} | {memory / 1e6:.0f} |", flush=True)


def main(words):
    if not words:
        sys.exit("usage: gather.py PATH_OF_WREPLAY [MB..]")
    gather = [os.path.abspath(words[0]), "gather"]
    sizes = [float(word) for word in words[1:]] or [10, 30, 100]
    name, other = peer()
    print(f"peer: {name}; best of {RUNS} runs each; MB are 1,000,000 bytes\n")
    print("| MB | entries | peer s | gather s | gather speed / peer speed | peak MB | peak / decoded bytes | gather s per MB |")
    print("|---:|---:|---:|---:|---:|---:|---:|---:|")
    with tempfile.TemporaryDirectory() as folder:
        for size in sizes:
            measure(gather, other, round(size * 1e6), folder)
        measure_reads(gather, other, folder)
        measure_singles(gather, folder)


if __name__ == "__main__":
    main(sys.argv[1:])
