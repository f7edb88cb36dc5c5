#!/usr/bin/env python3
"""Records and replays programs of which one thread ends before others have begun, and programs of which no thread can be made.

usage: early_ends.py PROGRAM [--count N]

A thread that ends early stops no other: a program that can come to one end alone comes to it in each of N recordings (1,000), beside
nothing and beside eight programs that only compute, and a replay by threads beside such a thread takes about as long as without it.
Where the system makes no thread at all, what threads leave undone is done in rounds, and the recording has an end that can be.
"""

import argparse
import os
import resource
import statistics
import subprocess
import sys
import tempfile
import time

# `a` waits at 0 without a limit of time, and then at 8, at most a nanosecond; `b` wakes one at 0 until one was woken; `c` ends at once.
EARLY = bytes.fromhex(
    "0061736d010000000108026000017f600000030403000001050401030101070d03016100000162000101630002"
    "0a2f03170041004100427ffe0102001a410841004201fe0102000b1200034041004101fe000200450d000b41000b02000b"
)
NOBODY = 65534


def section(number, content):
    return bytes([number]) + leb(len(content)) + content


def leb(number):
    out = b""
    while number > 0x7F:
        out += bytes([number & 0x7F | 0x80])
        number >>= 7
    return out + bytes([number])


def counters(count):
    """A module whose `w` adds 1 at address 0 so often, in a loop, and whose `c` ends at once."""
    body = bytes.fromhex("01017f 0340 41004101fe1e02001a 200041016a2200".replace(" ", ""))
    body += b"\x41" + signed(count) + bytes.fromhex("480d000b0b")
    bodies = leb(len(body)) + body + b"\x02\x00\x0b"
    out = b"\0asm\1\0\0\0" + section(1, bytes.fromhex("01600000")) + section(3, bytes.fromhex("020000"))
    out += section(5, bytes.fromhex("01030101")) + section(7, b"\x02\x01w\x00\x00\x01c\x00\x01")
    return out + section(10, b"\x02" + bodies)


def signed(number):
    out = b""
    while True:
        byte, number = number & 0x7F, number >> 7
        if number == 0 and byte < 0x40:
            return out + bytes([byte])
        out += bytes([byte | 0x80])


def as_nobody():
    """A user who may have this process and no thread besides."""
    resource.setrlimit(resource.RLIMIT_NPROC, (1, 1))
    os.setgid(NOBODY)
    os.setuid(NOBODY)


def run(words, **how):
    made = subprocess.run(words, capture_output=True, **how)
    if made.returncode:
        sys.exit(f"{' '.join(words[1:3])}: status {made.returncode}: {made.stderr.decode()}")
    return made.stdout


def record_early(program, folder, count):
    """How many of so many recordings come to the one end that there is."""
    words = [program, "record", f"{folder}/early.wasm", f"{folder}/early.plan", "--threads", "--timeouts", "now", "--report"]
    return sum(b"thread 0 i32 2\n" in run(words) for _ in range(count))


def replay_time(program, folder, plan):
    """How long a replay by threads of a recording takes, by the median of five."""
    module, pieces = f"{folder}/counters.wasm", f"{folder}/pieces"
    with open(pieces, "wb") as file:
        file.write(run([program, "record", module, plan, "--threads", "--steps", "1000000000"]))
    times = []
    for _ in range(5):
        begun = time.monotonic()
        run([program, "replay", module, plan, pieces, "--threads"])
        times.append(time.monotonic() - begun)
    return statistics.median(times)


def record_alone(program, folder):
    """A recording where the system makes no thread."""
    if os.geteuid() != 0:
        return "not tried, as only root can take a user's threads away"
    words = [program, "record", f"{folder}/early.wasm", f"{folder}/early.plan", "--threads", "--timeouts", "now", "--report"]
    report = run(words, preexec_fn=as_nobody).decode()
    return ", ".join(report.splitlines()[1:])


def write(path, data):
    with open(path, "wb") as file:
        file.write(data)


def main():
    parser = argparse.ArgumentParser()
    parser.add_argument("program")
    parser.add_argument("--count", type=int, default=1000)
    asked = parser.parse_args()
    program = os.path.abspath(asked.program)
    with tempfile.TemporaryDirectory() as folder:
        os.chmod(folder, 0o755)
        write(f"{folder}/early.wasm", EARLY)
        write(f"{folder}/early.plan", b"wreplay plan 1\nthread a\nthread b\nthread c\n")
        write(f"{folder}/counters.wasm", counters(20000))
        write(f"{folder}/three.plan", b"wreplay plan 1\n" + b"thread w\n" * 3)
        write(f"{folder}/four.plan", b"wreplay plan 1\n" + b"thread w\n" * 3 + b"thread c\n")
        alone = record_early(program, folder, asked.count)
        busy = [subprocess.Popen([sys.executable, "-c", "while True: pass"]) for _ in range(8)]
        beside = record_early(program, folder, asked.count)
        for one in busy:
            one.kill()
        three, four = (replay_time(program, folder, f"{folder}/{plan}.plan") for plan in ("three", "four"))
        print(f"recordings that came to the one end: {alone} of {asked.count}, beside eight busy programs {beside} of {asked.count}")
        print(f"replay of three counters {three:.2f} s, beside a thread that ends at once {four:.2f} s")
        print(f"no thread made: {record_alone(program, folder)}")
        if alone != asked.count or beside != asked.count:
            sys.exit(1)


main()
