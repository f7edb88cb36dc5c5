#!/usr/bin/env python3
"""Compares runs by groups of instructions with runs step by step, over random modules and cuts.

usage: cuts.py PROGRAM [WREPLAY_BENCH] [--count N] [--from SEED]

Each of N modules (20,000) has a random function over locals, a memory, blocks, loops, branches and calls; its number is the seed that
makes it. It is recorded up to a random number of steps by three schedules: in one stretch, cut at random places, and step by step, where
a thread that has ended is picked between two steps. A stretch is made by groups, a single step is made plainly. All three must write
the same pieces and the same report, and so must a replay of the pieces in turns and by threads.

Of every fourth module more is compared, of a thread that is stopped behind a random number of its steps, most often while it runs:
- the view of the longer recording, whose replay is stopped there: the steps and accesses, where the thread and its callers stand,
  versions, reads and bytes. The view of the end of a recording of so many single steps must show the same;
- its locals, globals and operands, which no view shows: a recording that goes there in one stretch, and from there to the thread's end
  (or 3,000 steps) by single steps, must write the same pieces and report as one by one stretch and as one by single steps;
- where WREPLAY_BENCH is given, the end of a recording of that thread with no other, in one stretch: where it comes within 100,000
  steps, `WREPLAY_BENCH machine` must write the same steps and the same outcome.

It prints up to how many steps were asked for, how the threads ended, and what was compared, and ends with status 1 and the number of
the module at the first that differ.
"""

import argparse
import collections
import os
import random
import subprocess
import sys
import tempfile

I32, I64 = 0x7F, 0x7E
CONST = {I32: 0x41, I64: 0x42}
BINARY = {I32: range(0x6A, 0x79), I64: range(0x7C, 0x8B)}
COMPARE = {I32: range(0x46, 0x50), I64: range(0x51, 0x5B)}
COUNT_BITS = {I32: range(0x67, 0x6A), I64: range(0x79, 0x7C)}
SIGNS = {I32: (0xC0, 0xC1), I64: (0xC2, 0xC3, 0xC4)}
LOADS = {I32: (0x28, 0x2C, 0x2D, 0x2E, 0x2F), I64: (0x29, 0x30, 0x31, 0x32, 0x33, 0x34, 0x35)}
STORES = {I32: (0x36, 0x3A, 0x3B), I64: (0x37, 0x3C, 0x3D, 0x3E)}
PLAN = "wreplay plan 1\nthread run\nthread idle\n"
ALONE_PLAN = "wreplay plan 1\nthread run\n"
# Of one module of so many more is compared, and so many bytes are shown.
STOPPED = 4
SHOWN = 4608
# The steps behind a stretch that are compared at most, and those of a thread alone.
FURTHER = 3000
MOST_ALONE = 100_000


def leb(number):
    out = bytearray()
    while number > 0x7F:
        out.append(number & 0x7F | 0x80)
        number >>= 7
    return bytes(out) + bytes([number])


def signed(number):
    out = bytearray()
    while True:
        byte, number = number & 0x7F, number >> 7
        if number == (-1 if byte & 0x40 else 0):
            return bytes(out) + bytes([byte])
        out.append(byte | 0x80)


def section(number, content):
    return bytes([number]) + leb(len(content)) + content


def vector(items):
    return leb(len(items)) + b"".join(items)


class Function:
    """The body of a function with one parameter of type i32 and a result of type i32."""

    def __init__(self, draw, calls):
        self.draw = draw
        self.calls = calls
        self.locals = [I32] + [draw.choice((I32, I32, I64)) for _ in range(draw.randint(2, 7))]
        self.size = draw.randint(5, 60)

    def local_of(self, kind):
        return self.draw.choice([at for at, it in enumerate(self.locals) if it == kind] or [None])

    def constant(self, kind):
        width = 32 if kind == I32 else 64
        value = self.draw.choice((self.draw.randint(-4, 4), self.draw.randint(-200, 70000), self.draw.getrandbits(width) - (1 << width - 1)))
        return bytes([CONST[kind]]) + signed(value)

    def value(self, kind, depth):
        draw = self.draw
        at = self.local_of(kind)
        if depth == 0 or draw.random() < 0.3:
            return b"\x20" + leb(at) if at is not None and draw.random() < 0.7 else self.constant(kind)
        form = draw.randrange(12)
        if form < 5:
            return self.value(kind, depth - 1) + self.value(kind, draw.choice((0, depth - 1))) + bytes([draw.choice(BINARY[kind])])
        if form == 5 and kind == I32:
            of = draw.choice((I32, I64))
            return self.value(of, depth - 1) + self.value(of, 0) + bytes([draw.choice(COMPARE[of])])
        if form == 6:
            return self.address(depth) + bytes([draw.choice(LOADS[kind]), 0]) + leb(draw.choice((0, 8, draw.randint(0, 65600))))
        if form == 7:
            return self.value(kind, depth - 1) + self.value(kind, 0) + self.value(I32, depth - 1) + b"\x1b"
        if form == 8 and kind == I32:
            return draw.choice((lambda: self.value(I64, depth - 1) + b"\xa7", lambda: self.value(I32, depth - 1) + b"\x45"))()
        if form == 8:
            return self.value(I32, depth - 1) + draw.choice((b"\xac", b"\xad"))
        if form == 9 and at is not None:
            return self.value(kind, depth - 1) + b"\x22" + leb(at)
        if form == 10 and self.calls and kind == I32:
            return self.value(I32, depth - 1) + b"\x10" + leb(draw.choice(self.calls))
        if form == 11:
            return b"\x23" + leb(0 if kind == I32 else 1)
        return self.value(kind, depth - 1) + bytes([draw.choice((*COUNT_BITS[kind], *SIGNS[kind]))])

    def address(self, depth):
        return self.value(I32, depth - 1) + (b"" if self.draw.random() < 0.02 else b"\x41" + signed(4095) + b"\x71")

    def statement(self, labels):
        """A statement within so many labels of blocks without result."""
        draw = self.draw
        self.size -= 1
        form = draw.randrange(14)
        kind = draw.choice((I32, I32, I64))
        at = self.local_of(kind)
        if form < 4 and at is not None:
            return self.value(kind, 2) + b"\x21" + leb(at)
        if form < 6:
            return self.address(2) + self.value(kind, 1) + bytes([draw.choice(STORES[kind]), 0]) + leb(draw.choice((0, 16)))
        if form == 6 and labels:
            return self.value(I32, 2) + b"\x0d" + leb(draw.randrange(labels))
        if form == 7 and labels:
            return self.value(I32, 1) + b"\x04\x40\x0c" + leb(draw.randrange(labels + 1)) + b"\x0b"
        if form == 8 and labels:
            return self.value(I32, 1) + b"\x0e" + vector([leb(draw.randrange(labels)) for _ in range(draw.randint(0, 3))]) + leb(draw.randrange(labels))
        if form == 9:
            return b"\x02\x40" + self.statements(labels + 1) + b"\x0b"
        if form == 10:
            arms = self.statements(labels + 1), self.statements(labels + 1)
            return self.value(I32, 2) + b"\x04\x40" + (b"\x05".join(arms) if draw.random() < 0.6 else arms[0]) + b"\x0b"
        if form == 11:
            return self.loop(labels)
        if form == 12:
            return self.value(kind, 2) + draw.choice((b"\x1a", b"\x24" + leb(0 if kind == I32 else 1)))
        return b"\x01" if draw.random() < 0.97 else self.value(I32, 1) + b"\x0f"

    def loop(self, labels):
        """A loop that goes round a few times, by a local of its own."""
        at = len(self.locals)
        self.locals.append(0)  # no statement finds it
        body = self.statements(labels + 1)
        round_again = b"\x20" + leb(at) + b"\x41\x01\x6b\x22" + leb(at) + b"\x0d\x00"
        return b"\x41" + signed(self.draw.randint(1, 12)) + b"\x21" + leb(at) + b"\x03\x40" + body + round_again + b"\x0b"

    def statements(self, labels):
        out = b""
        for _ in range(self.draw.randint(0, 4)):
            if self.size <= 0 or labels > 6:
                break
            code = self.statement(labels)
            out += code
        return out

    def body(self):
        out = b""
        while self.size > 0:
            out += self.statement(0)
        out += self.value(I32, 2) + b"\x0b"
        kinds = [bytes([1, it or I32]) for it in self.locals[1:]]
        code = vector(kinds) + out
        return leb(len(code)) + code


def module(seed):
    draw = random.Random(seed)
    count = draw.randint(0, 2)
    bodies = [Function(draw, list(range(2, 2 + at)) if at else []).body() for at in range(count)]
    run = Function(draw, list(range(2, 2 + count))).body()
    types = vector([b"\x60\x01\x7f\x01\x7f", b"\x60\x00\x00", b"\x60\x00\x01\x7f"])
    start = b"\x41" + signed(draw.randint(-9, 9)) + b"\x10" + leb(2 + count) + b"\x0b"
    functions = [b"\x02", b"\x01"] + [b"\x00"] * (count + 1)
    code = [leb(len(start) + 1) + b"\x00" + start, b"\x02\x00\x0b"] + bodies + [run]
    numbers = b"\x7f\x01\x41" + signed(draw.randint(-99, 99)) + b"\x0b", b"\x7e\x01\x42" + signed(draw.randint(-99, 99)) + b"\x0b"
    return (
        b"\0asm\1\0\0\0" + section(1, types) + section(3, vector(functions)) + section(5, b"\x01\x03\x01\x01")
        + section(6, vector(numbers)) + section(7, b"\x02\x03run\x00\x00\x04idle\x00\x01") + section(10, vector(code))
    )


def schedules(draw, steps):
    """One stretch, random cuts, and single steps; the other thread ends first."""
    cut, left = "", steps
    while left > 0:
        stretch = min(left, draw.choice((1, 2, 3, 4, 5, 6, 7, draw.randint(1, 100))))
        cut += f"go 0 {stretch}\ngo 1 1\n"
        left -= stretch
    return [f"go 1 1\ngo 0 {steps}\n", "go 1 1\n" + cut, "go 1 1\n" + "go 0 1\ngo 1 1\n" * steps]


def written(folder, name, content):
    path = os.path.join(folder, name)
    with open(path, "wb") as file:
        file.write(content if isinstance(content, bytes) else content.encode())
    return path


def written_by(words):
    done = subprocess.run(words, capture_output=True, check=False)
    if done.returncode != 0:
        sys.exit(f"{' '.join(words)}: {done.stderr.decode()}")
    return done.stdout


def recorded(program, files, steps, more):
    return written_by([program, "record", *files[:2], "--schedule", files[2], "--steps", str(steps), *more])


def report_and_pieces(program, files, steps):
    return recorded(program, files, steps, ["--report"]), recorded(program, files, steps, [])


class Compared:
    """What was compared of a thread that was stopped, and how often."""

    def __init__(self, program, bench, folder):
        self.program, self.bench, self.folder = program, bench, folder
        self.plan = written(folder, "plan", PLAN)
        self.alone_plan = written(folder, "alone.plan", ALONE_PLAN)
        self.counts = collections.Counter()

    def record(self, wasm, schedule, steps):
        return report_and_pieces(self.program, (wasm, self.plan, written(self.folder, "stopped.schedule", schedule)), steps)

    def view(self, wasm, pieces, more):
        """The lines of a view, but for why it stopped and for thread 1, which may stand before its one step."""
        path = written(self.folder, "stopped.pieces", pieces)
        words = [self.program, "view", wasm, self.plan, path, "--names", "--len", str(SHOWN), *more]
        return [it for it in written_by(words).decode().splitlines()[1:] if not it.startswith("thread 1")]

    def views(self, wasm, pieces, stop):
        """Whether the view of a step of the pieces shows what single steps come to."""
        shown = self.view(wasm, pieces, ["--step", f"0.{stop}"])
        _, single = self.record(wasm, "go 1 1\n" + "go 0 1\ngo 1 1\n" * stop, stop)
        self.counts["views of a step"] += 1
        thread = shown[0].split()
        if "running" in thread:
            self.counts["of these of a thread that runs"] += 1
            self.counts["of these within a called function"] += thread.count("from") > 1
        return shown == self.view(wasm, single, [])

    def goes_on(self, wasm, stop):
        """Whether single steps behind a stretch come to what one stretch and single steps alone come to."""
        steps = stop + FURTHER
        singles = "go 0 1\ngo 1 1\n"
        stretch = f"go 1 1\ngo 0 {stop}\n" + singles * FURTHER
        answers = [self.record(wasm, it, steps) for it in (stretch, f"go 1 1\ngo 0 {steps}\n", "go 1 1\n" + singles * steps)]
        self.counts["stretches with single steps behind them"] += 1
        self.counts["of these up to the thread's end"] += b"thread 0 running" not in answers[0][0]
        return answers[0] == answers[1] == answers[2]

    def alone(self, wasm):
        """Whether the thread alone comes to the end of its recording."""
        if self.bench is None:
            return True
        schedule = written(self.folder, "alone.schedule", f"go 0 {MOST_ALONE}\n")
        pieces = recorded(self.program, (wasm, self.alone_plan, schedule), MOST_ALONE, [])
        path = written(self.folder, "alone.pieces", pieces)
        view = written_by([self.program, "view", wasm, self.alone_plan, path, "--len", "0"]).decode().splitlines()[1].split()
        if view[6] == "running":
            self.counts["threads that did not end alone"] += 1
            return True
        self.counts["threads alone"] += 1
        return written_by([self.bench, "machine", wasm, self.alone_plan]).decode().split() == [view[3]] + view[6:]

    def differ(self, draw, wasm, pieces, steps):
        """What differs of the thread; None where nothing does."""
        stop = draw.randint(1, steps)
        if not self.views(wasm, pieces, stop):
            return f"the views of step {stop} differ"
        if not self.goes_on(wasm, stop):
            return f"the runs behind step {stop} differ"
        if not self.alone(wasm):
            return "the thread alone differs"
        return None


def pieces_of(program, files, draw, steps):
    """The report and the pieces that all schedules write, and the replays; or what differs."""
    wasm, plan, folder = files
    answers = []
    for text in schedules(draw, steps):
        answers.append(report_and_pieces(program, (wasm, plan, written(folder, "schedule", text)), steps))
    if answers[0] != answers[1] or answers[0] != answers[2]:
        return answers[0], "the runs differ"
    pieces = written(folder, "pieces", answers[0][1])
    for more in [], ["--threads"]:
        if written_by([program, "replay", wasm, plan, pieces, *more]) != answers[0][0]:
            return answers[0], f"the replay {' '.join(more)} differs"
    return answers[0], None


def main():
    words = argparse.ArgumentParser(description=__doc__.split("\n", 1)[0])
    words.add_argument("program")
    words.add_argument("bench", nargs="?")
    words.add_argument("--count", type=int, default=20000)
    words.add_argument("--from", type=int, default=0, dest="first")
    asked = words.parse_args()
    ends, all_steps = collections.Counter(), 0
    with tempfile.TemporaryDirectory() as folder:
        compared = Compared(asked.program, asked.bench, folder)
        for seed in range(asked.first, asked.first + asked.count):
            draw = random.Random(-1 - seed)
            steps = draw.choice((draw.randint(1, 60), draw.randint(1, 3000)))
            wasm = written(folder, "module.wasm", module(seed))
            (report, pieces), fault = pieces_of(asked.program, (wasm, compared.plan, folder), draw, steps)
            if fault is None and seed % STOPPED == 0:
                fault = compared.differ(draw, wasm, pieces, steps)
            if fault is not None:
                sys.exit(f"module {seed} up to step {steps}: {fault}")
            line = next(it for it in report.decode().splitlines() if it.startswith("thread 0"))
            ends[" ".join(line.split()[2:4]) if "trap" in line else line.split()[2]] += 1
            all_steps += steps
    print(f"{asked.count} modules, {all_steps} steps at most, as they ended:")
    for end, count in ends.most_common():
        print(f"{count:8} {end}")
    print("compared of every fourth:")
    for what, count in compared.counts.items():
        print(f"{count:8} {what}")


main()
