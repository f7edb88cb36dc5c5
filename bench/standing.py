#!/usr/bin/env python3
"""Compares where the threads of random recordings stand with a plain slow model (`rows/model.py`, `rows/views.py`).

usage: standing.py PATH_OF_WREPLAY [RECORDINGS]

A recording is of a small random module: two to four threads whose functions load, store, add, compare and exchange, wait, notify, grow the
memory, call one another, also through a table, and trap by each kind of trap; some modules name functions. It is made at random by its
number. The report of the recording, those of its replays by a random order and by threads, a view of its end and one of a random step, and
the end of a trace, each with --names or --offsets, must be what the model writes. Without a number 300 recordings are made; it ends with
status 1 where one differs.
"""

import os
import random
import subprocess
import sys
import tempfile

sys.path.insert(0, os.path.join(os.path.dirname(os.path.abspath(__file__)), "rows"))
import traces  # noqa: E402
from model import Module, World  # noqa: E402
from views import stop, trace, view  # noqa: E402


def trap(draw, number, count):
    """Instructions that call or may trap, and leave the operands as they find them."""
    kind = draw.choice(["call", "call", "call", "through", "divide", "overflow", "odd", "unreachable"])
    if kind == "call" and number + 1 < count:
        return [("call", draw.randrange(number + 1, count))]
    if kind == "call":
        return [("call", number)] if draw.randrange(20) == 0 else []
    if kind == "through":
        return [("i32.const", draw.randrange(4)), ("call_indirect", 0)] if number + 1 < count else []
    if kind == "divide":
        return [("i32.const", 9), ("i32.const", draw.randrange(3)), "i32.div_s", "drop"]
    if kind == "overflow":
        return [("i32.const", -(2**31)), ("i32.const", draw.choice([-1, 1])), "i32.div_s", "drop"]
    if kind == "odd":
        return [("i32.const", draw.choice([0, 2, 262142])), "i32.atomic.load", "drop"]
    return ["unreachable"] if draw.randrange(3) == 0 else []


def put(draw, local, kind):
    """Instructions that put a local to other bits, and leave the operands as they find them, or all of them."""
    bits = draw.choice([0, 1, -1, 65535, 65536, 2**31 - 1, -(2**31)] + [2**62, -(2**63)] * (kind == "i64"))
    form = draw.choice(["set", "tee", "both"])
    if form == "set":
        return [(kind + ".const", bits), ("local.set", local)]
    if form == "tee":
        return [(kind + ".const", bits), ("local.tee", local), "drop"]
    return [("local.get", local), (kind + ".const", bits), ("local.set", local), "drop"]


def function(draw, number, count):
    """A function's instructions and its groups of locals. Some are behind others that leave operands below them."""
    code, groups = traces.function(draw), [(draw.randint(0, 3), draw.choice(["i32", "i64"])) for _ in range(draw.randint(0, 3))]
    kinds = [kind for size, kind in groups for _ in range(size)]
    for _ in range(draw.randint(0, 3)):
        at = draw.randrange(len(code))
        code[at:at] = trap(draw, number, count)
    for _ in range(draw.randint(0, 4) if kinds else 0):
        at, local = draw.randrange(len(code)), draw.randrange(len(kinds))
        code[at:at] = put(draw, local, kinds[local])
    below = [draw.choice([("i32.const", draw.choice([7, -1])), ("i64.const", draw.choice([8, 65536, -1]))]) for _ in range(draw.randint(0, 2))]
    return below + code[:-1] + ["drop"] * len(below) + code[-1:], groups


def module_of(draw, count):
    """A module of so many functions; those that a table has are the last, which call nothing through it."""
    names = {n: draw.choice(["put", "a b", "two\nlines", f"g{n}"]) for n in range(count) if draw.randrange(2)}
    functions = [(f"f{n}", [], None, *function(draw, n, count)) for n in range(count)]
    other = ("other", ["i32"], None, ["end"])
    return Module(functions + [other], (1, 3, True), table=(count - 1, None, count), names=draw.choice([None, names, names]))


class Recording:
    def __init__(self, program, folder, seed):
        self.program, draw = program, random.Random(seed)
        count = draw.randint(2, 4)
        self.module = module_of(draw, count)
        threads = draw.randint(2, 4)
        self.plan = ("wreplay plan 1\n" + "".join(f"thread f{draw.randrange(count)}\n" for _ in range(threads))).encode()
        self.files = [os.path.join(folder, name) for name in ("module.wasm", "plan", "pieces")]
        times_out = draw.randrange(2) == 1
        self.world = World(self.module, self.plan)
        self.world.draw(seed, times_out)
        self.recording = ["record", *self.files[:2], "--random", "--run", str(seed), "--timeouts", "now" if times_out else "never"]
        self.order = [draw.randrange(threads) for _ in range(draw.randint(0, 30))]
        thread = draw.choice(self.world.threads)
        self.step = (thread.n, draw.choice([thread.steps, thread.steps, draw.randint(0, thread.steps)]))
        self.flags = draw.choice([["--names"], ["--offsets"], ["--names", "--offsets"]])

    def run(self, *words):
        done = subprocess.run([self.program, *words], stdout=subprocess.PIPE, stderr=subprocess.PIPE, check=False)
        return done.stdout.decode() + done.stderr.decode()

    def differs(self):
        """Which command writes something else than the model, or None."""
        asked = ("--names" in self.flags, "--offsets" in self.flags)
        for path, content in zip(self.files, (self.module.bytes, self.plan, b"")):
            with open(path, "wb") as file:
                file.write(content)
        with open(self.files[2], "w", encoding="utf-8") as file:
            file.write(self.run(*self.recording))
        world, report = self.world, self.world.report(*asked)
        log = ({(t.n, p): e for t in world.threads for p, e in enumerate(t.entries)},
               {t.n: (t.steps, len(t.entries), world.outcome(t)) for t in world.threads})
        order = ["--order", ",".join(map(str, self.order))] if self.order else []
        fresh = lambda: World(self.module, self.plan)
        for words, wanted in (
            ([*self.recording, "--report", *self.flags], report),
            (["replay", *self.files, *order, *self.flags], report),
            (["replay", *self.files, "--threads", *self.flags], report),
            (["view", *self.files, *order, "--len", "0", *self.flags], view(*stop(fresh(), *log, self.order), 0, 0, *asked)),
            (["view", *self.files, *order, "--step", "%d.%d" % self.step, "--len", "0", *self.flags],
             view(*stop(fresh(), *log, self.order, step=self.step), 0, 0, *asked)),
            (["trace", *self.files, *order, *self.flags[-1:]] if asked[1] else ["trace", *self.files, *order],
             trace(fresh(), *log, self.order, offsets=asked[1])),
        ):
            written = self.run(*words)
            if written != wanted:
                return "%s\nwritten:\n%swanted:\n%s" % (" ".join(words), written, wanted)
        return None


def main():
    if len(sys.argv) not in (2, 3):
        sys.exit(__doc__)
    program, recordings = sys.argv[1], int(sys.argv[2]) if len(sys.argv) == 3 else 300
    wrong = 0
    with tempfile.TemporaryDirectory() as folder:
        for seed in range(recordings):
            differs = Recording(program, folder, seed).differs()
            if differs:
                print(f"recording {seed}: {differs}")
                wrong += 1
    print(f"{recordings} recordings, {wrong} differ")
    sys.exit(1 if wrong else 0)


if __name__ == "__main__":
    main()
