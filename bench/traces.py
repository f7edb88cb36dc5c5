#!/usr/bin/env python3
"""Compares traces of random recordings with a plain slow one, which is made of views, one at each event.

usage: traces.py PATH_OF_WREPLAY [RECORDINGS]

A recording is of a small random module: two to four threads that load, store, add, compare and exchange, wait, notify, grow the memory
and ask for its length, at few addresses near one another and near the memory's end; it is made at random by its number. `wreplay trace`
writes the lines of its replay by a random order. For each line the script asks `wreplay view --names` for the world behind that event:
its thread has made one event more there, and the number that the line has last is what the bytes of the view have at its address; the
number before it is the one that the lines before left there. Places of each thread rise by one, up to its last. The lines that --only,
--from and --to leave are those lines of the whole trace, and --offsets puts behind each instruction where the model laid it. Without a
number 2,000 recordings are made; it ends with status 1 where one differs.
"""

import os
import random
import subprocess
import sys
import tempfile

sys.path.insert(0, os.path.join(os.path.dirname(os.path.abspath(__file__)), "rows"))
from model import Module  # noqa: E402

ADDRESSES = [0, 1, 2, 4, 60, 62, 64, 65528, 65532, 65535, 65536, 65600]
LOADS = ["i32.load", "i64.load", "i32.load8_u", "i32.atomic.load"]
STORES = ["i32.store", "i64.store", "i32.store8", "i32.atomic.store"]
SHOWN = 256


def function(draw):
    """The instructions of a random function without operands that answers nothing."""
    code = []
    for _ in range(draw.randint(1, 7)):
        kind = draw.choice(["load", "load", "store", "store", "add", "cmpxchg", "wait", "notify", "grow", "size", "plain"])
        at = draw.choice(ADDRESSES)
        small = lambda: draw.choice([0, 1, 2, 5, 65535, 65536, -1])
        if kind == "load":
            code += [("i32.const", at), draw.choice(LOADS), "drop"]
        elif kind == "store":
            name = draw.choice(STORES)
            code += [("i32.const", at), ("i64.const" if name == "i64.store" else "i32.const", small()), name]
        elif kind == "add":
            code += [("i32.const", at & ~3), ("i32.const", small()), "i32.atomic.rmw.add", "drop"]
        elif kind == "cmpxchg":
            code += [("i32.const", at), ("i32.const", draw.randint(0, 2)), ("i32.const", small()), "i32.atomic.rmw8.cmpxchg_u", "drop"]
        elif kind == "wait":
            code += [("i32.const", at & ~3), ("i32.const", draw.randint(0, 1)), ("i64.const", draw.choice([-1, 1])), "wait32", "drop"]
        elif kind == "notify":
            code += [("i32.const", at & ~3), ("i32.const", draw.randint(0, 2)), "notify", "drop"]
        elif kind == "grow":
            code += [("i32.const", draw.randint(0, 2)), "memory.grow", "drop"]
        elif kind == "size":
            code += ["memory.size", "drop"]
        else:
            code += [("i32.const", 3), "drop"]
    return code + ["end"]


def number(text):
    return int(text, 0)


class Recording:
    def __init__(self, program, folder, seed):
        self.program, self.draw = program, random.Random(seed)
        count = self.draw.randint(2, 4)
        self.module = module = Module([(f"f{n}", [], None, function(self.draw)) for n in range(count)], (1, 3, True))
        self.files = [os.path.join(folder, name) for name in ("module.wasm", "plan", "pieces")]
        plan = "wreplay plan 1\n" + "".join(f"thread f{self.draw.randrange(count)}\n" for _ in range(count))
        for path, content in zip(self.files, (module.bytes, plan.encode())):
            with open(path, "wb") as file:
                file.write(content)
        pieces = self.run("record", *self.files[:2], "--random", "--run", str(seed), "--timeouts", self.draw.choice(["never", "now"]))
        with open(self.files[2], "w") as file:
            file.write(pieces)
        self.order = [str(self.draw.randrange(count)) for _ in range(self.draw.randint(0, 12))]

    def run(self, *words):
        done = subprocess.run([self.program, *words], stdout=subprocess.PIPE, stderr=subprocess.PIPE, text=True, check=False)
        if done.returncode:
            sys.exit(f"{' '.join(words)}: {done.stderr}")
        return done.stdout

    def ask(self, command, *more):
        order = ["--order", ",".join(self.order)] if self.order else []
        return self.run(command, *self.files, *order, *more)

    def view(self, at, start):
        """The threads' lines, and the bytes from an address on, of the world where a thread has made so many events."""
        lines = self.ask("view", "--names", "--place", at, "--from", str(start), "--len", str(SHOWN)).splitlines()
        threads = [line.split(" ") for line in lines if line.startswith("thread ")]
        data = b""
        for line in lines:
            head = line.split(" ")
            if len(head) == 2 and len(head[0]) == 8 and all(digit in "0123456789abcdef" for digit in head[0] + head[1]):
                data += bytes.fromhex(head[1])
        return lines[0], threads, data

    def differs(self):
        """What differs in a trace of the recording, or None."""
        lines = self.ask("trace").splitlines()
        count = next(n for n, line in enumerate(lines) if line in ("finished", "stuck"))
        events = [line.split(" ") for line in lines[:count]]
        made, memory, pages = {}, {}, 1
        for event in events:
            thread, place = map(int, event[0].split("."))
            if made.get(thread, 0) != place:
                return f"{event[0]} comes where {made.get(thread, 0)} is next"
            made[thread] = place + 1
            if event[2] == "grow" and "->" in event:
                pages = int(event[-1])
            wrong = self.event_differs(event, thread, place, memory, pages)
            if wrong:
                return wrong
        ends = {line.split(" ")[1]: line.split(" ")[5] for line in lines[count + 1 :] if line.startswith("thread ")}
        if any(int(places) != made.get(int(thread), 0) for thread, places in ends.items()):
            return "places of the ends differ"
        return self.choice_differs(lines, count) or self.offsets_differ(lines[:count])

    def offsets_differ(self, lines):
        """Behind each instruction stands its offset, as the model lays the module out."""
        wanted = []
        for line in lines:
            at, place, done = line.split(" ", 2)
            function, instruction = map(int, place.split("+"))
            wanted.append(f"{at} {place} {self.module.offsets[function][instruction]:#x} {done}")
        return None if self.ask("trace", "--offsets").splitlines()[: len(lines)] == wanted else "--offsets differ"

    def event_differs(self, event, thread, place, memory, pages):
        word = event[2]
        at = int(event[3]) if word not in ("size", "grow", "timed") else 0
        if word in ("size", "grow", "woken", "timed", "notify") or "trap" in event:
            return None
        start = min(at, 65536 * pages - SHOWN)
        stopped, threads, data = self.view(f"{thread}.{place + 1}", start)
        if stopped != "stopped place" or int(threads[thread][5]) != place + 1:
            return f"{event[0]}: the view is {stopped}"
        width = int(event[4][1:]) // 8
        now = int.from_bytes(data[at - start : at - start + width], "little")
        numbers = event[5:]
        told = number(numbers[2]) if "->" in numbers else number(numbers[0])
        if told != now:
            return f"{event[0]}: {told} is told, {now} stands there"
        old = int.from_bytes(bytes(memory.get(at + byte, 0) for byte in range(width)), "little")
        if number(numbers[0]) != old:
            return f"{event[0]}: {numbers[0]} was there by the trace, {old} by the accesses before"
        for byte in range(width):
            memory[at + byte] = now >> 8 * byte & 255
        return None

    def choice_differs(self, lines, count):
        only = str(self.draw.randrange(4))
        wanted = [line for line in lines[:count] if line.split(".")[0] == only] + lines[count:]
        if self.ask("trace", "--only", only).splitlines() != wanted:
            return "--only differs"
        if not count:
            return None
        first, last = sorted(self.draw.choices(range(count), k=2))
        place = lambda n: lines[n].split(" ")[0]
        part = self.ask("trace", "--from", place(first), "--to", place(last)).splitlines()
        if part[: last - first + 2] != lines[first : last + 1] + ["stopped place"]:
            return "--from and --to differ"
        return None


def main():
    if len(sys.argv) not in (2, 3):
        sys.exit(__doc__)
    program, recordings = sys.argv[1], int(sys.argv[2]) if len(sys.argv) == 3 else 2000
    wrong = 0
    with tempfile.TemporaryDirectory() as folder:
        for seed in range(recordings):
            differs = Recording(program, folder, seed).differs()
            if differs:
                print(f"recording {seed}: {differs}")
                wrong += 1
    print(f"{recordings} recordings, {wrong} with a trace that differs")
    sys.exit(1 if wrong else 0)


if __name__ == "__main__":
    main()
