#!/usr/bin/env python3
"""Measures how fast a thread runs alone over its memory, beside `wasm-interp` of wabt.

usage: machine.py PATH_OF_WREPLAY_BENCH [--instructions]

Of bench/modules each text is made a module by `wat2wasm`; the modules that clang made from the C files there are taken as they
are. The function `run` of each is run by `wasm-interp` and by `wreplay_bench machine` in turn, ROUNDS times each. Both must give the
same value. Through the memory of the latter each access finds its block, counts its version and makes an entry, as in a recorded run;
`wasm-interp` does none of it. Times are user time, the least of the rounds, less what the program takes for a module whose
function does nothing. It prints the steps, millions of steps a second, the seconds of both, and the ratio of the speeds; with
`--instructions` also the processor instructions a step, which callgrind counts in one more run of some ten to sixty seconds, less
those for the function that does nothing. Without wabt, or without valgrind where it is asked for them, it says so and ends with
status 1; so it does where the values differ.
"""

import argparse
import os
import re
import shutil
import subprocess
import sys
import tempfile

ROUNDS = 5
MODULES = ("fib.wat", "adds.wat", "sieve.wat", "sha256.wat", "sort.wasm", "table.wasm", "bytecode.wasm")
PLAN = "wreplay plan 1\nthread run\n"
NOTHING = '(module (func (export "run")))\n'


def run(words):
    """The user time of a command, and what it writes."""
    with tempfile.TemporaryFile() as out:
        process = subprocess.Popen(words, stdout=out)
        _, status, used = os.wait4(process.pid, 0)
        process.returncode = os.waitstatus_to_exitcode(status)
        out.seek(0)
        text = out.read().decode().strip()
    if process.returncode != 0:
        sys.exit(f"{' '.join(words)}: status {process.returncode}")
    return used.ru_utime, text


def measure(program, module, plan):
    """The least times of the peer and of the program, and what they write."""
    peer = ours = float("inf")
    for _ in range(ROUNDS):
        spent, peer_text = run(["wasm-interp", module, "--run-all-exports"])
        peer = min(peer, spent)
        spent, text = run([program, "machine", module, plan])
        ours = min(ours, spent)
    return peer, ours, peer_text, text


def instructions(program, module, plan):
    """The processor instructions that the program makes for a module."""
    words = ["valgrind", "--tool=callgrind", "--callgrind-out-file=/dev/null", program, "machine", module, plan]
    done = subprocess.run(words, capture_output=True, text=True, check=True)
    return int(re.search(r"Collected : (\d+)", done.stderr)[1])


def unsigned(value):
    """A value such as `i32 -1` without its sign, as wasm-interp writes it; anything else as it is."""
    found = re.fullmatch(r"(i(?:32|64)) (-?\d+)", value)
    return f"{found[1]} {int(found[2]) % (1 << int(found[1][1:]))}" if found else value


def made(path, folder):
    """The module of a file: a text's is made in a folder."""
    if path.endswith(".wasm"):
        return path
    module = os.path.join(folder, f"{os.path.basename(path)}.wasm")
    subprocess.run(["wat2wasm", path, "-o", module], check=True)
    return module


def written(folder, name, text):
    """A file in a folder with this text."""
    path = os.path.join(folder, name)
    with open(path, "w", encoding="utf-8") as file:
        file.write(text)
    return path


def row(program, name, module, plan, start):
    """The steps of a module and the table's line; `start` has what both programs take for a function that does nothing."""
    peer, ours, peer_text, text = measure(program, module, plan)
    steps, value = text.split(" ", 1)
    wanted = peer_text.removeprefix("run() => ").replace(":", " ")
    if unsigned(value) != wanted:
        sys.exit(f"{name}: {value} for {wanted}")
    steps, peer, ours = int(steps), peer - start[0], ours - start[1]
    return steps, f"| {name} | {steps:,} | {steps / ours / 1e6:.0f} | {peer:.3f} | {ours:.3f} | {peer / ours:.1f} |"


def print_table(program, folder, with_instructions):
    """Prints the table; the modules are made in a folder."""
    here = os.path.dirname(os.path.abspath(__file__))
    plan = written(folder, "plan", PLAN)
    nothing = made(written(folder, "nothing.wat", NOTHING), folder)
    start = measure(program, nothing, plan)
    first = instructions(program, nothing, plan) if with_instructions else 0
    head = "| module | steps | million steps a second | seconds of wasm-interp | seconds | speed / speed of wasm-interp |"
    print(head + " instructions a step |" * with_instructions)
    print("|---|---:|---:|---:|---:|---:|" + "---:|" * with_instructions)
    for file in MODULES:
        module = made(os.path.join(here, "modules", file), folder)
        steps, line = row(program, file.split(".")[0], module, plan, start)
        if with_instructions:
            line += f" {(instructions(program, module, plan) - first) / steps:.1f} |"
        print(line, flush=True)


def main():
    words = argparse.ArgumentParser(description=__doc__.split("\n", 1)[0])
    words.add_argument("program")
    words.add_argument("--instructions", action="store_true")
    asked = words.parse_args()
    wanted = ["wasm-interp", "wat2wasm"] + ["valgrind"] * asked.instructions
    missing = [it for it in wanted if not shutil.which(it)]
    if missing:
        print(f"machine.py: {' and '.join(missing)} not there", file=sys.stderr)
        sys.exit(1)
    with tempfile.TemporaryDirectory() as folder:
        print_table(asked.program, folder, asked.instructions)


if __name__ == "__main__":
    main()
