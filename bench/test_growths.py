#!/usr/bin/env python3
"""Refuses each growth of the tests in turn, and looks at how they end.

usage: test_growths.py CRATE[:PART]..

Each argument is the folder of a crate whose tests `rt test` has built; with a part, those tests alone whose names have it. A small library, made by the C compiler and
loaded before the system's, answers one of a test's calls for memory with none: the first, then the second, and so on until the test
asks for no more. Each time the test must pass, or hand on that memory was wanted: a test that waits for the refusal goes on, others give
up. An assertion that fails, another error or a crash is an error. It prints for each test how many growths were refused, and in
how many of these runs it passed.
"""

import os
import subprocess
import sys
import tempfile

from growths import LIBRARY

# What a test answers that hands on its want of memory. A sink over memory fails where its own memory is refused.
WANTS = ("AllocError", "AllocFailed", "NoMemory", "OutOfMemory", "SinkFailed")


def binary_of(crate):
    name = os.path.basename(os.path.normpath(crate))
    return os.path.abspath(os.path.join(crate, "out", f"{name}_tests"))


def tests_of(binary, part):
    listed = subprocess.run([binary, "--list"], capture_output=True, text=True, check=True).stdout
    tests = [line.removesuffix(": test") for line in listed.splitlines() if line.endswith(": test")]
    return [test for test in tests if part in test]


def run(binary, library, test, growth):
    """How a test ends where one growth is refused: its status, what it says, and whether that growth came."""
    told, tell = os.pipe()
    environment = dict(os.environ, LD_PRELOAD=library, REFUSED_GROWTH=str(growth))
    done = subprocess.run([binary, test], capture_output=True, text=True, env=environment, preexec_fn=lambda: os.dup2(tell, 3), pass_fds=(3,))
    os.close(tell)
    came = os.read(told, 1) != b""
    os.close(told)
    return done.returncode, done.stdout + done.stderr, came


def refuse_each(binary, library, test):
    passed = growth = 0
    while True:
        status, said, came = run(binary, library, test, growth + 1)
        if not came:
            break
        growth += 1
        if status == 0:
            passed += 1
        elif not any(word in said for word in WANTS):
            sys.exit(f"{test}: growth {growth}: status {status}: {said}")
    if status:
        sys.exit(f"{test}: status {status} with ample memory: {said}")
    print(f"{test}: {growth} growths, {passed} passed", flush=True)


def main():
    if len(sys.argv) < 2:
        sys.exit(__doc__)
    with tempfile.TemporaryDirectory() as folder:
        source, library = os.path.join(folder, "refuse.c"), os.path.join(folder, "refuse.so")
        with open(source, "w") as file:
            file.write(LIBRARY)
        subprocess.run(["cc", "-shared", "-fPIC", "-O1", "-o", library, source], check=True)
        for word in sys.argv[1:]:
            crate, _, part = word.partition(":")
            binary = binary_of(crate)
            for test in tests_of(binary, part):
                refuse_each(binary, library, test)


main()
