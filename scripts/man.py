#!/usr/bin/env python3
"""Writes the man page of wreplay from the texts of its help.

usage: man.py PROGRAM > wreplay.1
"""

import subprocess
import sys

COMMANDS = ("check", "record", "hunt", "gather", "chart", "replay", "view", "trace", "debug", "dap")


def help_of(program, *words):
    """The text of a page of help."""
    done = subprocess.run([program, *words, "--help"], capture_output=True, text=True, check=True)
    return done.stdout.rstrip("\n")


def as_roff(text):
    """A text as it stands, line by line."""
    lines = [line.replace("\\", "\\e").replace("-", "\\-") for line in text.split("\n")]
    lines = ["\\&" + line if line.startswith((".", "'")) else line for line in lines]
    return "\n".join([".nf", *lines, ".fi"])


def main():
    if len(sys.argv) != 2:
        sys.exit(__doc__.strip())
    program = sys.argv[1]
    print('.TH WREPLAY 1')
    print(".SH NAME")
    print("wreplay \\- record a run of a threaded WebAssembly module, gather its log, and replay it")
    print(".SH DESCRIPTION")
    print(as_roff(help_of(program)))
    for command in COMMANDS:
        print(f'.SH "WREPLAY {command.upper()}"')
        print(as_roff(help_of(program, command)))


main()
