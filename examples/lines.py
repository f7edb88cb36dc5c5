#!/usr/bin/env python3
"""Puts lines of source behind the offsets that `wreplay trace`, `view`, `replay` and `record --report` write with --offsets.

usage: wreplay trace MODULE PLAN PIECES --offsets | lines.py MODULE [TWIN]
       wreplay replay MODULE PLAN PIECES --offsets | lines.py MODULE [TWIN]

`put+17 0x1d3` becomes `put+17 0x1d3 queue.c:63`. The lines are what llvm-symbolizer finds in the DWARF of MODULE. If that has none,
TWIN is a module of the same code that has: linked from the same source, compiled with -g as well. LLVM_SYMBOLIZER names the program.
"""

import os
import re
import subprocess
import sys

CODE = 10
PLACE = re.compile(r"\+[0-9]+ 0x([0-9a-f]+)")


def number(data, at):
    """The unsigned LEB128 number at a place, and the place behind it."""
    value, shift = 0, 0
    while True:
        byte = data[at]
        value |= (byte & 0x7F) << shift
        shift, at = shift + 7, at + 1
        if byte < 0x80:
            return value, at


def code(path):
    """Where the content of a module's code section begins, and that content."""
    with open(path, "rb") as file:
        module = file.read()
    if module[:4] != b"\0asm":
        sys.exit("lines.py: %s is no module" % path)
    at = 8
    while at < len(module):
        size, content = number(module, at + 1)
        if module[at] == CODE:
            return content, module[content:content + size]
        at = content + size
    sys.exit("lines.py: %s has no code" % path)


def lines_of(path, start, offsets):
    """The line of source at each of these offsets in a module's bytes. DWARF counts from the beginning of the code's content."""
    symbolizer = os.environ.get("LLVM_SYMBOLIZER", "llvm-symbolizer")
    command = [symbolizer, "--obj=" + path, "--output-style=GNU", "--functions=none", "--no-inlines", "--basenames"]
    asked = "".join("0x%x\n" % (offset - start) for offset in offsets)
    try:
        told = subprocess.run(command, input=asked, stdout=subprocess.PIPE, check=True, text=True).stdout.splitlines()
    except FileNotFoundError:
        sys.exit("lines.py: there is no %s; LLVM_SYMBOLIZER names another" % symbolizer)
    return {offset: line.split(" ")[0] for offset, line in zip(offsets, told) if not re.search(r"\?|:0$", line)}


def main():
    if len(sys.argv) not in (2, 3):
        sys.exit(__doc__)
    module, twin = sys.argv[1], sys.argv[-1]
    start, content = code(module)
    if code(twin)[1] != content:
        sys.exit("lines.py: %s has other code than %s" % (twin, module))
    text = sys.stdin.read()
    offsets = sorted({int(offset, 16) for offset in PLACE.findall(text)})
    lines = lines_of(twin, start, offsets)

    def with_line(place):
        line = lines.get(int(place.group(1), 16))
        return place.group(0) + (" " + line if line else "")

    sys.stdout.write(PLACE.sub(with_line, text))


main()
