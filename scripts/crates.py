#!/usr/bin/env python3
"""Makes the table of crates in docs/ARCHITECTURE.md from crates.txt and from the heads of the crates.

usage: crates.py [--check]

A row has a crate and the first sentence of its head; `crates.txt` has what each stands on. With --check nothing is written: what would change is printed, and the status is 1 where there
is something.
"""

import difflib
import pathlib
import sys

TOP = pathlib.Path(__file__).resolve().parent.parent
PAGE = TOP / "docs" / "ARCHITECTURE.md"
BEGIN = "<!-- crates: made by scripts/crates.py -->\n"
END = "<!-- end of crates -->\n"


def crates():
    """The crates of crates.txt in its order, lowest first."""
    for line in (TOP / "crates.txt").read_text().split("\n"):
        names, colon, _ = line.partition("#")[0].partition(":")
        if colon:
            yield names.split()[0]


def first_sentence(crate):
    """The first sentence of the lines with which the crate's root file begins."""
    source = TOP / "crates" / crate / "src"
    root = source / "lib.rt"
    if not root.exists():
        root = source / "main.rt"
    head = []
    for line in root.read_text().split("\n"):
        if not line.startswith("//! "):
            break
        head.append(line[len("//! "):])
    sentence, dot, _ = (" ".join(head) + " ").partition(". ")
    if not dot:
        sys.exit(f"{root}: its head has no sentence")
    return sentence


def table():
    """The rows of the table."""
    yield "| Crate | What it is |\n"
    yield "|---|---|\n"
    for crate in crates():
        yield f"| `{crate}` | {first_sentence(crate)} |\n"


def main():
    words = sys.argv[1:]
    if words not in ([], ["--check"]):
        sys.exit(__doc__.strip())
    page = PAGE.read_text()
    before, begin, rest = page.partition(BEGIN)
    _, end, after = rest.partition(END)
    if not begin or not end:
        sys.exit(f"{PAGE}: the lines between which the table stands are missing")
    made = before + begin + "".join(table()) + end + after
    if words:
        lines = (text.splitlines(keepends=True) for text in (page, made))
        sys.stdout.writelines(difflib.unified_diff(*lines, str(PAGE), "what it is to be", n=0))
        sys.exit(made != page)
    PAGE.write_text(made)


main()
