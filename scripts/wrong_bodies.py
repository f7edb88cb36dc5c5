#!/usr/bin/env python3
"""Tries the wrong bodies that the gate leaves out: the prover must refuse each.

usage: wrong_bodies.py [CRATE..]

The gate tries the edits in crates/CRATE/must-fail. More stand in wrong_bodies/CRATE, in the same form; without a crate those of all are
tried. They are laid beside the gate's own, `rt must-fail CRATE` tries all of the crate, and then they are taken away again. What `rt
check` kept is used; from nothing it takes hours. It ends with the number of those that were refused, and with status 1 where one was not.
"""

import glob
import os
import re
import shutil
import subprocess
import sys

TOP = os.path.join(os.path.dirname(os.path.abspath(__file__)), "..")


def tried(crate):
    """How many of a crate's edits were refused, and how many were not."""
    folder = f"crates/{crate}/must-fail"
    was_there = os.path.isdir(folder)
    os.makedirs(folder, exist_ok=True)
    laid = []
    try:
        for edit in sorted(glob.glob(f"wrong_bodies/{crate}/*.edit")):
            to = f"{folder}/{os.path.basename(edit)}"
            if os.path.exists(to):
                sys.exit(f"{edit}: the gate has an edit of this name")
            shutil.copyfile(edit, to)
            laid.append(to)
        ran = subprocess.run(["rt", "must-fail", crate], stdout=subprocess.PIPE, stderr=subprocess.STDOUT, text=True)
        sys.stdout.write(ran.stdout)
        refused = len(re.findall(r": refused, as it must be", ran.stdout))
        return refused, ran.returncode
    finally:
        for file in laid:
            os.remove(file)
        if not was_there:
            os.rmdir(folder)


def main():
    os.chdir(TOP)
    known = sorted(os.listdir("wrong_bodies"))
    wanted = sys.argv[1:] or known
    if any(word not in known for word in wanted):
        sys.exit(__doc__)
    results = [tried(crate) for crate in wanted]
    print(f"{sum(refused for refused, _ in results)} refused")
    return 1 if any(status for _, status in results) else 0


if __name__ == "__main__":
    sys.exit(main())
