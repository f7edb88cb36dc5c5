#!/usr/bin/env python3
"""Runs the gate and tells what each crate takes of it, in seconds of processor time.

usage: gate.py [LOG]

Runs `rt ci` at the top of the repository, with `--anew` where the kit keeps what it proved before, so that all is proved from nothing;
hands its output on to LOG (build/gate.log by default), and looks at the running checks four times a second. It prints a row a crate: its
proof, the proof of its tests, and its must-fail edits with their number; then the sums, the processor time of the whole gate as the system
counts it, and the minutes of the clock. The last quarter of a second of a check can be missed, so the rows come to a little less than the whole.
"""

import glob
import os
import re
import resource
import subprocess
import sys
import tempfile
import time

TICK = os.sysconf("SC_CLK_TCK")


def read(path):
    try:
        with open(path, "rb") as it:
            return it.read()
    except OSError:
        return b""


def processes():
    """The parent, the processor seconds with those of ended children, and the words of each process."""
    found = {}
    for folder in glob.glob("/proc/[0-9]*"):
        stat = read(f"{folder}/stat")
        fields = stat[stat.rfind(b")") + 2 :].split()
        if len(fields) > 15:
            words = read(f"{folder}/cmdline").split(b"\0")
            found[int(folder[6:])] = int(fields[1]), sum(map(int, fields[11:15])) / TICK, words
    return found


def below(found, pid):
    children = [it for it, (parent, _, _) in found.items() if parent == pid]
    return found[pid][1] + sum(below(found, it) for it in children)


def phase_of(pid, words):
    """Which crate a check is of, and which part of the gate, or None where the process is no check."""
    if not words[0].endswith(b"/rattle") or b"--crate-name" not in words:
        return None
    try:
        folder = os.readlink(f"/proc/{pid}/cwd")
    except OSError:
        return None
    crate = words[words.index(b"--crate-name") + 1].decode()
    if "rt-edit-" in folder:
        return crate, "edits"
    if not folder.startswith(os.getcwd()):
        return None
    return crate, "tests" if b"--test" in words else "proof"


def gate_words():
    """The words that prove all from nothing. A kit that never keeps what it proved before has no `--anew`, and answers how it is used."""
    with tempfile.TemporaryDirectory() as empty:
        words = ["rt", "ci", "--anew"]
        told = subprocess.run(words, cwd=empty, stdin=subprocess.DEVNULL, stdout=subprocess.PIPE, stderr=subprocess.STDOUT, check=False)
    return words[:2] if b"usage:" in told.stdout else words


def main():
    if len(sys.argv) > 2:
        sys.exit(__doc__)
    log = sys.argv[1] if len(sys.argv) == 2 else "build/gate.log"
    os.makedirs(os.path.dirname(log) or ".", exist_ok=True)
    begin, seconds = time.monotonic(), {}
    with open(log, "wb") as out:
        gate = subprocess.Popen(gate_words(), stdin=subprocess.DEVNULL, stdout=out, stderr=subprocess.STDOUT)
        while gate.poll() is None:
            found = processes()
            for pid, (parent, _, words) in found.items():
                phase = phase_of(pid, words)
                if phase and not (parent in found and phase_of(parent, found[parent][2])):
                    seconds[phase, pid] = max(seconds.get((phase, pid), 0), below(found, pid))
            time.sleep(0.25)
    rows = {}
    for ((crate, part), _), spent in seconds.items():
        rows.setdefault(crate, {}).setdefault(part, []).append(spent)
    print("| Crate | Must-fail edits | Prove | Prove its tests | Edits |")
    print("|---|---:|---:|---:|---:|")
    sums = dict.fromkeys(("proof", "tests", "edits"), 0.0)
    for crate, parts in sorted(rows.items()):
        for part, spent in parts.items():
            sums[part] += sum(spent)
        shown = [f"{sum(parts[it]):.0f}" if it in parts else "" for it in ("proof", "tests", "edits")]
        edits = len(glob.glob(f"crates/{crate}/must-fail/*.edit")) or ""
        print(f"| `{crate}` | {edits} | {' | '.join(shown)} |")
    used = resource.getrusage(resource.RUSAGE_CHILDREN)
    print(f"\nminutes of processor time: {', '.join(f'{part} {spent / 60:.0f}' for part, spent in sums.items())}; ", end="")
    print(f"the whole gate {(used.ru_utime + used.ru_stime) / 60:.0f}; by the clock {(time.monotonic() - begin) / 60:.0f}")
    last = re.sub(rb"\n+\Z", b"", read(log)).rsplit(b"\n", 1)[-1]
    print(last.decode(errors="replace"))
    return gate.returncode


if __name__ == "__main__":
    sys.exit(main())
