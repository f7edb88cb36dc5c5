#!/usr/bin/env python3
"""Compares charts of random logs with those of a plain model.

usage: random_charts.py PATH_OF_WREPLAY [RECORDINGS]

The recordings are those of traces.py, each in pieces of one entry. Of the pieces all, eight of ten and half are kept, in a random order.
`wreplay chart` draws their log, or a random part of it; rows/charts.py draws the same from the listing that `wreplay gather` writes.
Without a number 1,000 recordings are made; it ends with status 1 where one differs.
"""

import os
import subprocess
import sys
import tempfile

from traces import Recording

sys.path.insert(0, os.path.join(os.path.dirname(os.path.abspath(__file__)), "rows"))
import charts as model  # noqa: E402


def written(program, words, pieces):
    return subprocess.run([program, *words], input=pieces, stdout=subprocess.PIPE, text=True, check=True).stdout


def choice(draw):
    """Words that ask for a part of a log, and what the model is asked for."""
    words, asked = [], {}
    if draw.random() < 0.5:
        asked["only"] = [draw.randrange(8) for _ in range(draw.randint(1, 3))]
        words += ["--only", ",".join(map(str, asked["only"]))]
    for word, name in (("--from", "since"), ("--to", "to")):
        if draw.random() < 0.3:
            asked[name] = draw.randrange(4), draw.randrange(4)
            words += [word, "%d.%d" % asked[name]]
    return words, asked


def main():
    if len(sys.argv) not in (2, 3):
        sys.exit(__doc__)
    program, recordings = sys.argv[1], int(sys.argv[2]) if len(sys.argv) == 3 else 1000
    charts = wrong = 0
    with tempfile.TemporaryDirectory() as folder:
        for seed in range(recordings):
            made = Recording(program, folder, seed)
            lines = made.run("record", *made.files[:2], "--random", "--run", str(seed), "--size", "1").splitlines(True)
            for part in (1.0, 0.8, 0.5):
                kept = [line for line in lines if made.draw.random() < part]
                made.draw.shuffle(kept)
                words, asked = choice(made.draw)
                drawn = written(program, ["chart", *words], "".join(kept))
                wanted = model.chart(written(program, ["gather"], "".join(kept)), **asked) if kept else model.EMPTY
                charts += 1
                if drawn != wanted:
                    print(f"recording {seed}, {len(kept)} of {len(lines)} pieces: chart {' '.join(words)} differs")
                    wrong += 1
    print(f"{charts} charts, {wrong} that differ")
    sys.exit(1 if wrong else 0)


if __name__ == "__main__":
    main()
