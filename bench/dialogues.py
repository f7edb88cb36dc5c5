#!/usr/bin/env python3
"""Compares random dialogues with `wreplay debug`, and exchanges with `wreplay dap`, with plain slow models (`rows/debugs.py`, `adapters.py`).

usage: dialogues.py PATH_OF_WREPLAY [DIALOGUES [FROM]]

A dialogue is over the replay of a small random recording, as those of standing.py, of two to four threads. Its pieces come whole, or one is
missing, or others come beside them or in their place, in which an entry or the end of a thread is changed. Commands go forward by steps and by
rounds, go back, set breaks and look. What is answered must be what the model answers. An exchange does likewise by requests, over the same
recording. Without a number 300 dialogues are made, each with an exchange, from number 0 on; it ends with status 1 where one differs.
"""

import os
import random
import subprocess
import sys
import tempfile

sys.path.insert(0, os.path.join(os.path.dirname(os.path.abspath(__file__)), "rows"))
import standing  # noqa: E402
from adapters import answers, drawn_requests, framed, launch, requests  # noqa: E402
from debugs import Debugger, Gathered, drawn_talk, talk  # noqa: E402
from model import World, digest  # noqa: E402


def changed(draw, world):
    """A world that has one thread's log with a change: of an entry, or of its end. Its pieces keep the rules of pieces."""
    other = world.copied()
    thread = draw.choice(other.threads)
    what = draw.choice(["kind", "object", "version", "steps", "outcome"])
    if what in ("kind", "object", "version") and thread.entries:
        at = draw.randrange(len(thread.entries))
        kind, found = thread.entries[at]
        front, back = found[0].split("@")
        version, _, reads = back.partition("/")
        if what == "kind":
            kind = draw.choice(["access", "woken", "timedout"])
        elif what == "object" and all(int(other[1:].split("@")[0]) > int(front[1:]) + 2 for other in found[1:]):
            front = front[0] + str(int(front[1:]) + 2)
        else:
            version = str(draw.choice([int(version) + 1, max(int(version) - 1, 0)]))
        thread.entries[at] = (kind, [front + "@" + version + ("/" + reads if reads else "")] + found[1:])
    elif what == "steps":
        thread.steps += draw.choice([-1, 1]) if thread.steps > len(thread.entries) else 1
    else:
        thread.out = draw.choice([None, "none", "i32 7", "trap 1 unreachable"])
    return other


def pieces_of(draw, world, key):
    """Lines of pieces, whole or with one change."""
    size = draw.choice([1, 2, 5, 4096])
    lines = world.lines(key, 0, size).splitlines(keepends=True)
    form = draw.choice(["whole", "whole", "missing", "besides", "instead"])
    if form == "missing":
        lines.pop(draw.randrange(len(lines)))
    if form in ("besides", "instead"):
        others = changed(draw, world).lines(key, 0, size).splitlines(keepends=True)
        lines = others if form == "instead" else lines + others
    draw.shuffle(lines)
    return "".join(lines)


def made(seed):
    """The module, plan and pieces of a dialogue, its lines, and the requests of an exchange."""
    draw = random.Random(seed)
    count = draw.randint(2, 4)
    module, threads = standing.module_of(draw, count), draw.randint(2, 4)
    plan = ("wreplay plan 1\n" + "".join(f"thread f{draw.randrange(count)}\n" for _ in range(threads))).encode()
    world = World(module, plan)
    world.draw(seed, draw.randrange(2) == 1)
    pieces = pieces_of(draw, world, digest(module, plan))
    return module, plan, pieces, drawn_talk(draw.randrange, threads, draw.randint(1, 40)), drawn_requests(draw.randrange, threads, draw.randint(1, 40))


def compared(program, words, text, wanted):
    """What is written that is not wanted, or None."""
    done = subprocess.run([program, *words], input=text, stdout=subprocess.PIPE, stderr=subprocess.PIPE, check=False)
    written = (done.stdout + done.stderr).decode()
    if done.returncode or written != wanted:
        return f"{text.decode()}status {done.returncode}, written:\n{written}wanted:\n{wanted}"
    return None


def differs(program, folder, seed):
    """What is written that the models do not write, or None."""
    module, plan, pieces, text, rows = made(seed)
    files = [os.path.join(folder, name) for name in ("module.wasm", "plan", "pieces")]
    for path, content in zip(files, (module.bytes, plan, pieces.encode())):
        with open(path, "wb") as file:
            file.write(content)
    contents = requests("initialize", launch(*files), *rows)
    sent = answers(lambda *named: Debugger(module, plan, Gathered(pieces)), contents)
    return compared(program, ["debug", *files], text, talk(module, plan, pieces, text)) or compared(program, ["dap"], framed(contents).encode(), sent)


def main():
    if len(sys.argv) not in (2, 3, 4):
        sys.exit(__doc__)
    program, dialogues, first = sys.argv[1], *(int(word) for word in (sys.argv[2:] + ["300", "0"][len(sys.argv) - 2 :]))
    wrong = 0
    with tempfile.TemporaryDirectory() as folder:
        for seed in range(first, first + dialogues):
            told = differs(program, folder, seed)
            if told:
                print(f"dialogue {seed}: {told}")
                wrong += 1
    print(f"{dialogues} dialogues, {wrong} differ")
    sys.exit(1 if wrong else 0)


if __name__ == "__main__":
    main()
