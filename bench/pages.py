#!/usr/bin/env python3
"""Runs the commands that stand in pages, and compares what they write with what stands behind them.

usage: pages.py PATH_OF_WREPLAY [PAGE..]

In a fenced block a line `$ COMMAND` is a command of the shell, run at the top of the repository, and the lines up to the next one are
what it writes. Without a page, the pages of the hunt are run. A recording by threads that writes to the page is passed over, since it
may come to something else each time. The files that the commands keep go where they say: `build` in these pages.
"""

import os
import subprocess
import sys

TOP = os.path.join(os.path.dirname(os.path.abspath(__file__)), "..")
PAGES = ["examples/hunt/README.md", "docs/TUTORIAL.md"]


def commands_of(text):
    """The commands of a page, each with the lines that stand behind it."""
    commands, fenced = [], False
    for line in text.split("\n"):
        if line.startswith("```"):
            fenced = not fenced
        elif fenced and line.startswith("$ "):
            commands.append((line[2:], []))
        elif fenced and commands:
            commands[-1][1].append(line)
    return commands


def is_left_to_luck(command):
    """Whether the command shows what threads did that ran at once."""
    return "--threads" in command and ">" not in command


def written_by(program, command):
    """The lines that a command writes."""
    define = 'wreplay() { "%s" "$@"; }\n' % os.path.abspath(program)
    done = subprocess.run(["sh", "-c", define + command], cwd=TOP, stdout=subprocess.PIPE, stderr=subprocess.STDOUT)
    return done.stdout.decode().splitlines()


def main():
    wrong = 0
    for page in sys.argv[2:] or PAGES:
        with open(os.path.join(TOP, page), encoding="utf-8") as file:
            commands = [pair for pair in commands_of(file.read()) if not is_left_to_luck(pair[0])]
        for command, lines in commands:
            written = written_by(sys.argv[1], command)
            if written != lines:
                wrong += 1
                print("%s: $ %s\nstands there:\n%s\nwritten:\n%s" % (page, command, "\n".join(lines), "\n".join(written)))
        print("%s: %d commands" % (page, len(commands)))
    sys.exit(1 if wrong else 0)


main()
