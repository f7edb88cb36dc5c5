#!/usr/bin/env python3
"""Refuses each growth of `wreplay` in turn, and looks at what it answers.

usage: growths.py PATH_OF_WREPLAY [WORD..]
       growths.py PATH_OF_WREPLAY_BENCH

The commands are those of `crates/worked_rows/data/commands` that have one of the words, and recordings by threads that come to the
same each time; without a word those of the counter's first run, those of five waiting threads, those of two that trap, a hunt, three
exchanges, and these recordings. A small library, made by the C compiler and loaded before the system's, answers one of the program's calls for memory with none: the first, then the second, and so on until a run asks for no more. Each time
the program must do one of two things: exactly what it does with ample memory, or exit with 1, the output empty, and on
standard error one line `refused N NoMemory`, with `--why` and one more line. A dialogue with `debug` that was opened goes on: one of its
answers says that memory was wanting, and the others are as where that command was not given, or was made so far. An exchange by `dap` does
likewise, or stops behind whole answers. Behind each such run the same command is run again with ample memory and must
write the same bytes as before. Of `wreplay_bench` it is the run of a thread alone, which ends with another status than 0, the output
empty, where memory was wanted. It prints, for each command, how many growths were refused and with which lines.
"""

import collections
import itertools
import json
import os
import re
import shlex
import shutil
import subprocess
import sys
import tempfile

HERE = os.path.dirname(os.path.abspath(__file__))
ROWS = os.path.join(HERE, "..", "crates", "worked_rows", "data")
BENCH_ROWS = os.path.join(HERE, "..", "crates", "wreplay_bench", "data")
ALONE = "machine sieve.wasm sieve.plan"
# Threads that share nothing, so that each recording of them is as the others.
BY_THREADS = ["record alone.wasm alone2.plan --threads --report", "record alone.wasm alone2.plan --threads", "record far.wasm farf.plan --threads"]
# Commands that are to say why: what is refused has one more line.
WITH_REASONS = [
    "check counter.wasm --why",
    "check stacks.wasm --threads late.plan --why",
    "record counter.wasm counter.plan --schedule first.schedule --why",
    "gather --why < first.pieces",
    "replay counter.wasm counter.plan first.pieces --why",
    "replay counter.wasm counter.plan object.pieces --why",
    "replay counter.wasm counter.plan first.pieces --threads --why",
    "view counter.wasm counter.plan first.pieces --place 1.1 --why",
    "gather --by-object --only 1,0 --why < first.pieces",
    "gather --by-object --skip --shared < first.pieces",
    "chart --only 1,0 --to 1.1 --why < first.pieces",
    "chart --skip < first.pieces",
    "trace counter.wasm counter.plan first.pieces --only 0,1 --bytes 0+4 --bytes 60+8 --offsets --why",
    "record traps.wasm traps.plan --schedule traps.schedule --report --offsets --why",
    "replay traps.wasm traps.plan traps.pieces --offsets --why",
    "replay traps.wasm traps.plan traps.pieces --threads --offsets --why",
]
USUAL = ["first.", "five.", "traps.plan", "hunt counter.wasm counter.plan --until 'thread 0 i32 3'", "whole_evaluated.", "whole_breakpoints.", "launch_bad.", *BY_THREADS]

LIBRARY = r"""
#include <errno.h>
#include <stdlib.h>
#include <unistd.h>
extern void *__libc_malloc(size_t), *__libc_calloc(size_t, size_t), *__libc_realloc(void *, size_t), *__libc_memalign(size_t, size_t);
static long asked, refused;
/* Whether this call is the one to refuse; where it is, a byte on descriptor 3 tells so. */
static int is_refused(void) {
    if (!refused) { char *word = getenv("REFUSED_GROWTH"); refused = word ? atol(word) : -1; }
    if (__sync_add_and_fetch(&asked, 1) != refused) return 0;
    if (write(3, "r", 1) < 0) {}
    errno = ENOMEM;
    return 1;
}
void *malloc(size_t size) { return is_refused() ? 0 : __libc_malloc(size); }
void *calloc(size_t count, size_t size) { return is_refused() ? 0 : __libc_calloc(count, size); }
void *realloc(void *old, size_t size) { return is_refused() ? 0 : __libc_realloc(old, size); }
void *aligned_alloc(size_t align, size_t size) { return is_refused() ? 0 : __libc_memalign(align, size); }
void *memalign(size_t align, size_t size) { return is_refused() ? 0 : __libc_memalign(align, size); }
int posix_memalign(void **to, size_t align, size_t size) {
    void *got = is_refused() ? 0 : __libc_memalign(align, size);
    if (!got) return ENOMEM;
    *to = got;
    return 0;
}
"""


def commands(words):
    """The command lines that are wanted, each as its words, its standard input, and the file that keeps its output."""
    with open(os.path.join(ROWS, "commands")) as file:
        for line in file.read().splitlines():
            command, _, kept = line.partition(" > ")
            command, _, source = command.partition(" < ")
            yield line, shlex.split(command), source, kept, any(word in line for word in words)
    for line in BY_THREADS:
        yield line, line.split(), "", "", any(word in line for word in words)
    for line in WITH_REASONS:
        command, _, source = line.partition(" < ")
        yield line, shlex.split(command), source, "", any(word in line for word in words)


def is_refusal(words, usual, answer):
    """Whether memory is wanted, with nothing on the output; or a command that is refused does not say its usual reason."""
    status, output, errors = answer
    if words == ALONE.split():
        return status != 0 and output == b""
    if status != 1 or output != b"":
        return False
    if "--why" not in words:
        return re.fullmatch(rb"refused \d+ NoMemory\n", errors) is not None
    if errors == b"refused 23 NoMemory\n":
        # The words were not understood yet.
        return True
    first, _, rest = errors.partition(b"\n")
    known = re.fullmatch(rb"refused \d+ NoMemory", first) or (usual[0] == 1 and first == usual[2].partition(b"\n")[0])
    return bool(known) and re.fullmatch(rb"[^\n]+: [^\n]+\n", rest) is not None


def steps_in(text):
    """How many steps all threads have made, by their lines."""
    return sum(int(steps) for steps in re.findall(rb"^thread \d+ steps (\d+) places", text, re.MULTILINE))


def wanting_answers(answers, lines, behind, end):
    """What a dialogue may be where memory was wanting for one command. `answers` is what is answered to lines with ample memory, `behind`
    the number of the lines before that command, and `end` what was written from its answer on."""
    before, line, after = lines[:behind], lines[behind], lines[behind + 1 :]
    front, whole = answers(before), answers(before + [line])
    head = whole[len(front) :].partition(b"\n")[0] + b"\n"
    # All is as it was; or the command was made, and memory was wanting for the lines behind the first.
    for told in (b"", b"no such place: stopped "):
        yield front + b"error: " + told + b"memory\n" + answers(before + after)[len(front) :]
    yield front + head + b"error: memory\n" + answers(lines)[len(whole) :]
    made = re.match(rb"stepped (\d+) memory\n", end)
    if made and line.startswith((b"step ", b"event ", b"finish ")):
        fewer = before + [b"step " + line.split(b" ")[1] + b" " + made[1]]
        yield front + made[0] + answers(fewer + after)[len(front) + len(b"stepped \n" + made[1]) :]
    if end.startswith(b"stopped memory\n") and line.startswith((b"continue", b"again ")):
        # Rounds of fewer steps are those of all, and back.
        stood = answers(before + [b"threads"])[len(front) :]
        lacking = steps_in(whole[len(front) :]) - steps_in(b"\n".join(end.split(b"\n")[1 : 1 + stood.count(b"\n")]))
        fewer = before + [line, b"back %d" % lacking]
        yield front + b"stopped memory\n" + answers(fewer + after)[len(whole) + len(b"back\n") :]


def is_wanting_dialogue(answers, lines, written):
    """Whether a dialogue was made but for one command, for which memory was wanting."""
    fronts = [answers(lines[:n]) for n in range(len(lines))]
    front = max((front for front in fronts if written.startswith(front)), key=len)
    places = (n for n in range(len(lines)) if fronts[n] == front)
    return any(written in wanting_answers(answers, lines, n, written[len(front) :]) for n in places)


def messages_in(text):
    """The messages of an exchange with an editor; what is cut short is none."""
    found = []
    while True:
        head, _, behind = text.partition(b"\r\n\r\n")
        size = re.fullmatch(rb"Content-Length: (\d+)", head)
        if size is None or len(behind) < int(size[1]):
            return found
        found.append(json.loads(behind[: int(size[1])]))
        text = behind[int(size[1]) :]


def is_wanting_exchange(usual, answer):
    """Whether an exchange stops for want of memory behind whole answers, or says of one request that memory was wanting for it and answers
    the others behind it."""
    status, output, errors = answer
    if (status, errors) not in ((0, b""), (1, b"refused 23 NoMemory\n")):
        return False
    told, known = messages_in(output), messages_in(usual[1])
    same = sum(1 for _ in itertools.takewhile(lambda pair: pair[0] == pair[1], zip(told, known)))
    if same == len(told):
        return status == 1
    asked, answered = ([it["request_seq"] for it in all_of if it["type"] == "response"] for all_of in (known, told))
    is_told = re.search(r"error: memory|NoMemory|memory\\n", json.dumps(told[same])) is not None
    return is_told and answered == asked[: len(answered)] and (status == 1 or len(answered) == len(asked))


def run(path, library, folder, words, source, growth):
    """What a command does where one growth is refused, and whether that growth came."""
    told, tell = os.pipe()
    environment = dict(os.environ, LD_PRELOAD=library, REFUSED_GROWTH=str(growth)) if growth else dict(os.environ)
    with open(os.path.join(folder, source) if source else os.devnull, "rb") as file:
        def hand_over():
            os.dup2(tell, 3)
        done = subprocess.run([path, *words], cwd=folder, stdin=file, capture_output=True, env=environment, preexec_fn=hand_over, pass_fds=(3,))
    os.close(tell)
    came = os.read(told, 1) != b""
    os.close(told)
    return (done.returncode, done.stdout, done.stderr), came


class Dialogue:
    """The lines of a dialogue, and what is answered to others in their place with ample memory."""

    def __init__(self, path, folder, words, source):
        self.path, self.folder, self.words, self.known = path, folder, words, {}
        self.lines = []
        if source:
            with open(os.path.join(folder, source), "rb") as file:
                self.lines = file.read().removesuffix(b"\n").split(b"\n")

    def answers(self, lines):
        text = b"".join(line + b"\n" for line in lines)
        if text not in self.known:
            self.known[text] = subprocess.run([self.path, *self.words], cwd=self.folder, input=text, capture_output=True, check=False).stdout
        return self.known[text]


def refuse_each(path, library, folder, line, words, source):
    usual, _ = run(path, library, folder, words, source, 0)
    dialogue = Dialogue(path, folder, words, source)
    answers = collections.Counter()
    growth = 1
    while True:
        answer, came = run(path, library, folder, words, source, growth)
        if not came:
            break
        status, output, errors = answer
        if answer == usual:
            answers["as with ample memory"] += 1
        elif is_refusal(words, usual, answer):
            answers[errors.decode().strip().replace("\n", " | ")] += 1
        elif words[0] == "dap" and is_wanting_exchange(usual, answer):
            answers["memory wanting for a request" if status == 0 else "memory wanting for an answer"] += 1
        elif words[0] == "debug" and (status, errors) == (0, b"") and is_wanting_dialogue(dialogue.answers, dialogue.lines, output):
            answers["memory wanting for a command"] += 1
        else:
            sys.exit(f"{line}: growth {growth}: status {status}, errors {errors!r}")
        again, _ = run(path, library, folder, words, source, 0)
        if again != usual:
            sys.exit(f"{line}: after growth {growth} was refused it does something else")
        growth += 1
    told = ", ".join(f"{count} {text}" for text, count in sorted(answers.items()))
    print(f"{line}: {growth - 1} growths: {told}", flush=True)
    if growth == 1:
        sys.exit("the program asked for no memory: is it linked to the system's library?")


def main():
    path, wanted = os.path.abspath(sys.argv[1]), sys.argv[2:] or USUAL
    with tempfile.TemporaryDirectory() as folder:
        data = os.path.join(folder, "data")
        is_bench = os.path.basename(path) == "wreplay_bench"
        shutil.copytree(BENCH_ROWS if is_bench else ROWS, data)
        with open(os.path.join(folder, "refuse.c"), "w") as file:
            file.write(LIBRARY)
        library = os.path.join(folder, "refuse.so")
        subprocess.run(["cc", "-shared", "-fPIC", "-O1", "-o", library, os.path.join(folder, "refuse.c")], check=True)
        if is_bench:
            refuse_each(path, library, data, ALONE, ALONE.split(), "")
            return
        for line, words, source, kept, is_wanted in commands(wanted):
            if kept:
                usual, _ = run(path, library, data, words, source, 0)
                with open(os.path.join(data, kept), "wb") as file:
                    file.write(usual[1])
            if is_wanted:
                refuse_each(path, library, data, line, words, source)


if __name__ == "__main__":
    main()
