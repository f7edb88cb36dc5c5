#!/usr/bin/env python3
"""Measures how fast modules of the greatest size are decoded and validated, one of each of the shapes that are hard.

usage: decode.py PATH_OF_WREPLAY_BENCH

It writes each shape as a module of at most 1,048,576 bytes to a temporary folder and has
`wreplay_bench decode` decode it, and decode and validate it, ROUNDS times in one process. What reading the file and starting take is timed with no round, and
taken off; validating is the difference of the two. Times are processor time, of the program and of the system for it, the
least of RUNS. The peer is `wasm-validate --enable-threads` of wabt, which decodes and validates once, less what it takes
for an empty module; where it is not there, `sha256sum` over the same bytes, which does neither.

It prints a line for each shape: the bytes, MB a second (1,000,000 bytes) decoding, validating and by the peer, and the
seconds a byte of decoding, and of both, as multiples of their medians. It ends with status 1 where one is more than five,
or where the modules counted are not as the shape asks.
"""

import os
import shutil
import statistics
import subprocess
import sys
import tempfile

RUNS = 3
ROUNDS = 10
MOST_BYTES = 1_048_576
PREAMBLE = b"\x00asm\x01\x00\x00\x00"
# Whether a decoder takes the module. What it takes is well typed.
TAKEN = True
REFUSED = False


def u32(number):
    """A number in LEB128."""
    out = bytearray()
    while number >= 128:
        out.append(number % 128 + 128)
        number //= 128
    out.append(number)
    return bytes(out)


def section(number, content):
    """A section of this id."""
    return bytes([number]) + u32(len(content)) + content


def functions(bodies, exports=b""):
    """A module of functions of no parameters and no result that have these bodies, with these exports."""
    kinds = section(1, b"\x01\x60\x00\x00")
    types = section(3, u32(len(bodies)) + bytes(len(bodies)))
    code = section(10, u32(len(bodies)) + b"".join(u32(len(body)) + body for body in bodies))
    return PREAMBLE + kinds + types + exports + code


def shapes():
    """The shapes: a name, a module, and whether a decoder takes it."""
    room = MOST_BYTES - 64
    yield "plain instructions", functions([b"\x00" + b"\x01" * room + b"\x0b"]), TAKEN
    yield "constants", functions([b"\x00" + b"\x41\xff\xff\xff\xff\x07\x1a" * (room // 7) + b"\x0b"]), TAKEN
    yield "nested blocks", functions([b"\x00" + b"\x02\x40" * 340_000 + b"\x0b" * 340_001]), TAKEN
    yield "blocks that stay open", functions([b"\x00" + b"\x02\x40" * (room // 2)]), REFUSED
    yield "labels of one table", functions([b"\x00\x41\x00\x0e" + u32(900_000) + b"\x00" * 900_001 + b"\x0b"]), TAKEN
    yield "many tables", functions([b"\x00\x41\x00" + b"\x0e\x00\x00" * (room // 3 - 1) + b"\x0b"]), TAKEN
    yield "60,000 functions", functions([b"\x00" + b"\x01" * 13 + b"\x0b"] * 60_000), TAKEN
    groups = room // 2
    yield "local groups of count 0", functions([u32(groups) + b"\x00\x7f" * groups + b"\x0b"]), TAKEN
    gets = b"\x20\x00\x1a" * 170_000
    yield "local.get behind 250,000 groups", functions([u32(250_001) + b"\x00\x7f" * 250_000 + b"\x01\x7e" + gets + b"\x0b"]), TAKEN
    gets = b"\x20\xff\x07\x1a" * 260_000
    yield "local.get of 1,024 groups", functions([u32(1_024) + b"\x01\x7f\x01\x7e" * 512 + gets + b"\x0b"]), TAKEN
    yield "1,024 locals of each function", functions([b"\x01\x80\x08\x7f\x0b"] * 149_000), TAKEN
    names = u32(100_000) + b"".join(b"\x07" + b"%07d" % place + b"\x00\x00" for place in range(100_000))
    yield "exports", functions([b"\x00\x0b"], section(7, names)), TAKEN
    names = u32(4_000) + b"".join(b"\xfa\x01" + b"x" * 243 + b"%07d" % place + b"\x00\x00" for place in range(4_000))
    yield "exports that begin alike", functions([b"\x00\x0b"], section(7, names)), TAKEN
    yield "types", PREAMBLE + section(1, u32(room // 3) + b"\x60\x00\x00" * (room // 3)), TAKEN
    yield "custom sections", PREAMBLE + b"\x00\x01\x00" * (room // 3), TAKEN
    yield "a long name", PREAMBLE + section(0, u32(room) + "\u00e9".encode() * (room // 2)), TAKEN
    memory = section(5, b"\x01\x00\x11")
    yield "data", PREAMBLE + memory + section(11, b"\x01\x00\x41\x00\x0b" + u32(room) + bytes(room)), TAKEN
    most = u32(2**32 - 1)
    yield "count of 2^32 - 1 types", PREAMBLE + section(1, most + b"\x60\x00\x00" * (room // 3)), REFUSED
    yield "count of 2^32 - 1 labels", functions([b"\x00\x0e" + most + b"\x00" * room]), REFUSED
    yield "count of 2^32 - 1 groups", functions([most + b"\x00\x7f" * (room // 2)]), REFUSED


def seconds(words):
    """The least processor time of a command, and what it writes."""
    least = float("inf")
    for _ in range(RUNS):
        with tempfile.TemporaryFile() as out:
            process = subprocess.Popen(words, stdout=out, stderr=subprocess.DEVNULL)
            _, _, used = os.wait4(process.pid, 0)
            process.returncode = 0
            out.seek(0)
            text = out.read()
        least = min(least, used.ru_utime + used.ru_stime)
    return least, text


def peer():
    """The words of the peer, before the file."""
    if shutil.which("wasm-validate"):
        return ["wasm-validate", "--enable-threads"]
    return ["sha256sum"]


def measure(program, folder):
    """A row for each shape, and whether each was counted as it should be."""
    path = os.path.join(folder, "module.wasm")
    with open(path, "wb") as file:
        file.write(PREAMBLE)
    peer_start, _ = seconds(peer() + [path])
    rows = []
    right = True
    for name, module, taken in shapes():
        assert len(module) <= MOST_BYTES, name
        with open(path, "wb") as file:
            file.write(module)
        start, _ = seconds([program, "decode", "decode", path, "0"])
        decoding, decoded = seconds([program, "decode", "decode", path, str(ROUNDS)])
        both, validated = seconds([program, "decode", "validate", path, str(ROUNDS)])
        other, _ = seconds(peer() + [path])
        size = len(module) / 1e6
        # seconds for each MB
        rows.append((name, len(module), taken, (decoding - start) / ROUNDS / size, (both - start) / ROUNDS / size, max(other - peer_start, 1e-6) / size))
        wanted = b"%d\n" % (ROUNDS if taken else 0)
        if decoded != wanted or validated != wanted:
            print(f"{name}: counted {decoded!r} and {validated!r}", file=sys.stderr)
            right = False
    return rows, right


def main():
    if len(sys.argv) != 2:
        sys.exit(__doc__)
    with tempfile.TemporaryDirectory() as folder:
        rows, right = measure(sys.argv[1], folder)
    decode_median = statistics.median(row[3] for row in rows)
    both_median = statistics.median(row[4] for row in rows)
    print(f"| Shape | Bytes | Decoding MB/s | Times the median | Validating MB/s | Both MB/s | Times the median | {peer()[0]} MB/s |")
    print("|---|---:|---:|---:|---:|---:|---:|---:|")
    for name, size, taken, decoding, both, other in rows:
        validating = "refused"
        if taken:
            validating = f"{1 / (both - decoding):.0f}" if both - decoding > 1e-4 else "too fast"
        print(f"| {name} | {size:,} | {1 / decoding:.0f} | {decoding / decode_median:.1f} | {validating} | {1 / both:.0f} | {both / both_median:.1f} | {1 / other:.0f} |")
        right = right and decoding <= 5 * decode_median and both <= 5 * both_median
    sys.exit(0 if right else 1)


if __name__ == "__main__":
    main()
