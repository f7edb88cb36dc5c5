#!/usr/bin/env python3
"""Marks the memory of a WebAssembly module as shared, in the flag of its limits. The memory may be imported.

usage: share.py MODULE SHARED [OBJECT ..]

The linker makes a shared memory only together with bulk memory instructions, which the module must not have.

Each object is one of which the module was linked. clang takes thread-local variables and every atomic access out of an object that
has a thread-local variable, without a word, where there are no bulk memory instructions; such an object says that it can't be
linked with a shared memory (`-shared-mem` among its features), and is refused here.
"""

import sys

CUSTOM, IMPORT, MEMORY = 0, 2, 5
FUNCTION_IMPORT, TABLE_IMPORT, MEMORY_IMPORT, GLOBAL_IMPORT = range(4)
WITH_MAXIMUM, SHARED = 1, 3


def number(data, at):
    """The unsigned LEB128 number at a place, and the place behind it."""
    value, shift = 0, 0
    while True:
        byte = data[at]
        value |= (byte & 0x7F) << shift
        shift, at = shift + 7, at + 1
        if byte < 0x80:
            return value, at


def sections(module):
    """Each section's number, where its content begins, and where it ends."""
    at = 8
    while at < len(module):
        size, content = number(module, at + 1)
        yield module[at], content, content + size
        at = content + size


def behind_limits(module, at):
    """The place behind limits."""
    flag, at = module[at], at + 1
    _, at = number(module, at)
    return number(module, at)[1] if flag & 1 else at


def imported_flag(module, at):
    """Where the flag of the first imported memory's limits stands, if there is one."""
    count, at = number(module, at)
    for _ in range(count):
        for _ in range(2):
            length, at = number(module, at)
            at += length
        kind, at = module[at], at + 1
        if kind == MEMORY_IMPORT:
            return at
        if kind == FUNCTION_IMPORT:
            _, at = number(module, at)
        elif kind == TABLE_IMPORT:
            at = behind_limits(module, at + 1)
        elif kind == GLOBAL_IMPORT:
            at += 2
    return None


def flag_place(module):
    """Where the flag of the first memory's limits stands."""
    for section, content, _ in sections(module):
        if section == IMPORT:
            place = imported_flag(module, content)
            if place is not None:
                return place
        if section == MEMORY:
            return number(module, content)[1]
    sys.exit("the module has no memory")


def lost_atomics(module):
    """Whether an object says that it can't be linked with a shared memory."""
    for section, content, end in sections(module):
        if section != CUSTOM:
            continue
        length, at = number(module, content)
        if module[at : at + length] == b"target_features":
            return b"-\x0ashared-mem" in module[at + length : end]
    return False


def refuse_objects(paths):
    """Refuses objects whose atomic accesses were taken out."""
    for path in paths:
        with open(path, "rb") as file:
            if lost_atomics(file.read()):
                sys.exit(f"{path}: clang took its thread-local variables and its atomic accesses out: it says -shared-mem")


def main():
    refuse_objects(sys.argv[3:])
    with open(sys.argv[1], "rb") as file:
        module = bytearray(file.read())
    place = flag_place(module)
    if module[place] != WITH_MAXIMUM:
        sys.exit("the memory has no maximum")
    module[place] = SHARED
    with open(sys.argv[2], "wb") as file:
        file.write(module)


main()
