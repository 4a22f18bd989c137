#!/usr/bin/env python3
"""Writes a layout file: change TASKS, then run

    python3 docs/src/make_layout.py > my.layout

Each task is a list of regions, each a base and a length in bytes and the rights as text.
"""
import struct
import sys

TASKS = [
    [(0x80000000, 0x1000, "rx"), (0x80001000, 0x1800, "rw")],
    [(0x10000000, 4, "r")],
]

RIGHTS = {"r": 1, "w": 2, "x": 4}


def layout(tasks):
    regions = [region for task in tasks for region in task]
    words = [len(tasks), len(regions), 16, 16 + 8 * len(tasks)]
    first = 0
    for task in tasks:
        words += [first, len(task)]
        first += len(task)
    for base, length, rights in regions:
        words += [base // 4, length // 4, sum(RIGHTS[r] for r in rights), 0]
    return struct.pack("<%dI" % len(words), *words)


sys.stdout.buffer.write(layout(TASKS))
