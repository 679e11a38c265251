#!/usr/bin/env python3
"""Counts what calls of the C interface take: python3 bench/c_calls.py ARCHIVES, folders with librd_c.a and liblibc_c.a, with `:` between.

Of a page of so many boxes, the instructions (callgrind) of one call, by the difference of two runs: an edit of a box that is not there,
which is all that the interface adds, with one look-up; a move; a move with its paint; a hit; a copy of 64 by 64 pixels.
"""
import os
import re
import subprocess
import sys
import tempfile

HERE = os.path.dirname(os.path.realpath(__file__))


def instructions(words):
    ran = subprocess.run(["valgrind", "--tool=callgrind", "--callgrind-out-file=/dev/null", *words], capture_output=True, text=True, check=True)
    return int(re.search(r"Collected : (\d+)", ran.stderr)[1])


def main(archives):
    found = {}
    for place in archives.split(":"):
        for name in ("librd_c.a", "liblibc_c.a"):
            if os.path.isfile(f"{place}/{name}"):
                found.setdefault(name, f"{place}/{name}")
    with tempfile.TemporaryDirectory() as folder:
        program = f"{folder}/c_calls"
        words = ["gcc", "-std=c99", "-O2", f"-I{HERE}/../bindings/c", f"{HERE}/c_calls.c", found["librd_c.a"], found["liblibc_c.a"]]
        subprocess.run([*words, "-o", program], check=True)
        print("| Boxes | unknown | edits | paints | hits | copies |\n|---|---|---|---|---|---|")
        for boxes in (1000, 5000, 20000):
            row = []
            for what in ("unknown", "edits", "paints", "hits", "copies"):
                few, many = (instructions([program, str(boxes), what, str(n)]) for n in (20, 120))
                row.append((many - few) // 100)
            print("|", " | ".join(map(str, [boxes, *row])), "|", flush=True)


if __name__ == "__main__":
    main(*sys.argv[1:])
