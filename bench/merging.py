#!/usr/bin/env python3
"""What a merge costs: `python3 bench/merging.py PROGRAM`.

Printed are, for one edit with its paint, the thousand instructions that callgrind of valgrind counts in the two halves of
the merge with all that they call: the first reads the lists and takes all memory, the second changes the kept list and takes
none. Beside them stand the entries of the list, and those that a paint made. Each scene comes with K and with 2K edits, and
the difference over K is told. Run by hand; nothing in the gate looks at time.
"""
import re
import subprocess
import sys
import tempfile

from building import cost
from paints import flat, page, scene, spread, written

HALVES = ("rd_merge::preparing::plan_level", "rd_merge::finishing::finish")
SCENES = [
    (name, kind, count, edits)
    for name, kind, edits in (("page", page, 40), ("flat", flat, 20), ("spread", spread, 40))
    for count in (1000, 5000, 20000)
]


def counts(program, path):
    """How many items were built and kept at the paints after the first."""
    with open(path, "rb") as text:
        out = subprocess.run([program, "replay"], stdin=text, capture_output=True, check=True).stdout.decode()
    paints = [tuple(map(int, it)) for it in re.findall(r"paint \d+ built (\d+) kept (\d+)", out)][1:]
    return [sum(it[0] for it in paints) / len(paints), sum(sum(it) for it in paints) / len(paints)]


def main():
    if len(sys.argv) != 2 or sys.argv[1].startswith("-"):
        sys.exit(__doc__)
    program = sys.argv[1]
    print("| Scene, boxes | items of the list | made by a paint | first half, thousand instructions | second half |")
    print("|---|---|---|---|---|")
    for name, kind, count, edits in SCENES:
        with tempfile.TemporaryDirectory() as folder:
            once, twice = (written(folder, str(k), scene(kind, count, k * edits)) for k in (1, 2))
            halves = [
                (cost(program, half, twice, folder) - cost(program, half, once, folder)) / edits / 1000 for half in HALVES
            ]
            built, all_items = counts(program, once)
            print(f"| {name}, {count} | {all_items:.0f} | {built:.0f} | {halves[0]:.1f} | {halves[1]:.1f} |", flush=True)


if __name__ == "__main__":
    main()
