#!/usr/bin/env python3
"""What building a list costs: `python3 bench/building.py PROGRAM [NAME=PROGRAM=FUNCTION[+FUNCTION ..] ..]`.

Each scene is painted once, so its whole list is built. Printed are the thousand instructions, by callgrind of valgrind, of
the functions that build the list with all that they call; the program's own are walk::context and Pieces::lay_out, those
of another program are named. The last rows are one edit more of a box of the spread scene, whose area about 1 % of the
boxes meet: what the list of that area costs beside the whole. Run by hand; nothing in the gate looks at time.
"""
import json
import os
import re
import subprocess
import sys
import tempfile

from paints import box, chain, flat, ink, page, scene, spread, written

OWN = "rd_partial::walk::context+rd_list::pieces::Pieces::lay_out"


def cost(program, functions, path, folder):
    """The instructions of the outermost calls of these functions."""
    profile = os.path.join(folder, "profile")
    words = ["valgrind", "--tool=callgrind", f"--callgrind-out-file={profile}", program, "replay"]
    with open(path, "rb") as text:
        subprocess.run(words, stdin=text, stdout=subprocess.DEVNULL, stderr=subprocess.DEVNULL, check=True)
    words = ["callgrind_annotate", "--inclusive=yes", "--threshold=100", profile]
    lines = subprocess.run(words, capture_output=True, text=True, check=True).stdout.splitlines()
    total, seen = 0, set()
    for line in lines:
        found = re.match(r" *([\d,]+) \(.*?\) +\S*?:(.*?)( \[.*)?$", line)
        if found is None or found.group(2).endswith("'2"):
            continue
        for name in functions.split("+"):
            if name in found.group(2) and name not in seen:
                seen.add(name)
                total += int(found.group(1).replace(",", ""))
    return total


def with_one_large(count, rng):
    """The spread scene with one box that about 1 % of the boxes meet."""
    size, found = spread(count, rng)
    return size, found + [box("large", "b0", [600, 400, 100, 80], {"background": ink(rng)})]


def edited(text):
    """The same script with one edit more of the large box, and a paint."""
    script = json.loads(text)
    script["script"] += [{"do": "style", "id": "large", "style": {"background": "#102030"}}, {"do": "paint"}]
    return json.dumps(script)


def main():
    if len(sys.argv) < 2 or sys.argv[1].startswith("-"):
        sys.exit(__doc__)
    programs = [("this program", sys.argv[1], OWN)] + [tuple(word.split("=", 2)) for word in sys.argv[2:]]
    print("| Scene, boxes | " + " | ".join(f"{name}, thousand instructions" for name, _, _ in programs) + " |")
    print("|---|" + "---|" * len(programs))
    kinds = (("page", page, (1000, 5000, 20000)), ("flat", flat, (1000, 5000, 20000)), ("chain", chain, (64, 128, 255)))
    with tempfile.TemporaryDirectory() as folder:
        for name, kind, sizes in kinds:
            for count in sizes:
                path = written(folder, "script", scene(kind, count, 0))
                cells = [f"{cost(program, functions, path, folder) / 1000:.0f}" for _, program, functions in programs]
                print(f"| {name}, {count} | " + " | ".join(cells) + " |", flush=True)
        text = scene(with_one_large, 19999, 0)
        whole, both = written(folder, "whole", text), written(folder, "both", edited(text))
        first = [cost(program, functions, whole, folder) for _, program, functions in programs]
        second = [cost(program, functions, both, folder) for _, program, functions in programs]
        print("| spread, 20000 | " + " | ".join(f"{a / 1000:.0f}" for a in first) + " |")
        print("| spread, the area of one edit | " + " | ".join(f"{(b - a) / 1000:.0f}" for a, b in zip(first, second)) + " |")


if __name__ == "__main__":
    main()
