#!/usr/bin/env python3
"""Makes large inputs, so that they need not be kept.

usage: large_inputs.py cases FOLDER    the stored cases that are made: for each its folder as in tests/cases/*
       large_inputs.py styles N        a script of one box with N commands 'style', on standard output
"""
import json
import os
import sys


def script(boxes, commands):
    return {"version": 1, "canvas": {"w": 8, "h": 8}, "boxes": boxes, "script": commands}


def siblings(count):
    """So many boxes: the root and its children."""
    boxes = [{"id": "root", "parent": None, "rect": [0, 0, 8, 8]}]
    return boxes + [{"id": f"b{i}", "parent": "root", "rect": [i % 8, 0, 1, 1]} for i in range(1, count)]


def insertion(name):
    return {"do": "insert", "id": name, "parent": "root", "rect": [0, 0, 1, 1]}


# name: (input, standard output, standard error, status)
CASES = {
    # the largest tree takes no box more, and one in the place of one that went
    "twenty_thousand_siblings": (
        script(siblings(20_000), [insertion("z"), {"do": "remove", "id": "b1"}, insertion("z"), insertion("z2")]),
        "refused 8\nok\nok\nrefused 8\n",
        "",
        0,
    ),
    "one_sibling_more": (script(siblings(20_001), []), "", "form: top: Count\n", 3),
}


def write_cases(folder):
    for name, (value, out, err, status) in CASES.items():
        files = {
            "stdin": json.dumps(value, separators=(",", ":")),
            "args": "replay\n",
            "stdout": out,
            "stderr": err,
            "status": f"{status}\n",
        }
        os.makedirs(f"{folder}/{name}")
        for end, text in files.items():
            with open(f"{folder}/{name}/{end}", "w") as file:
                file.write(text)


def write_styles(count):
    value = script(siblings(1), [])
    head, tail = json.dumps(value, separators=(",", ":")).split("[]}")
    sys.stdout.write(head + "[")
    for i in range(count):
        comma = "," if i else ""
        sys.stdout.write(f'{comma}{{"do":"style","id":"root","style":{{"background":"#{i & 0xffffff:06x}"}}}}')
    sys.stdout.write("]}" + tail)


if len(sys.argv) == 3 and sys.argv[1] == "cases":
    write_cases(sys.argv[2])
elif len(sys.argv) == 3 and sys.argv[1] == "styles":
    write_styles(int(sys.argv[2]))
else:
    sys.exit(__doc__)
