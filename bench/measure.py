#!/usr/bin/env python3
"""Times the built program on inputs of growing size: `python3 bench/measure.py crates/rd_cli/out/rd_cli`.

For each input it prints the seconds that passed, the seconds of processor time, and the most memory that was held.
Run by hand; nothing in the gate looks at time.
"""
import json
import os
import resource
import subprocess
import sys
import tempfile


def boxes(count, parent):
    root = {"id": "root", "parent": None, "rect": [0, 0, 100, 100], "style": {"background": "#ffffff"}}
    style = {"background": "#336699"}
    return [root] + [
        {"id": f"b{i}", "parent": parent(i), "rect": [i % 90, i % 80, 10, 10], "style": style}
        for i in range(1, count)
    ]


def script(found, commands):
    canvas = {"w": 100, "h": 100}
    return json.dumps({"version": 1, "canvas": canvas, "boxes": found, "script": commands}).encode()


def flat(i):
    return "root"


def page(i):
    return "root" if i < 10 else f"b{i // 10}"


def chain(i):
    return "root" if i == 1 else f"b{i - 1}"


def insertions(count):
    return [
        {"do": "insert", "id": f"b{i}", "parent": "root", "rect": [i % 90, i % 80, 10, 10]} for i in range(1, count)
    ]


def each(count, command):
    return [{"id": f"b{i}", **command} for i in range(1, count)]


PAINT = [{"do": "paint"}, {"do": "dump"}]
INPUTS = [
    ("32 MiB of spaces", lambda: b" " * (1 << 25)),
    ("64 MiB of spaces", lambda: b" " * (1 << 26)),
    ("500,000 paint commands, one box", lambda: script(boxes(1, flat), PAINT[:1] * 500_000)),
    ("1,000,000 paint commands, one box", lambda: script(boxes(1, flat), PAINT[:1] * 1_000_000)),
    ("20,000 boxes, no command", lambda: script(boxes(20_000, flat), [])),
    ("1,000 boxes below the root, painted and dumped", lambda: script(boxes(1_000, flat), PAINT)),
    ("1,000 boxes of a page, painted and dumped", lambda: script(boxes(1_000, page), PAINT)),
    ("5,000 boxes of a page, painted and dumped", lambda: script(boxes(5_000, page), PAINT)),
    ("20,000 boxes of a page, painted and dumped", lambda: script(boxes(20_000, page), PAINT)),
    ("a chain of 256 boxes, painted and dumped", lambda: script(boxes(256, chain), PAINT)),
    ("10,000 insertions below the root", lambda: script(boxes(1, flat), insertions(10_001))),
    ("19,999 insertions below the root", lambda: script(boxes(1, flat), insertions(20_000))),
    ("10,000 boxes, each moved to the end", lambda: script(boxes(10_001, flat), each(10_001, {"do": "move", "parent": "root"}))),
    ("19,999 boxes, each moved to the end", lambda: script(boxes(20_000, flat), each(20_000, {"do": "move", "parent": "root"}))),
    ("10,000 boxes, each removed", lambda: script(boxes(10_001, flat), each(10_001, {"do": "remove"}))),
    ("19,999 boxes, each removed", lambda: script(boxes(20_000, flat), each(20_000, {"do": "remove"}))),
    ("19,999 boxes, each shifted", lambda: script(boxes(20_000, flat), each(20_000, {"do": "shift", "dx": 1, "dy": 1}))),
    ("19,999 boxes, each given another background", lambda: script(boxes(20_000, flat), each(20_000, {"do": "style", "style": {"background": "#ff0000"}}))),
]


def measured(program, data):
    with tempfile.NamedTemporaryFile() as file:
        file.write(data)
        file.flush()
        read, write = os.pipe()
        child = os.fork()
        if child == 0:
            with open(file.name, "rb") as source:
                started = resource.getrusage(resource.RUSAGE_CHILDREN)
                begun = os.times().elapsed
                subprocess.run([program, "replay"], stdin=source, stdout=subprocess.DEVNULL, stderr=subprocess.DEVNULL)
                passed = os.times().elapsed - begun
                used = resource.getrusage(resource.RUSAGE_CHILDREN)
            line = f"{passed:.2f} s, {used.ru_utime - started.ru_utime:.2f} s of processor time, {used.ru_maxrss // 1024} MB"
            os.write(write, line.encode())
            os._exit(0)
        os.waitpid(child, 0)
        return os.read(read, 200).decode()


if __name__ == "__main__":
    for name, make in INPUTS:
        print(f"{name}: {measured(sys.argv[1], make())}", flush=True)
