#!/usr/bin/env python3
"""What a scroll with its paint costs: `python3 bench/scrolling.py PROGRAM [OTHER]`.

A list of rows of four boxes stands in a box of 600 pixels that clips, and is scrolled down by 3 pixels, by 60 or by a page, a
paint after each, from its end on from the top again; with a header the same under a fixed box. Each scene comes with K and
with 2K scrolls, the first K of them the same, and the difference over K is told: in thousand instructions, as callgrind of
valgrind counts them, for 20 scrolls, and in milliseconds of processor time, the least of three runs, for 500. OTHER is a
program of version 1, which has no scroll offsets: for it the box round the rows is shifted up, which shows the same. The
last scenes grow, and what shows of them stays the same.
Run by hand; nothing in the gate looks at time.
"""
import json
import sys
import tempfile

from paints import box, instructions, seconds, written

WIDTH, HEIGHT, TOP, ROW = 400, 660, 60, 24
COUNTED, TIMED = 20, 500


def boxes(rows, header):
    """A clipping box with all rows in one box below it, and a header over it."""
    found = [
        {"id": "page", "parent": None, "rect": [0, 0, WIDTH, HEIGHT], "style": {"background": "#f4f1e8"}},
        box("list", "page", [0, TOP, WIDTH, HEIGHT - TOP], {"overflow": "auto", "background": "#ffffff"}),
        box("rows", "list", [0, TOP, WIDTH, rows * ROW], {}),
    ]
    for i in range(rows):
        y = TOP + ROW * i
        found.append(box(f"row{i}", "rows", [0, y, WIDTH, ROW - 2], {"background": ("#84a98c", "#52796f")[i % 2]}))
        found.append(box(f"icon{i}", f"row{i}", [6, y + 4, 14, 14], {"background": "#cad2c5"}))
        found.append(box(f"text{i}", f"row{i}", [28, y + 6, 60 + 37 * i % 200, 10], {"content": "#2f3e46"}))
        found.append(box(f"mark{i}", f"row{i}", [WIDTH - 20, y + 6, 10, 10], {"background": "#e76f51"}))
    if header:
        found.append(box("header", "page", [0, 0, WIDTH, TOP], {"position": "fixed", "background": "#2f3e46"}))
        found.append(box("title", "header", [8, 20, 120, 20], {"content": "#f4f1e8"}))
    return found


def script(rows, header, step, count, shifted):
    """The rows painted, and then scrolled so often, or shifted up."""
    commands = [{"do": "paint"}]
    places = [step * i % (rows * ROW - 600) for i in range(count + 1)]
    for before, now in zip(places, places[1:]):
        if shifted:
            commands.append({"do": "shift", "id": "rows", "dx": 0, "dy": before - now})
        else:
            commands.append({"do": "scroll", "id": "list", "x": 0, "y": now})
        commands.append({"do": "paint"})
    value = {"version": 1 if shifted else 2, "canvas": {"w": WIDTH, "h": HEIGHT}}
    return json.dumps({**value, "boxes": boxes(rows, header), "script": commands})


SCENES = [
    (f"{rows} rows, {step} pixels{', under a header' if header else ''}", rows, header, step)
    for rows, header, step in (
        [(2000, header, step) for header in (False, True) for step in (3, 60, 600)]
        + [(rows, True, 3) for rows in (500, 1000, 4900)]
    )
]


def cost(program, measure, count, one):
    """What a scroll with its paint costs by a measure of a program and a script; `one` is all but the count of scrolls."""
    rows, header, step, shifted = one
    with tempfile.TemporaryDirectory() as folder:
        paths = [written(folder, str(k), script(rows, header, step, k * count, shifted)) for k in (1, 2)]
        once, twice = (measure(program, path) for path in paths)
    return (twice - once) / count


def main():
    if len(sys.argv) not in (2, 3) or sys.argv[1].startswith("-"):
        sys.exit(__doc__)
    programs = [(sys.argv[1], False)] + [(it, True) for it in sys.argv[2:]]
    names = ["this program", "other program"][: len(programs)]
    print("| Scene | " + " | ".join(f"{it}, thousand instructions | ms" for it in names) + " |")
    print("|---|" + "---|---|" * len(programs))
    for name, rows, header, step in SCENES:
        cells = []
        for program, shifted in programs:
            one = (rows, header, step, shifted)
            counted = cost(program, instructions, COUNTED, one) / 1000
            cells.append(f"{counted:.0f} | {1000 * cost(program, seconds, TIMED, one):.2f}")
        print(f"| {name} | " + " | ".join(cells) + " |", flush=True)


if __name__ == "__main__":
    main()
