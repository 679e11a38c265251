#!/usr/bin/env python3
"""What tiles cost beside the canvas: `python3 bench/tiles.py PROGRAM`.

A canvas of 512 by 512 has a box in each of its 64 tiles and 20 small boxes in each of these; each edit gives one tile's box
another colour, and a paint follows. The scene `covered` has an opaque box over each tile, which takes the colours, and the
scene `covers alone` has nothing else. Each scene comes with 10 and with 60 edits, the first 10 of them the same, and the
difference is told for one edit with its paint, in thousand instructions as callgrind of valgrind counts them, by what calls
take with all that they call: the canvas's own `repaint`, the painting of tiles, and all that the word `tiles` does after a
paint (which tiles are met, their painting, and the line). Run by hand; nothing in the gate looks at time.
"""
import json
import pathlib
import re
import subprocess
import sys
import tempfile

from paints import box, written

SIDE, TILE = 512, 64
FEW, MANY = 10, 60
REPAINT, FOLLOW = "rd_paint::areas::repaint_part", "rd_run::tiling::follow"


def tile_rect(number):
    return [TILE * (number % 8), TILE * (number // 8), TILE, TILE]


def boxes(scene):
    found = [{"id": "root", "parent": None, "rect": [0, 0, SIDE, SIDE], "style": {"background": "#ffffff"}}]
    for t in range(64 if scene != "covers alone" else 0):
        x, y, *_ = tile_rect(t)
        found.append(box(f"tile{t}", "root", tile_rect(t), {"background": "#eeeeee"}))
        for k in range(20):
            rect = [x + 2 + 3 * (k % 10), y + 2 + 20 * (k // 10), 20, 18]
            found.append(box(f"tile{t}.{k}", f"tile{t}", rect, {"background": "#%06x" % (k * 4321)}))
    for t in range(64 if scene != "open" else 0):
        found.append(box(f"cover{t}", "root", tile_rect(t), {"background": "#dddddd"}))
    return found


def script(scene, edits):
    name = "tile" if scene == "open" else "cover"
    commands = [{"do": "paint"}]
    for i in range(edits):
        commands.append({"do": "style", "id": f"{name}{i * 7 % 64}", "style": {"background": "#%06x" % (i * 991)}})
        commands.append({"do": "paint"})
    return json.dumps({"version": 1, "canvas": {"w": SIDE, "h": SIDE}, "boxes": boxes(scene), "script": commands})


def inclusive(program, word, path, name):
    """Instructions of all calls whose names begin so, with what they call."""
    with tempfile.TemporaryDirectory() as folder:
        out = pathlib.Path(folder) / "out"
        tool = ["valgrind", "--tool=callgrind", f"--callgrind-out-file={out}"]
        with open(path, "rb") as text:
            subprocess.run([*tool, program, word], stdin=text, stdout=subprocess.DEVNULL, stderr=subprocess.DEVNULL, check=True)
        listed = subprocess.run(
            ["callgrind_annotate", "--inclusive=yes", "--threshold=100", str(out)], capture_output=True, text=True
        ).stdout
    rows = re.findall(r"(?m)^\s*([\d,]+) \(.*?\)\s+\S*?:(\S+)", listed)
    return sum(int(count.replace(",", "")) for count, called in rows if called.startswith(name))


def cost(program, word, scene, name):
    """The same for one edit with its paint."""
    with tempfile.TemporaryDirectory() as folder:
        few, many = (inclusive(program, word, written(folder, str(n), script(scene, n)), name) for n in (FEW, MANY))
    return (many - few) / (MANY - FEW) / 1000


def main():
    if len(sys.argv) != 2 or sys.argv[1].startswith("-"):
        sys.exit(__doc__)
    program = sys.argv[1]
    print("| Scene | `repaint` of the canvas | painting of tiles | all that `tiles` does after a paint |")
    print("|---|---|---|---|")
    for scene in ("open", "covered", "covers alone"):
        canvas = cost(program, "replay", scene, REPAINT)
        both = cost(program, "tiles", scene, REPAINT)
        print(f"| {scene} | {canvas:.1f} | {both - canvas:.1f} | {cost(program, 'tiles', scene, FOLLOW):.1f} |", flush=True)


if __name__ == "__main__":
    main()
