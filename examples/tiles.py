#!/usr/bin/env python3
"""Shows which tiles each paint repainted: `python3 examples/tiles.py LINES TILES PICTURE.png [SCALE]`.

LINES is what `replay` writes of a script that dumps after each paint, TILES what `tiles` writes of it. It draws one picture
a paint, side by side: the tiles that have a pixel in the area of the paint in the colours of the items' visible rectangles
and framed, all others pale, and hatched the pixels that the paint painted anew. Where the program tells another number of
tiles than are framed, it says so. Opacity is not drawn.
"""
import sys

from keeping import changed, drawn, paints
from png import write_png

SIDE = 64
FRAME = [30, 60, 160]


def tile(x, y):
    return x // SIDE, y // SIDE


def told(lines):
    """How many tiles the program repainted, and how many there are, by the paint's number."""
    rows = (line.split() for line in lines)
    return {int(row[1]): (int(row[3]), int(row[5])) for row in rows if row[0] == "tiles"}


def pale(color):
    return [235 + c // 13 for c in color]


def framed(rows, met):
    """The rows of a picture with a frame round each tile that is met, and all others pale."""
    height, width = len(rows), len(rows[0])
    for y in range(height):
        for x in range(width):
            if tile(x, y) not in met:
                rows[y][x] = pale(rows[y][x])
            elif x % SIDE in (0, SIDE - 1) or y % SIDE in (0, SIDE - 1) or x == width - 1 or y == height - 1:
                rows[y][x] = FRAME
    return rows


def main():
    if len(sys.argv) not in (4, 5):
        sys.exit(__doc__.splitlines()[0])
    with open(sys.argv[2]) as file:
        counts = told(file)
    before, frames = {}, []
    with open(sys.argv[1]) as file:
        for number, _, items in paints(file):
            width, height = next(iter(items.values()))[0][2:] if not frames else (width, height)
            invalid = changed(before, items)
            met = {tile(x, y) for x, y in invalid}
            every = -(-width // SIDE) * -(-height // SIDE)
            if counts.get(number) != (len(met), every):
                print(f"paint {number}: {counts.get(number)} told, {len(met)} of {every} tiles have a pixel that changed")
            shown = {key: (*item[:3], number) for key, item in items.items()}
            frames.append(framed(drawn(number, shown, invalid, width, height), met))
            before = items
    gap = [[160, 160, 160]] * 2
    rows = [sum((f[y] + gap for f in frames), [])[:-2] for y in range(height)]
    wide = [bytes(c for pixel in row for c in pixel) for row in rows]
    write_png(sys.argv[3], len(rows[0]), height, wide, int(sys.argv[4]) if len(sys.argv) == 5 else 1)


if __name__ == "__main__":
    main()
