#!/usr/bin/env python3
"""Shows what each paint kept: `./pouncelilac replay < SCRIPT | python3 examples/keeping.py PICTURE.png [SCALE]`.

For a script that dumps after each paint it draws one picture a paint, side by side: the visible rectangles of the items
that the paint made in their colours, those of the items that it kept in pale, and hatched the pixels that it painted anew
(where a leaf came, went or is not as it was). It reads the program's own lines and nothing else; opacity is not drawn.
"""
import sys

from png import write_png


def paints(lines):
    """For each dump the paint's number and area, and its items by box and part."""
    number, area, items = 0, 0, None
    for line in lines:
        words = line.split()
        if words[0] == "paint":
            if items is not None:
                yield number, area, items
            number, area, items = int(words[1]), int(words[7]), None
        elif words[0] == "dump":
            items = {}
        elif words[0] == "item":
            rectangle = tuple(map(int, words[4:8]))
            items[words[2], words[3]] = rectangle, tuple(bytes.fromhex(words[16])), words[4:18], int(words[18])
    if items is not None:
        yield number, area, items


def pixels(r):
    return ((x, y) for y in range(r[1], r[1] + r[3]) for x in range(r[0], r[0] + r[2]))


def changed(before, after):
    """The pixels where a leaf came, went or is not as it was."""
    found = set()
    for key in before.keys() | after.keys():
        old, new = before.get(key), after.get(key)
        if old is None or new is None or old[2] != new[2]:
            for it in (old, new):
                if it is not None:
                    found.update(pixels(it[0]))
    return found


def shade(color, made):
    r, g, b, a = color
    light = [c * a // 255 + 255 - a for c in (r, g, b)]
    return light if made else [235 + c // 13 for c in light]


def drawn(number, items, invalid, width, height):
    rows = [[[255, 255, 255] for _ in range(width)] for _ in range(height)]
    for rectangle, color, _, made in items.values():
        if color[3] == 0:
            continue
        for x, y in pixels(rectangle):
            rows[y][x] = shade(color, made == number)
    for x, y in invalid:
        if (x + y) % 6 == 0:
            rows[y][x] = [200, 30, 60]
    return rows


def main():
    if len(sys.argv) not in (2, 3):
        sys.exit(__doc__.splitlines()[0])
    before, frames = {}, []
    for number, area, items in paints(sys.stdin):
        width, height = next(iter(items.values()))[0][2:] if not frames else (width, height)
        invalid = changed(before, items)
        if len(invalid) != area:
            print(f"paint {number}: {area} pixels painted, {len(invalid)} of them where a leaf is not as it was")
        frames.append(drawn(number, items, invalid, width, height))
        before = items
    gap = [[160, 160, 160]] * 2
    rows = [sum((f[y] + gap for f in frames), [])[:-2] for y in range(height)]
    wide = [bytes(c for pixel in row for c in pixel) for row in rows]
    write_png(sys.argv[1], len(rows[0]), height, wide, int(sys.argv[2]) if len(sys.argv) == 3 else 1)


if __name__ == "__main__":
    main()
