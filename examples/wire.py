#!/usr/bin/env python3
"""Draws a list in the wire form: `./pouncelilac wire < SCRIPT | python3 examples/wire.py PICTURE.png [SCALE]`.

A compositor of its own: it knows the bytes of the wire form and the rules of composing, as `docs/FORMATS.md` and
`docs/DEFINITIONS.md` have them, and nothing of scripts, trees or styles. With `-` for the picture it writes what the
program's word `compose` writes (Netpbm P6).
"""
import struct
import sys
from collections import namedtuple

Leaf = namedtuple("Leaf", "box part visible outer inner color hits made")
Group = namedtuple("Group", "box opacity mode entries")

LETTERS = b"RDL1"
MODES = ("normal", "multiply", "screen", "darken", "lighten")
MOST_GROUPS = 256
FARTHEST = 1_000_000_000
WHITE = (255, 255, 255, 255)
CLEAR = (0, 0, 0, 0)


class BadWire(Exception):
    """The bytes are the spelling of no list."""


def need(holds):
    if not holds:
        raise BadWire


# ---------------------------------------------------------------------------------------------------------------------
# Reading


class Reader:
    def __init__(self, data):
        self.data, self.at, self.names = data, 0, set()

    def take(self, form):
        """Numbers in the form of Python's struct, the greatest byte first."""
        size = struct.calcsize(">" + form)
        need(self.at + size <= len(self.data))
        self.at += size
        return struct.unpack(">" + form, self.data[self.at - size : self.at])

    def new_name(self, name):
        """No box has the same part twice, and none has two groups."""
        need(name not in self.names)
        self.names.add(name)

    def leaf(self, canvas):
        slot, generation, part = self.take("IIB")
        visible, outer, inner = self.take("4i"), self.take("4i"), self.take("4i")
        *color, hits, made = self.take("4BBQ")
        need(part < 4 and hits < 2 and all(is_allowed(r) for r in (visible, outer, inner)))
        need(not is_empty(visible) and is_within(visible, outer) and is_within(visible, canvas))
        need(not is_empty(inner) or inner == (0, 0, 0, 0))
        self.new_name((slot, generation, part))
        return Leaf((slot, generation), part, visible, outer, inner, tuple(color), hits == 1, made)

    def group(self, canvas, depth):
        slot, generation, opacity, mode = self.take("IIBB")
        need(mode < len(MODES) and depth < MOST_GROUPS)
        self.new_name((slot, generation, "group"))
        entries = self.level(canvas, depth + 1)
        need(entries)
        return Group((slot, generation), opacity, MODES[mode], entries)

    def level(self, canvas, depth):
        (count,) = self.take("I")
        entries = []
        for _ in range(count):
            (kind,) = self.take("B")
            need(kind in (1, 2))
            entries.append(self.leaf(canvas) if kind == 1 else self.group(canvas, depth))
        return entries


def is_allowed(r):
    """The limits of a rectangle: no edge of it is farther off than `FARTHEST`."""
    x, y, w, h = r
    return w >= 0 and h >= 0 and min(x, y) >= -FARTHEST and max(x + w, y + h) <= FARTHEST


def is_empty(r):
    return r[2] == 0 or r[3] == 0


def is_within(r, s):
    return s[0] <= r[0] and s[1] <= r[1] and r[0] + r[2] <= s[0] + s[2] and r[1] + r[3] <= s[1] + s[3]


def holds(r, x, y):
    return r[0] <= x < r[0] + r[2] and r[1] <= y < r[1] + r[3]


def read(data):
    """The width, the height and the entries of a list, from bottom to top."""
    reader = Reader(data)
    need(data[:4] == LETTERS)
    reader.at = 4
    width, height = reader.take("HH")
    need(1 <= width <= 4096 and 1 <= height <= 4096)
    entries = reader.level((0, 0, width, height), 0)
    need(reader.at == len(data))
    return width, height, entries


# ---------------------------------------------------------------------------------------------------------------------
# Composing: channels of 8 bits, premultiplied


def times(a, b):
    return (a * b + 127) // 255


def laid_over(source, backdrop):
    return tuple(s + times(b, 255 - source[3]) for s, b in zip(source, backdrop))


# of a blend mode: a channel of a source and one of its backdrop, mixed at the opacities of both
MIXTURES = {
    "multiply": lambda s, b, above, below: times(s, b) + times(s, 255 - below) + times(b, 255 - above),
    "screen": lambda s, b, above, below: s + b - times(s, b),
    "darken": lambda s, b, above, below: s + b - max(times(s, below), times(b, above)),
    "lighten": lambda s, b, above, below: s + b - min(times(s, below), times(b, above)),
}


def put(mode, source, backdrop):
    if mode == "normal":
        return laid_over(source, backdrop)
    above, below = source[3], backdrop[3]
    opacity = above + times(below, 255 - above)
    mixed = (MIXTURES[mode](s, b, above, below) for s, b in zip(source[:3], backdrop[:3]))
    return (*(min(channel, opacity) for channel in mixed), opacity)


def composed(entries, x, y, backdrop):
    """The pixel of a list on a backdrop; a group is composed by itself, then scaled by its opacity, then put."""
    for entry in entries:
        if isinstance(entry, Group):
            source = composed(entry.entries, x, y, CLEAR)
            backdrop = put(entry.mode, tuple(times(c, entry.opacity) for c in source), backdrop)
        elif holds(entry.visible, x, y) and holds(entry.outer, x, y) and not holds(entry.inner, x, y):
            *channels, alpha = entry.color
            backdrop = laid_over((*(times(c, alpha) for c in channels), alpha), backdrop)
    return backdrop


def rows(wire):
    """The rows of the picture, three bytes a pixel."""
    width, height, entries = wire
    return [bytes(c for x in range(width) for c in composed(entries, x, y, WHITE)[:3]) for y in range(height)]


def p6(wire):
    return b"P6\n%d %d\n255\n" % wire[:2] + b"".join(rows(wire))


if __name__ == "__main__":
    if len(sys.argv) not in (2, 3):
        sys.exit(__doc__.splitlines()[0])
    try:
        wire = read(sys.stdin.buffer.read())
    except BadWire:
        sys.exit("wire.py: no list in the wire form")
    if sys.argv[1] == "-":
        sys.stdout.buffer.write(p6(wire))
    else:
        from png import write_png

        write_png(sys.argv[1], *wire[:2], rows(wire), int(sys.argv[2]) if len(sys.argv) == 3 else 1)
