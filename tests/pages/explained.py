"""Differences between the program and Chromium on a page, and the named choices that explain them.

A file NAME.why has a line for each choice that shows on the page:

    pixels CHOICE MOST [in X Y W H]
    hits CHOICE MOST [in X Y W H]

At most so many pixels, or points of the grid of hits, differ for this reason, and all of them lie in the rectangle. A choice
that is told from a pixel itself (BY_PIXEL) needs no rectangle: where it has none, a pixel of text has to lie between that with
all text and that without any, one of rounding near ours, and one of an
overhang beside a line of text, between ours and its colour. A difference is put down
to the first line that may explain it. Lines that begin with `#` say more.
"""
import collections
import os
import struct
import sys
import zlib

# each choice by its name: what is done here, and what a browser does
CHOICES = {
    "text": "text is a rectangle of its colour; a browser draws letters",
    "overhang": "text is a rectangle of its colour; letters reach out of theirs by a pixel or two",
    "rounding": "opacities and products have 8 bits; a browser rounds otherwise",
    "whole-pixels": "edges are whole; a browser draws some between pixels",
    "square-corners": "corners are square; a browser rounds them",
    "one-border-colour": "a border has one colour and is solid",
    "no-pictures": "pictures, gradients and form controls are a plain colour",
    "no-shadows": "there are no shadows",
    "no-pseudo-elements": "what ::before, ::after and markers draw is not told",
    "no-transforms": "a transformed box is the rectangle round it",
    "no-effects": "there are no filters, masks and clip paths",
    "modes": "there are five blend modes",
    "reversed-flex": "items of a reversed flexible box come in tree order; Chromium paints them in the reverse",
    "outlines-last": "outlines come in the last step of the context; a browser paints them below the layers at auto or 0",
    "outline-order": "a descendant's outline comes after its ancestor's; Chromium paints it first",
    "one-line": "a context's inline boxes come as if in one line, before its blocks' contents; a browser goes in tree order",
    "hidden-root": "a hidden root has no background; a browser paints the canvas's all the same",
    "root-onto-white": "blended boxes of the root's context blend with white; Chromium blends them with nothing, and then paints on white",
}

# the choices that are told from a pixel itself; those of all others need a rectangle
BY_PIXEL = ("text", "overhang", "rounding")
NEAR = 2
OVERHANG = 2

Reason = collections.namedtuple("Reason", "kind choice most place")


def read_reasons(path):
    """The lines of a file NAME.why; none where there is no such file."""
    if not os.path.isfile(path):
        return []
    with open(path, encoding="utf-8") as text:
        lines = [line.split() for line in text if line.strip() and not line.startswith("#")]
    return [reason_of(words, path) for words in lines]


def reason_of(words, path):
    kind, choice, most, *place = words
    has_place = len(place) == 5 and place[0] == "in"
    if kind not in ("pixels", "hits") or choice not in CHOICES or not (has_place or choice in BY_PIXEL and not place):
        sys.exit(f"{path}: no reason: {' '.join(words)}")
    return Reason(kind, choice, int(most), tuple(map(int, place[1:])) if has_place else None)


def lies_in(place, x, y):
    return place is None or place[0] <= x < place[0] + place[2] and place[1] <= y < place[1] + place[3]


# ---------------------------------------------------------------------------------------------------------------------
# Pictures: the width and the rows, three bytes a pixel

Picture = collections.namedtuple("Picture", "width rows")


def chunks_of(data):
    place = 8
    while place < len(data):
        (length,) = struct.unpack(">I", data[place : place + 4])
        yield data[place + 4 : place + 8], data[place + 8 : place + 8 + length]
        place += length + 12


def nearest(left, up, corner):
    """The predictor of Paeth (PNG section 9.4)."""
    guess = left + up - corner
    a, b, c = abs(guess - left), abs(guess - up), abs(guess - corner)
    return left if a <= b and a <= c else up if b <= c else corner


def unfiltered(kind, line, before, step):
    """A row of bytes out of its filter (PNG section 9.2)."""
    row = bytearray(line)
    if kind == 0:
        return row
    for i, value in enumerate(line):
        left = row[i - step] if i >= step else 0
        up = before[i]
        corner = before[i - step] if i >= step else 0
        row[i] = (value + (0, left, up, (left + up) // 2, nearest(left, up, corner))[kind]) & 255
    return row


def read_png(data):
    """A PNG of 8 bits a channel, red, green and blue, with or without alpha, which is left out."""
    chunks = list(chunks_of(data))
    width, height, depth, color, _, _, interlaced = struct.unpack(">IIBBBBB", chunks[0][1])
    if depth != 8 or color not in (2, 6) or interlaced:
        raise ValueError("a PNG of another form")
    step = 3 if color == 2 else 4
    text = zlib.decompress(b"".join(body for kind, body in chunks if kind == b"IDAT"))
    before, rows = bytes(step * width), []
    for y in range(height):
        at = y * (step * width + 1)
        before = unfiltered(text[at], text[at + 1 : at + 1 + step * width], before, step)
        rows.append(bytes(before) if step == 3 else bytes(v for i, v in enumerate(before) if i % 4 < 3))
    return Picture(width, rows)


def pixel(picture, x, y):
    return picture.rows[y][3 * x : 3 * x + 3]


def differing(one, other):
    """The columns and rows of the pixels that differ."""
    for y, (a, b) in enumerate(zip(one.rows, other.rows)):
        if a != b:
            yield from ((x, y) for x in range(one.width) if a[3 * x : 3 * x + 3] != b[3 * x : 3 * x + 3])


# ---------------------------------------------------------------------------------------------------------------------
# Explaining


class Explained:
    """How many differences each line of a page explains, and those that none does."""

    def __init__(self, reasons):
        self.reasons = reasons
        self.counts = collections.Counter()
        self.unexplained = []

    def add(self, kind, x, y, is_so, told):
        """A difference, put down to the first line that may explain it; `is_so` says it of a line."""
        for reason in self.reasons:
            if reason.kind == kind and lies_in(reason.place, x, y) and is_so(reason):
                self.counts[reason] += 1
                return
        self.unexplained.append((kind, x, y, told))

    def beyond(self, least):
        """The lines that explain more than they may, or fewer differences than a least number."""
        return [r for r in self.reasons if not least <= self.counts[r] <= r.most]

    def is_whole(self, least):
        return not self.unexplained and not self.beyond(least)


def is_between(value, *pixels):
    """Does each channel lie between the least and the greatest of some pixels?"""
    return all(min(its) - NEAR <= v <= max(its) + NEAR for v, its in zip(value, zip(*pixels)))


def is_near(rect, x, y):
    """Is it in the rectangle, or at its edge?"""
    a, b, w, h = rect
    return lies_in((a - OVERHANG, b - OVERHANG, w + 2 * OVERHANG, h + 2 * OVERHANG), x, y)


class Pictures:
    """The program's picture of a page, that without text, each line of text, and the pixels with some of the lines alone."""

    def __init__(self, whole, bare, texts, with_some):
        self.whole, self.bare, self.texts, self.with_some = whole, bare, texts, with_some

    def is_text(self, x, y, its):
        """Is it a pixel of letters that are drawn in the rectangles of text round it?"""
        mine, bare = pixel(self.whole, x, y), pixel(self.bare, x, y)
        if mine != bare and is_between(its, mine, bare):
            return True
        layers = sum(lies_in(rect, x, y) for rect, _ in self.texts)
        return layers > 1 and is_between(its, *self.with_some(x, y))

    def is_overhang(self, x, y, its):
        """Is it a pixel without text beside a line of text whose letters reach to it?"""
        mine, bare = pixel(self.whole, x, y), pixel(self.bare, x, y)
        return mine == bare and any(is_near(rect, x, y) and is_between(its, mine, color) for rect, color in self.texts)


def explain_pixels(explained, ours, theirs):
    """Where the program's picture differs from Chromium's: text explains what lies between it and that without text."""
    for x, y in differing(ours.whole, theirs):
        mine, its = pixel(ours.whole, x, y), pixel(theirs, x, y)

        def is_so(reason):
            if reason.place is not None:
                return True
            if reason.choice == "text":
                return ours.is_text(x, y, its)
            return ours.is_overhang(x, y, its) if reason.choice == "overhang" else is_between(its, mine)

        explained.add("pixels", x, y, is_so, f"here {mine.hex()}, Chromium {its.hex()}")


def explain_hits(explained, points, ours, theirs):
    for (x, y), mine, its in zip(points, ours, theirs):
        if mine != its:
            explained.add("hits", x, y, lambda reason: True, f"here {mine}, Chromium {its}")
