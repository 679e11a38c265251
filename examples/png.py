#!/usr/bin/env python3
"""Puts a picture of the program into a PNG: `./pouncelilac render < SCRIPT | python3 examples/png.py PICTURE.png [SCALE]`.

The pixels are the program's own; only the container changes. SCALE makes each pixel a square of so many.
"""
import struct
import sys
import zlib


def read_p6(data):
    """The width, the height and the rows of a Netpbm P6 file."""
    head, size, most, pixels = data.split(b"\n", 3)
    width, height = map(int, size.split())
    if head != b"P6" or most != b"255" or len(pixels) != 3 * width * height:
        sys.exit("png.py: no P6 picture")
    return width, height, [pixels[3 * width * y : 3 * width * (y + 1)] for y in range(height)]


def scaled(row, scale):
    if scale == 1:
        return bytes(row)
    return b"".join(row[i : i + 3] * scale for i in range(0, len(row), 3))


def png_bytes(width, height, rows, scale=1):
    """A PNG of rows of three bytes a pixel."""

    def chunk(kind, data):
        return struct.pack(">I", len(data)) + kind + data + struct.pack(">I", zlib.crc32(kind + data))

    lines = b"".join((b"\0" + scaled(row, scale)) * scale for row in rows)
    head = chunk(b"IHDR", struct.pack(">IIBBBBB", width * scale, height * scale, 8, 2, 0, 0, 0))
    return b"\x89PNG\r\n\x1a\n" + head + chunk(b"IDAT", zlib.compress(lines, 9)) + chunk(b"IEND", b"")


def write_png(path, width, height, rows, scale=1):
    with open(path, "wb") as file:
        file.write(png_bytes(width, height, rows, scale))


if __name__ == "__main__":
    if len(sys.argv) not in (2, 3):
        sys.exit(__doc__.splitlines()[0])
    width, height, rows = read_p6(sys.stdin.buffer.read())
    write_png(sys.argv[1], width, height, rows, int(sys.argv[2]) if len(sys.argv) == 3 else 1)
