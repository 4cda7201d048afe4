#!/usr/bin/env python3
"""Draws the sheet of README: docs/sheet.png, from a PDF that examples/sheet wrote, by poppler, in 16 grays.

    picture.py SHEET.pdf docs/sheet.png
"""

import struct
import subprocess
import sys
import zlib
from pathlib import Path

DOTS = 100
# The part of the page that is shown, in points: x, y, width, height.
PART = (40, 48, 515, 590)


def chunk(kind, data):
    return struct.pack(">I", len(data)) + kind + data + struct.pack(">I", zlib.crc32(kind + data))


def grays(pdf):
    """Width, height and samples, one byte each."""
    x, y, width, height = (str(value * DOTS // 72) for value in PART)
    words = ["pdftoppm", "-gray", "-r", str(DOTS), "-x", x, "-y", y, "-W", width, "-H", height, pdf]
    drawn = subprocess.run(words, capture_output=True, check=True).stdout
    _kind, width, height, _most = (field for line in drawn.split(b"\n", 3)[:3] for field in line.split())
    width, height = int(width), int(height)
    return width, height, drawn[-width * height :]


def png(width, height, samples):
    """Four bits a sample, two samples a byte."""
    rows = bytearray()
    for y in range(height):
        row = [value * 15 // 255 for value in samples[y * width : (y + 1) * width]] + [0] * (width % 2)
        rows += b"\0" + bytes(left << 4 | right for left, right in zip(row[::2], row[1::2]))
    head = struct.pack(">IIBBBBB", width, height, 4, 0, 0, 0, 0)
    body = chunk(b"IHDR", head) + chunk(b"IDAT", zlib.compress(bytes(rows), 9)) + chunk(b"IEND", b"")
    return b"\x89PNG\r\n\x1a\n" + body


if __name__ == "__main__":
    Path(sys.argv[2]).write_bytes(png(*grays(sys.argv[1])))
