#!/usr/bin/env python3
"""Writes made fonts that are slow to read where parts are read again: tools/bench/made.py FOLDER [NAME..]. See README.md."""

import os
import struct
import sys

FDS = 65535


def index(items):
    """An INDEX (TN5176, section 5) with offsets as short as they may be."""
    if not items:
        return b"\0\0"
    end = 1 + sum(map(len, items))
    size = (end.bit_length() + 7) // 8
    table, at = bytearray(), 1
    for item in items:
        table += at.to_bytes(size, "big")
        at += len(item)
    table += at.to_bytes(size, "big")
    return struct.pack(">HB", len(items), size) + bytes(table) + b"".join(items)


def number(value):
    return b"\x1d" + struct.pack(">i", value)


def font(dict_of, tail_of):
    """A font of one glyph: dict_of(places) is its top DICT, whose length may not depend on them, and tail_of(at) its parts and their places."""
    names, rest = index([b"A"]), index([]) + index([])
    length = len(index([dict_of([0] * 9)]))
    places, tail = tail_of(4 + len(names) + length + len(rest))
    return b"\1\0\4\4" + names + index([dict_of(places)]) + rest + tail


def keyed(privates, shared, size=None):
    """A CID-keyed font whose FD k names the Private DICT privates(at, k), a size and an offset, of the bytes `shared` at `at`."""

    def tail(at):
        glyphs = index([b"\x0e"])
        begin = at + len(glyphs)
        dicts = [number(s) + number(o) + b"\x12" for s, o in (privates(begin, k) for k in range(FDS))]
        return [at, begin + len(shared)], glyphs + shared + index(dicts)

    # ROS, CharStrings, FDArray
    return font(lambda p: number(391) + number(391) + number(0) + b"\x0c\x1e" + number(p[0]) + b"\x11" + number(p[1]) + b"\x0c\x24", tail)


def entries(length):
    """A DICT of so many bytes: BlueFuzz 0, over and over."""
    return b"\x8b\x0c\x0b" * (length // 3)


def alternating():
    """All FDs name one of two Private DICTs of 100 KB, in turn."""
    shared = entries(99999)
    return keyed(lambda at, k: (len(shared), at + k % 2 * len(shared)), shared + shared)


def overlapping():
    """Each FD names a Private DICT of 100 KB of its own: they overlap, three bytes apart."""
    shared = entries(99999 + 3 * FDS)
    return keyed(lambda at, k: (99999, at + 3 * k), shared)


def subroutines():
    """Each FD names a Private DICT of 6 bytes of its own, and all of these name one INDEX of 65,535 local subroutines."""
    own = b"".join(number(6 * (FDS - k)) + b"\x13" for k in range(FDS))
    return keyed(lambda at, k: (6, at + 6 * k), own + index([b""] * FDS))


def reals():
    """A top DICT of 60 MB of reals, 48 to an operator, FontBBox, which subsetting copies."""
    one = b"\x1e\xe1\x2a\x5f" * 48 + b"\x05"
    many = one * (60_000_000 // len(one))

    def tail(at):
        return [at], index([b"\x0e"])

    return font(lambda p: many + number(p[0]) + b"\x11", tail)


MADE = {"alternating": alternating, "overlapping": overlapping, "subroutines": subroutines, "reals": reals}


def main():
    folder, *names = sys.argv[1:] or sys.exit(__doc__)
    os.makedirs(folder, exist_ok=True)
    for name in names or MADE:
        made = MADE[name]()
        with open(os.path.join(folder, name + ".cff"), "wb") as out:
            out.write(made)
        print(f"{name}.cff: {len(made)} bytes: {' '.join(MADE[name].__doc__.split())}")


if __name__ == "__main__":
    main()
