#!/usr/bin/python3
"""Compares the outlines of subsets with those of their fonts, by fontTools' Type 2 interpreter (Debian: python3-fonttools).

    outlines.py FONTS SUBSETS     folders: SUBSETS/NAME.AMOUNT.cff is a subset of FONTS/NAME.cff
    outlines.py FONT.cff SUBSET.cff

Every glyph of a subset is drawn, and its namesake (name or CID) in the font: operators, points and widths must be the same, 16.16
numbers being read as document 01 says, with 24 significant bits.
Prints a line for each subset, and ends with status 1 if one differs.
"""

import io
import struct
import sys
from pathlib import Path

from fontTools.cffLib import CFFFontSet
from fontTools.misc import psCharStrings
from fontTools.pens.recordingPen import RecordingPen


def read_rounded(_self, _first, data, index):
    """A 16.16 number of a charstring, rounded to 24 significant bits, ties to even."""
    (value,) = struct.unpack(">l", data[index : index + 4])
    (rounded,) = struct.unpack(">f", struct.pack(">f", value / 65536))
    return rounded, index + 4


psCharStrings.t2OperandEncoding[255] = read_rounded


def first_font(path):
    """The first font of a `CFF ` table."""
    fonts = CFFFontSet()
    fonts.decompile(io.BytesIO(path.read_bytes()), None)
    return fonts[0]


def outline(font, name):
    """What drawing a glyph gives, and its width; for one that cannot be drawn, the kind of the error."""
    charstring = font.CharStrings[name]
    pen = RecordingPen()
    try:
        charstring.draw(pen)
    except Exception as error:  # fontTools raises many kinds
        return type(error).__name__
    return pen.value, charstring.width


def compare(font_path, subset_path):
    """How many glyphs the subset has, those that could not be drawn in either, and those that differ."""
    font, subset = first_font(font_path), first_font(subset_path)
    undrawn, different = [], []
    names = subset.getGlyphOrder()
    for name in names:
        wanted, got = outline(font, name), outline(subset, name)
        if wanted != got:
            different.append(name)
        elif isinstance(wanted, str):
            undrawn.append(name)
    return len(names), undrawn, different


def pairs(fonts, subsets):
    """The subsets of a folder, each with its font."""
    if subsets.is_file():
        return [(fonts, subsets)]
    found = []
    for subset in sorted(subsets.glob("*.cff")):
        name = subset.name[: -len(".cff")].rsplit(".", 1)[0]
        found.append((fonts / f"{name}.cff", subset))
    return found


def main():
    if len(sys.argv) != 3:
        sys.exit(__doc__)
    fonts, subsets = map(Path, sys.argv[1:])
    total = failed = drawn = 0
    for font, subset in pairs(fonts, subsets):
        count, undrawn, different = compare(font, subset)
        total += 1
        drawn += count - len(undrawn)
        failed += bool(different)
        said = f", different: {' '.join(different[:5])}" if different else ""
        lost = f", {len(undrawn)} that cannot be drawn in either" if undrawn else ""
        print(f"{subset.name}: {count} glyphs{lost}{said}", flush=True)
    print(f"{total} subsets, {drawn} glyphs drawn twice, {failed} subsets differ")
    return 1 if failed or not total else 0


if __name__ == "__main__":
    sys.exit(main())
