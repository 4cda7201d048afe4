#!/usr/bin/python3
"""Document 02, Wish 2, seen from outside: the FontMatrix of each FD that a subset of a CID-keyed font keeps.

    letter_size.py matrices FONTS SUBSETS         SUBSETS/NAME.AMOUNT.cff is a subset of FONTS/NAME.cff
    letter_size.py made SEED COUNT SUBSETTER      made fonts, which SUBSETTER (bindings/c/subset_glyphs) cuts
    letter_size.py drawn FONT.cff SUBSETTER       a name in two scripts, drawn by poppler

`matrices` and `made` read font and subset with fontTools (Debian: python3-fonttools): for each CID of the subset the FontMatrix
of its FD must be that of the CID's FD in the font, and none where it has none. `drawn` makes a font with the Latin letters of a
name-keyed table in one FD and its Cyrillic letters, twice as large under half the FontMatrix, in another. A PDF with the font and one
with its subset must give the same picture (Debian: poppler-utils), and one with a subset of the font without the two FontMatrix
entries another. Ends with status 1 where one of these does not hold.
"""

import io
import random
import struct
import subprocess
import sys
import tempfile
from pathlib import Path

from fontTools.cffLib import CFFFontSet
from fontTools.pens.t2CharStringPen import T2CharStringPen
from fontTools.pens.transformPen import TransformPen

LATIN = ["H", "a", "n", "n", "a"]
CYRILLIC = ["uni041D", "uni0430", "uni043D", "uni043D", "uni0430"]


def first_font(data):
    """The first font of a `CFF ` table."""
    fonts = CFFFontSet()
    fonts.decompile(io.BytesIO(data), None)
    return fonts[0]


def matrices(data):
    """The FontMatrix of each CID's FD."""
    font = first_font(data)
    if not hasattr(font, "ROS"):
        return None
    select = font.FDSelect
    of_fd = [fd.rawDict.get("FontMatrix") for fd in font.FDArray]
    return {name: of_fd[select[glyph]] for glyph, name in enumerate(font.charset)}


def same(font, subset):
    """How many CIDs a subset has, if each has the font's FontMatrix."""
    whole, cut = matrices(font), matrices(subset)
    assert all(cut[name] == whole[name] for name in cut), "a FontMatrix differs"
    return len(cut), sum(cut[name] is not None for name in cut)


def index(items):
    if not items:
        return b"\0\0"
    offsets = [1]
    for item in items:
        offsets.append(offsets[-1] + len(item))
    return struct.pack(">HB", len(items), 4) + b"".join(struct.pack(">L", o) for o in offsets) + b"".join(items)


def five(number):
    return b"\x1d" + struct.pack(">l", number)


def real(text):
    nibbles = ["0123456789.".index(c) for c in text] + [15]
    nibbles += [15] * (len(nibbles) % 2)
    return b"\x1e" + bytes(a << 4 | b for a, b in zip(nibbles[::2], nibbles[1::2]))


def font_matrix(operands):
    """An entry FontMatrix, or none."""
    return b"" if operands is None else b"".join(map(real, operands)) + b"\x0c\x07"


def cid_font(charstrings, select, fd_matrices):
    """A CID-keyed font whose CIDs are its glyphs' numbers."""
    charset = b"\2" + struct.pack(">HH", 1, len(charstrings) - 2)
    fd_select = b"\0" + bytes(select)
    glyphs = index(charstrings)
    private = b"\x8b\x14"
    front = b"\1\0\4\4" + index([b"TwoScripts"])
    behind = index([b"Adobe", b"Identity"]) + index([])

    def top(at):
        ros = five(391) + five(392) + five(0) + b"\x0c\x1e"
        return index([ros + five(at[0]) + b"\x0f" + five(at[1]) + b"\x0c\x25" + five(at[2]) + b"\x11" + five(at[3]) + b"\x0c\x24"])

    at = [len(front) + len(top([0] * 4)) + len(behind)]
    for part in (charset, fd_select, glyphs):
        at.append(at[-1] + len(part))
    fds = lambda place: index([font_matrix(m) + five(len(private)) + five(place) + b"\x12" for m in fd_matrices])
    end = at[3] + len(fds(0))
    return front + top(at) + behind + charset + fd_select + glyphs + fds(end) + private


def cut(subsetter, font, keep):
    with tempfile.TemporaryDirectory() as folder:
        whole, part = Path(folder, "font.cff"), Path(folder, "subset.cff")
        whole.write_bytes(font)
        subprocess.run([subsetter, whole, "ABCDEF+Two", part, *map(str, keep)], check=True, stdout=subprocess.DEVNULL)
        return part.read_bytes()


def made(seed, count, subsetter):
    """Fonts with up to 9 FDs, some with a FontMatrix of 0 to 7 operands, cut to some of their glyphs."""
    choose = random.Random(seed)
    number = lambda: choose.choice(["0", "1", "0.001", "0.0005", "0.00048828125", "12.5", "0.000976562"])
    cids = kept = 0
    for _ in range(count):
        fds = choose.randint(1, 9)
        lengths = [choose.choice([0, 1, 6, 6, 6, 7]) for _ in range(fds)]
        entries = [None if choose.random() < 0.4 else [number() for _ in range(n)] for n in lengths]
        glyphs = choose.randint(2, 40)
        select = [choose.randrange(fds) for _ in range(glyphs)]
        font = cid_font([b"\x0e"] * glyphs, select, entries)
        keep = [choose.randrange(glyphs) for _ in range(choose.randint(0, 12))]
        cids_there, with_one = same(font, cut(subsetter, font, keep))
        cids += cids_there
        kept += with_one
    print(f"{count} made fonts, seed {seed}: {cids} CIDs, {kept} with a FontMatrix, 0 differ")


def charstring(font, name, scale):
    """A glyph's outline, larger, without its width and hints."""
    pen = T2CharStringPen(None, None)
    font.CharStrings[name].draw(TransformPen(pen, (scale, 0, 0, scale, 0, 0)))
    drawn = pen.getCharString()
    drawn.compile()
    return drawn.bytecode


def pdf(font, cids):
    """A page with a line of these CIDs, 80 points high and 60 apart."""
    text = "".join(f"1 0 0 1 {20 + 60 * k} 40 Tm <{cid:04x}> Tj " for k, cid in enumerate(cids))
    content = f"BT /F 80 Tf {text}ET".encode()
    objects = [
        b"<</Type/Catalog/Pages 2 0 R>>",
        b"<</Type/Pages/Kids[3 0 R]/Count 1>>",
        f"<</Type/Page/Parent 2 0 R/MediaBox[0 0 {40 + 60 * len(cids)} 140]/Contents 4 0 R/Resources<</Font<</F 5 0 R>>>>>>".encode(),
        b"<</Length %d>>stream\n%s\nendstream" % (len(content), content),
        b"<</Type/Font/Subtype/Type0/BaseFont/ABCDEF+Two/Encoding/Identity-H/DescendantFonts[6 0 R]>>",
        b"<</Type/Font/Subtype/CIDFontType0/BaseFont/ABCDEF+Two/CIDSystemInfo<</Registry(Adobe)/Ordering(Identity)/Supplement 0>>"
        b"/FontDescriptor 7 0 R/DW 600>>",
        b"<</Type/FontDescriptor/FontName/ABCDEF+Two/Flags 4/FontBBox[0 -300 1000 1000]/ItalicAngle 0/Ascent 800/Descent -200"
        b"/CapHeight 700/StemV 80/FontFile3 8 0 R>>",
        b"<</Subtype/CIDFontType0C/Length %d>>stream\n%s\nendstream" % (len(font), font),
    ]
    out, places = b"%PDF-1.4\n", []
    for number, body in enumerate(objects, 1):
        places.append(len(out))
        out += b"%d 0 obj\n%s\nendobj\n" % (number, body)
    table = b"".join(b"%010d 00000 n \n" % place for place in places)
    head = b"xref\n0 %d\n0000000000 65535 f \n" % (len(objects) + 1)
    trailer = b"trailer<</Size %d/Root 1 0 R>>\nstartxref\n%d\n%%%%EOF\n" % (len(objects) + 1, len(out))
    return out + head + table + trailer


def picture(font, cids):
    """The page as rows of grey bytes."""
    with tempfile.TemporaryDirectory() as folder:
        page = Path(folder, "page.pdf")
        page.write_bytes(pdf(font, cids))
        subprocess.run(["pdftoppm", "-gray", "-r", "144", "-singlefile", page, Path(folder, "page")], check=True)
        data = Path(folder, "page.pgm").read_bytes()
    _, size, _, rows = data.split(b"\n", 3)
    width, height = map(int, size.split())
    assert len(rows) == width * height
    return [rows[k * width : (k + 1) * width] for k in range(height)]


def height(rows, letter):
    """How many rows of a picture have ink in a letter's column of 60 points."""
    left = 2 * (10 + 60 * letter)
    return sum(min(row[left : left + 110]) < 128 for row in rows)


def drawn(font, subsetter):
    source = first_font(Path(font).read_bytes())
    letters = [charstring(source, n, 1) for n in LATIN] + [charstring(source, n, 2) for n in CYRILLIC]
    select = [0] * 6 + [1] * 5
    matrix = lambda unit: [unit, "0", "0", unit, "0", "0"]
    cids = list(range(1, 11))
    two = cid_font([b"\x0e", *letters], select, [matrix("0.001"), matrix("0.0005")])
    none = cid_font([b"\x0e", *letters], select, [None, None])
    keep = [*cids[:2], *cids[5:7]]
    whole = picture(two, keep)
    subset = picture(cut(subsetter, two, keep), keep)
    without = picture(cut(subsetter, none, keep), keep)
    heights = [height(rows, k) for rows in (whole, subset, without) for k in (0, 2)]
    print(f"heights of H and of its Cyrillic twin: font {heights[:2]}, subset {heights[2:4]}, without FontMatrix {heights[4:]}")
    assert whole == subset, "font and subset are drawn differently"
    assert subset != without, "the FontMatrix makes no difference"
    assert heights[0] == heights[1] > 40, "the letters have two sizes"


def compare_folders(fonts, subsets):
    for path in sorted(Path(subsets).glob("*.cff")):
        font = Path(fonts, path.name.rsplit(".", 2)[0] + ".cff").read_bytes()
        if matrices(font) is not None:
            cids, kept = same(font, path.read_bytes())
            print(f"{path.name}: {cids} CIDs, {kept} with a FontMatrix, 0 differ")


if __name__ == "__main__":
    match sys.argv[1:]:
        case ["matrices", fonts, subsets]:
            compare_folders(fonts, subsets)
        case ["made", seed, count, subsetter]:
            made(int(seed), int(count), subsetter)
        case ["drawn", font, subsetter]:
            drawn(font, subsetter)
        case _:
            sys.exit(__doc__)
