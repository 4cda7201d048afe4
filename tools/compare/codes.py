#!/usr/bin/python3
"""Document 02, Wish 4, seen from outside: the codes of subsets that keep the font's encoding.

    codes.py freetype SEED SUBSETTER FILE...      each FILE cut five times, its codes and the subsets' read by FreeType
    codes.py drawn SUBSETTER FILE...              lines of codes of each FILE, drawn by poppler and mupdf

A FILE is a bare CFF font or a Type 1 font (.pfb, .t1), of which a CFF font with the same outlines, names and codes is made: in format 0,
or in format 1 with up to 15 codes more, as supplements. SUBSETTER is bindings/c/subset_glyphs, which -e asks for the encoding. `freetype` wants
for each code of the font whose glyph is kept the glyph of the same name, and no other code. `drawn` makes PDFs whose font has
no /Encoding, so that the font's own counts: the whole font and its subset must give the same pictures, and a subset without the encoding
another. Ends with status 1 where one of these does not hold.

Debian: python3-fonttools libfreetype-dev pkg-config poppler-utils mupdf-tools
"""

import io
import random
import struct
import subprocess
import sys
import tempfile
from pathlib import Path

from fontTools import t1Lib
from fontTools.cffLib import CFFFontSet, cffStandardStrings
from fontTools.encodings.StandardEncoding import StandardEncoding
from fontTools.pens.t2CharStringPen import T2CharStringPen

HERE = Path(__file__).resolve().parent


def index(items):
    if not items:
        return b"\0\0"
    offsets = [1]
    for item in items:
        offsets.append(offsets[-1] + len(item))
    return struct.pack(">HB", len(items), 4) + b"".join(struct.pack(">L", o) for o in offsets) + b"".join(items)


def five(number):
    return b"\x1d" + struct.pack(">l", number)


def encoding_bytes(codes, order, ranges):
    """An encoding of these codes: the glyphs of `order` after .notdef have one code each, as far as they have one; others are supplements."""
    of_glyph = {}
    for code, name in sorted(codes.items()):
        of_glyph.setdefault(name, []).append(code)
    listed = [of_glyph[name].pop(0) for name in order[1:] if name in of_glyph]
    if ranges:
        runs = []
        for code in listed:
            if runs and runs[-1][0] + runs[-1][1] + 1 == code:
                runs[-1][1] += 1
            else:
                runs.append([code, 0])
        table = bytes([1, len(runs)]) + bytes(n for run in runs for n in run)
    else:
        table = bytes([0, len(listed)]) + bytes(listed)
    rest = [(code, name) for name, more in of_glyph.items() for code in more]
    if rest:
        table = bytes([table[0] | 0x80]) + table[1:] + bytes([len(rest)])
    return table, rest


def cff_font(glyphs, codes, ranges):
    """A name-keyed CFF font of charstrings by name, and of codes."""
    order = [".notdef"]
    order += [name for _, name in sorted(codes.items()) if name not in order]
    order = list(dict.fromkeys(order))
    order += [name for name in glyphs if name not in order]
    standard = {name: k for k, name in enumerate(cffStandardStrings)}
    own = [name for name in order if name not in standard]
    sid = lambda name: standard[name] if name in standard else 391 + own.index(name)
    charset = b"\0" + b"".join(struct.pack(">H", sid(name)) for name in order[1:])
    encoding, rest = encoding_bytes(codes, order, ranges)
    encoding += b"".join(struct.pack(">BH", code, sid(name)) for code, name in rest)
    charstrings = index([glyphs[name] for name in order])
    private = b"\x8b\x14"
    front = b"\1\0\4\4" + index([b"Codes"])
    behind = index([name.encode() for name in own]) + index([])
    top = lambda at: index([five(at[0]) + b"\x0f" + five(at[1]) + b"\x10" + five(at[2]) + b"\x11" + five(len(private)) + five(at[3]) + b"\x12"])
    at = [len(front) + len(top([0] * 4)) + len(behind)]
    for part in (charset, encoding, charstrings):
        at.append(at[-1] + len(part))
    return front + top(at) + behind + charset + encoding + charstrings + private


def from_type1(path, ranges):
    """A CFF font of a Type 1 font, its own codes with it; none where it has the standard encoding."""
    font = t1Lib.T1Font(str(path))
    font.parse()
    encoding = font.font["Encoding"]
    if encoding == "StandardEncoding" or list(encoding) == list(StandardEncoding):
        return None
    drawn = font.getGlyphSet()
    glyphs = {}
    for name in font.font["CharStrings"]:
        pen = T2CharStringPen(None, None)
        drawn[name].draw(pen)
        charstring = pen.getCharString()
        charstring.compile()
        glyphs[name] = charstring.bytecode
    codes = {code: name for code, name in enumerate(encoding) if name in glyphs and name != ".notdef"}
    if ranges:
        # Some glyphs by a second code too, which is a supplement.
        free = [code for code in range(256) if code not in codes]
        codes.update(zip(free[:15], [codes[code] for code in sorted(codes)][20:]))
    return cff_font(glyphs, codes, ranges)


def first_font(data):
    fonts = CFFFontSet()
    fonts.decompile(io.BytesIO(data), None)
    return fonts[0]


def has_codes(data):
    """Whether a CFF font is name-keyed and has an encoding that is not the standard one."""
    top = first_font(data).rawDict
    return "ROS" not in top and top.get("Encoding", 0) != 0


def font_of(path, ranges):
    """The CFF font of a file, if it has codes of its own."""
    path = Path(path)
    if path.suffix in (".pfb", ".t1"):
        return from_type1(path, ranges)
    data = path.read_bytes()
    return data if has_codes(data) else None


def cut(subsetter, font, keep, folder, encoding=True):
    whole, part = Path(folder, "font.cff"), Path(folder, "subset.cff")
    whole.write_bytes(font)
    asked = ["-e"] if encoding else []
    subprocess.run([subsetter, *asked, whole, "ABCDEF+Codes", part, *map(str, keep)], check=True, stdout=subprocess.DEVNULL)
    return part.read_bytes()


def code_maps(program, fonts, folder):
    """The code map of each font as FreeType reads it."""
    paths = []
    for k, font in enumerate(fonts):
        paths.append(Path(folder, f"{k}.cff"))
        paths[-1].write_bytes(font)
    lines = subprocess.run([program, *paths], check=True, capture_output=True, text=True).stdout.splitlines()
    return [dict(pair.split("=", 1) for pair in line.split()[1:]) for line in lines]


def compiled(folder):
    """code_map.c, compiled."""
    program = Path(folder, "code_map")
    flags = subprocess.run(["pkg-config", "--cflags", "--libs", "freetype2"], check=True, capture_output=True, text=True).stdout.split()
    subprocess.run(["cc", "-O2", "-Wall", "-o", program, HERE / "code_map.c", *flags], check=True)
    return program


# A font that draws nothing.
NO_OUTLINES = cff_font({".notdef": b"\x0e"}, {}, False)


def freetype(seed, subsetter, files):
    choose = random.Random(seed)
    fonts = subsets = codes = without = 0
    with tempfile.TemporaryDirectory() as folder:
        program = compiled(folder)
        for k, path in enumerate(sorted(files)):
            font = font_of(path, k % 2 == 1)
            if font is None:
                without += 1
                continue
            order = first_font(font).charset
            fonts += 1
            kept = []
            for count in (0, 1, 20, 75, len(order)):
                keep = choose.sample(range(len(order)), min(count, len(order)))
                try:
                    kept.append((keep, cut(subsetter, font, keep, folder)))
                except subprocess.CalledProcessError:
                    print(f"{path}: a subset of {count} glyphs is refused")
            whole, *maps = code_maps(program, [font] + [subset for _, subset in kept], folder)
            for (keep, _), of_subset in zip(kept, maps):
                there = {order[glyph] for glyph in keep}
                wanted = {code: name for code, name in whole.items() if name in there}
                assert of_subset == wanted, f"{path}: {len(keep)} glyphs kept: {of_subset}, wanted {wanted}"
                subsets += 1
                codes += len(wanted)
    print(f"{fonts} fonts with codes of their own ({without} others left out), seed {seed}: {subsets} subsets, {codes} codes, 0 differ")


def pdf(font, codes):
    """A page with lines of 24 codes, in a font whose own encoding counts."""
    lines = [codes[k:k + 24] for k in range(0, len(codes), 24)]
    text = " ".join(f"1 0 0 1 20 {20 + 50 * k} Tm <{bytes(line).hex()}> Tj" for k, line in enumerate(lines))
    content = f"BT /F 40 Tf {text} ET".encode()
    widths = " ".join(["600"] * 256).encode()
    objects = [
        b"<</Type/Catalog/Pages 2 0 R>>",
        b"<</Type/Pages/Kids[3 0 R]/Count 1>>",
        f"<</Type/Page/Parent 2 0 R/MediaBox[0 0 640 {40 + 50 * len(lines)}]/Contents 4 0 R/Resources<</Font<</F 5 0 R>>>>>>".encode(),
        b"<</Length %d>>stream\n%s\nendstream" % (len(content), content),
        b"<</Type/Font/Subtype/Type1/BaseFont/ABCDEF+Codes/FirstChar 0/LastChar 255/Widths[" + widths + b"]/FontDescriptor 6 0 R>>",
        b"<</Type/FontDescriptor/FontName/ABCDEF+Codes/Flags 4/FontBBox[0 -300 1000 1000]/ItalicAngle 0/Ascent 800/Descent -200"
        b"/CapHeight 700/StemV 80/FontFile3 7 0 R>>",
        b"<</Subtype/Type1C/Length %d>>stream\n%s\nendstream" % (len(font), font),
    ]
    out, places = b"%PDF-1.5\n", []
    for number, body in enumerate(objects, 1):
        places.append(len(out))
        out += b"%d 0 obj%s\nendobj\n" % (number, body)
    table = b"".join(b"%010d 00000 n \n" % place for place in places)
    size = len(objects) + 1
    return out + b"xref\n0 %d\n0000000000 65535 f \n%strailer<</Size %d/Root 1 0 R>>\nstartxref\n%d\n%%%%EOF\n" % (size, table, size, len(out))


def picture(drawer, document, folder):
    path, out = Path(folder, "page.pdf"), Path(folder, "page")
    path.write_bytes(document)
    for old in Path(folder).glob("page*.p?m"):
        old.unlink()
    if drawer == "poppler":
        subprocess.run(["pdftoppm", "-r", "100", path, out], check=True, capture_output=True)
    else:
        subprocess.run(["mutool", "draw", "-q", "-r", "100", "-o", f"{out}.ppm", path], check=True, capture_output=True)
    return next(Path(folder).glob("page*.p?m")).read_bytes()


def drawn(subsetter, files):
    """A third of the codes that each font has, drawn from the whole font, and from subsets with and without its encoding."""
    count = 0
    with tempfile.TemporaryDirectory() as folder:
        program = compiled(folder)
        for k, path in enumerate(sorted(files)):
            font = font_of(path, k % 2 == 1)
            if font is None:
                continue
            order = first_font(font).charset
            (whole_map,) = code_maps(program, [font], folder)
            codes = [int(code) for code in whole_map][::3]
            keep = sorted({order.index(whole_map[str(code)]) for code in codes})
            with_codes, without = (cut(subsetter, font, keep, folder, asked) for asked in (True, False))
            for drawer in ("poppler", "mupdf"):
                whole, same, other, blank = (picture(drawer, pdf(f, codes), folder) for f in (font, with_codes, without, NO_OUTLINES))
                assert whole != blank, f"{path}: {drawer} draws nothing"
                assert whole == same, f"{path}: {drawer} draws another picture from the subset"
                assert whole != other, f"{path}: {drawer} draws the same without the encoding"
            count += 1
            print(f"{Path(path).name}: {len(codes)} codes, {len(font)} and {len(with_codes)} bytes, the same pictures by poppler and mupdf")
    assert count > 0, "no font with codes of its own"


def main(words):
    if words[:1] == ["freetype"] and len(words) > 3:
        freetype(int(words[1]), words[2], words[3:])
    elif words[:1] == ["drawn"] and len(words) > 2:
        drawn(words[1], words[2:])
    else:
        sys.exit(__doc__)


main(sys.argv[1:])
