"""A font as a PDF embeds it: the subset of the letters of a sheet, or the whole font.

A name-keyed font is a simple font: FontFile3 of the subtype Type1C, whose codes have their glyphs by name. A CID-keyed one is composite:
CIDFontType0C, whose codes are the CIDs.
"""

from mogdivash import Font
from names import candidates
from pdf import name


class Embedded:
    """A font file, and of the letters of a sheet their glyphs, names and codes."""

    def __init__(self, file):
        self.file = file
        self.font = Font(file.outlines())
        self.glyphs, self.names, self.codes = {}, {}, {}

    def has(self, letter):
        """Whether the letter can be drawn: it has a glyph and, in a name-keyed font, a name by which a code can have it."""
        if letter not in self.glyphs:
            self.glyphs[letter] = self.file.glyph(letter)
            if not self.font.is_cid_keyed:
                self.names[letter] = self._name(letter)
        named = self.font.is_cid_keyed or self.names[letter] is not None
        return named and self.glyphs[letter] is not None

    def take(self, letters):
        """The letters of the sheet, each of which `has` has: their codes."""
        self.glyphs = {letter: self.glyphs[letter] for letter in letters}
        if self.font.is_cid_keyed:
            self.codes = {letter: self._cid(glyph) for letter, glyph in self.glyphs.items()}
        else:
            self.codes = _codes(letters)

    def _name(self, letter):
        """The first of the usual names that finds the letter's glyph."""
        glyph = self.glyphs[letter]
        found = (name for name in candidates(letter) if glyph is not None and self.font.find_name(name) == glyph)
        return next(found, None)

    def _cid(self, glyph):
        """The CID of a glyph: in most fonts its number."""
        if self.font.find_cid(glyph) == glyph:
            return glyph
        return next(cid for cid in range(65536) if self.font.find_cid(cid) == glyph)

    def width(self, text):
        return sum(self.file.width(self.glyphs[letter]) for letter in text)

    def shown(self, text):
        """A text as codes: the operand of Tj."""
        digits = 4 if self.font.is_cid_keyed else 2
        return "<" + "".join(f"{self.codes[letter]:0{digits}x}" for letter in text) + ">"

    def program(self, whole):
        """The name and the bytes of what is embedded."""
        given = self.file.postscript_name()
        if whole:
            return given, self.file.outlines()
        keep = sorted(set(self.glyphs.values()))
        tagged = _tag(keep) + "+" + given
        return tagged, self.font.subset(tagged, keep).data

    def add_to(self, pdf, whole=False):
        """Adds the font to a PDF; its reference."""
        called, data = self.program(whole)
        kind = "CIDFontType0C" if self.font.is_cid_keyed else "Type1C"
        program = pdf.stream(data, f"/Subtype {name(kind)}")
        descriptor = pdf.add(self._descriptor(called, program))
        unicode = pdf.stream(self._to_unicode())
        if self.font.is_cid_keyed:
            return self._composite(pdf, called, descriptor, unicode)
        return self._simple(pdf, called, descriptor, unicode)

    def _descriptor(self, called, program):
        ascent, descent = self.file.ascent_descent()
        box = " ".join(str(value) for value in self.file.box())
        # 4: its codes are its own and not those of a standard set
        return (
            f"<< /Type /FontDescriptor /FontName {name(called)} /Flags 4 /FontBBox [{box}] /ItalicAngle {self.file.italic_angle()} "
            f"/Ascent {ascent} /Descent {descent} /CapHeight {ascent} /StemV 80 /FontFile3 {program} >>"
        )

    def _simple(self, pdf, called, descriptor, unicode):
        letters = {code: letter for letter, code in self.codes.items()}
        widths = [self.file.width(self.glyphs[letters[code]]) if code in letters else 0 for code in range(256)]
        differences = " ".join(f"{code} {name(self.names[letter])}" for code, letter in sorted(letters.items()))
        return pdf.add(
            f"<< /Type /Font /Subtype /Type1 /BaseFont {name(called)} /FirstChar 0 /LastChar 255 "
            f"/Widths [{' '.join(map(str, widths))}] /FontDescriptor {descriptor} /ToUnicode {unicode} "
            f"/Encoding << /Type /Encoding /Differences [{differences}] >> >>"
        )

    def _composite(self, pdf, called, descriptor, unicode):
        cids = {self.codes[letter]: glyph for letter, glyph in self.glyphs.items()}
        widths = " ".join(f"{cid} [{self.file.width(glyph)}]" for cid, glyph in sorted(cids.items()))
        below = pdf.add(
            f"<< /Type /Font /Subtype /CIDFontType0 /BaseFont {name(called)} /FontDescriptor {descriptor} /W [{widths}] "
            "/CIDSystemInfo << /Registry (Adobe) /Ordering (Identity) /Supplement 0 >> >>"
        )
        return pdf.add(
            f"<< /Type /Font /Subtype /Type0 /BaseFont {name(called)} /Encoding /Identity-H "
            f"/DescendantFonts [{below}] /ToUnicode {unicode} >>"
        )

    def _to_unicode(self):
        """The characters of the codes, so that the text of a sheet can be searched and copied."""
        digits = 4 if self.font.is_cid_keyed else 2
        rows = [f"<{code:0{digits}x}> <{letter.encode('utf-16-be').hex()}>" for letter, code in sorted(self.codes.items())]
        parts = [rows[k : k + 100] for k in range(0, len(rows), 100)]
        body = "".join(f"{len(part)} beginbfchar\n" + "\n".join(part) + "\nendbfchar\n" for part in parts)
        return (
            "/CIDInit /ProcSet findresource begin\n12 dict begin\nbegincmap\n/CMapName /Sheet def\n/CMapType 2 def\n"
            f"1 begincodespacerange\n<{'00' * (digits // 2)}> <{'ff' * (digits // 2)}>\nendcodespacerange\n"
            f"{body}endcmap\nCMapName currentdict /CMap defineresource pop\nend\nend\n"
        ).encode()


def _codes(letters):
    """Codes of a simple font: ASCII its own, the others from 128 on."""
    others = sorted(letter for letter in letters if not " " <= letter <= "~")
    codes = {letter: ord(letter) for letter in letters if " " <= letter <= "~"}
    codes.update({letter: 128 + k for k, letter in enumerate(others)})
    if len(others) > 128:
        raise ValueError("a simple font has 256 codes")
    return codes


def _tag(keep):
    """The six letters that a subset's name begins with, by the kept glyphs."""
    total = 5381
    for glyph in keep:
        total = (total * 33 + glyph) % (1 << 64)
    letters = ""
    for _ in range(6):
        letters, total = letters + chr(65 + total % 26), total // 26
    return letters
