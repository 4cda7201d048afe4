"""What a sheet needs of an OpenType file beside its outlines: characters, widths, and the measures of a font descriptor."""

import struct


class File:
    """The tables of an .otf, or of one face of a collection (.ttc)."""

    def __init__(self, data, face=0):
        start = 0
        if data[:4] == b"ttcf":
            (start,) = struct.unpack_from(">I", data, 12 + 4 * face)
        (count,) = struct.unpack_from(">H", data, start + 4)
        self.tables = {}
        for k in range(count):
            tag, _sum, at, length = struct.unpack_from(">4sIII", data, start + 12 + 16 * k)
            self.tables.setdefault(tag.decode("latin-1"), data[at : at + length])
        (self.units,) = struct.unpack_from(">H", self.tables["head"], 18)
        self._cmap = self._characters()
        (self._long_metrics,) = struct.unpack_from(">H", self.tables["hhea"], 34)

    def outlines(self):
        """The bare CFF font."""
        return self.tables["CFF "]

    def scaled(self, value):
        """A measure in thousandths of the letter size, as a PDF has it."""
        return round(value * 1000 / self.units, 3)

    def glyph(self, letter):
        """The glyph of a character, or None."""
        return self._cmap.get(ord(letter)) or None

    def width(self, glyph):
        at = 4 * min(glyph, self._long_metrics - 1)
        return self.scaled(struct.unpack_from(">H", self.tables["hmtx"], at)[0])

    def box(self):
        return [self.scaled(value) for value in struct.unpack_from(">4h", self.tables["head"], 36)]

    def ascent_descent(self):
        return [self.scaled(value) for value in struct.unpack_from(">2h", self.tables["hhea"], 4)]

    def italic_angle(self):
        return struct.unpack_from(">i", self.tables["post"], 4)[0] / 65536

    def postscript_name(self):
        """Name 6 of the table `name`, in the letters that a PDF needs no escape for."""
        table = self.tables["name"]
        _format, count, strings = struct.unpack_from(">3H", table, 0)
        for k in range(count):
            platform, _encoding, _language, kind, length, at = struct.unpack_from(">6H", table, 6 + 12 * k)
            if kind == 6:
                text = table[strings + at : strings + at + length]
                text = text.decode("latin-1" if platform == 1 else "utf-16-be", "ignore")
                return "".join(letter for letter in text if letter.isascii() and (letter.isalnum() or letter in "-_"))
        return "Font"

    def _characters(self):
        """Characters to glyphs: format 4 overlaid by format 12, of the Unicode platforms."""
        table, found = self.tables["cmap"], {}
        (count,) = struct.unpack_from(">H", table, 2)
        places = set()
        for k in range(count):
            platform, encoding, at = struct.unpack_from(">HHI", table, 4 + 8 * k)
            if platform == 0 or (platform, encoding) in ((3, 1), (3, 10)):
                places.add((struct.unpack_from(">H", table, at)[0], at))
        for kind, at in sorted(places):
            if kind == 4:
                found.update(_segments(table, at))
            elif kind == 12:
                found.update(_groups(table, at))
        return found


def _segments(table, at):
    (twice,) = struct.unpack_from(">H", table, at + 6)
    for k in range(0, twice, 2):
        (last,) = struct.unpack_from(">H", table, at + 14 + k)
        first, delta = (struct.unpack_from(">H", table, at + 16 + n * twice + k)[0] for n in (1, 2))
        place = at + 16 + 3 * twice + k
        (offset,) = struct.unpack_from(">H", table, place)
        for code in range(first, min(last, 0xFFFE) + 1):
            glyph = code
            if offset:
                (glyph,) = struct.unpack_from(">H", table, place + offset + 2 * (code - first))
                if glyph == 0:
                    continue
            yield code, (glyph + delta) % 65536


def _groups(table, at):
    (count,) = struct.unpack_from(">I", table, at + 12)
    for first, last, glyph in struct.iter_unpack(">3I", table[at + 16 : at + 16 + 12 * count]):
        for code in range(first, last + 1):
            yield code, glyph + code - first
