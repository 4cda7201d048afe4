#!/usr/bin/env python3
"""Writes a result sheet as a PDF of one page, with the subset of a font's letters embedded, or, to compare, the whole font.

    sheet.py FONT OUTPUT [--whole]

FONT is an OpenType file with CFF outlines (.otf, or the first face of a .ttc), name-keyed or CID-keyed.
"""

import sys
import unicodedata
from pathlib import Path

HERE = Path(__file__).resolve().parent
sys.path[:0] = [str(HERE), str(HERE.parents[1] / "bindings/python")]

import results  # noqa: E402
from embedded import Embedded  # noqa: E402
from pdf import Pdf  # noqa: E402
from sfnt import File  # noqa: E402

# A4, in points, and its margin.
WIDTH, HEIGHT, MARGIN = 595, 842, 56
# Where the columns begin or, of numbers, end; the latter are set to the right.
COLUMNS = [(MARGIN + 18, True), (MARGIN + 52, True), (MARGIN + 68, False), (MARGIN + 232, False), (450, True), (WIDTH - MARGIN - 6, True)]
SIZE, LINE = 11, 26


# Letters with a stroke, which Unicode does not take apart.
STROKED = str.maketrans("ŁłĐđØøı", "LlDdOoi")


def drawn(font, text):
    """A text in the letters that a font has: without the accent where there is none with it."""
    letters = []
    for letter in text:
        bare = unicodedata.normalize("NFD", letter)[0].translate(STROKED)
        letters += [choice for choice in (letter, bare) if font.has(choice)][:1]
    return "".join(letters)


class Page:
    """The drawing of a page."""

    def __init__(self, font):
        self.font = font
        self.operators = []

    def text(self, x, y, size, text, right=False):
        if right:
            x -= self.font.width(text) * size / 1000
        self.operators.append(f"BT /F {size} Tf 1 0 0 1 {x:.2f} {y:.2f} Tm {self.font.shown(text)} Tj ET")

    def bar(self, y, height, gray):
        width = WIDTH - 2 * MARGIN
        self.operators.append(f"{gray} g {MARGIN} {y:.2f} {width} {height} re f 0 g")

    def row(self, y, cells):
        for (x, right), cell in zip(COLUMNS, cells):
            self.text(x, y, SIZE, cell, right)


def sheet(font, whole):
    """The bytes of the PDF, with the whole font or its subset."""
    foot = f"Timed to a tenth of a second. Set in {font.file.postscript_name()}."
    head = [drawn(font, text) for text in (results.TITLE, results.SUBTITLE, foot)]
    rows = [[drawn(font, cell) for cell in row] for row in [results.HEADS, *results.rows(font.has)]]
    font.take(sorted(set("".join(head)).union(*(set("".join(row)) for row in rows))))
    page = Page(font)
    page.text(MARGIN, HEIGHT - 92, 30, head[0])
    page.text(MARGIN, HEIGHT - 116, 13, head[1])
    page.bar(HEIGHT - 132, 1.5, 0)
    for k, row in enumerate(rows):
        y = HEIGHT - 154 - LINE * k
        if k > 0 and k % 2 == 1:
            page.bar(y - 8, LINE, 0.94)
        page.row(y, row)
    page.bar(HEIGHT - 154 - LINE * (len(rows) - 1) - 12, 0.75, 0)
    page.text(MARGIN, MARGIN - 8, 8, head[2])
    pdf = Pdf()
    return pdf.page({"F": font.add_to(pdf, whole)}, "\n".join(page.operators).encode(), WIDTH, HEIGHT)


def main():
    words = [word for word in sys.argv[1:] if word != "--whole"]
    if len(words) != 2:
        print(__doc__.strip(), file=sys.stderr)
        return 2
    font = Embedded(File(Path(words[0]).read_bytes()))
    Path(words[1]).write_bytes(sheet(font, "--whole" in sys.argv))
    return 0


if __name__ == "__main__":
    sys.exit(main())
