"""Draws result sheets with the subset and with the whole font, in three viewers, and compares the pictures sample by sample.

    sheets.py FOLDER FONT... -- [WORD...]
"""

import subprocess
import sys
from pathlib import Path

ROOT = Path(__file__).resolve().parents[2]
sys.path[:0] = [str(ROOT / "examples/sheet"), str(ROOT / "bindings/python")]

from embedded import Embedded  # noqa: E402
from mogdivash import RefusedError  # noqa: E402
from sfnt import File  # noqa: E402
from sheet import sheet  # noqa: E402

DOTS = "110"
VIEWERS = {
    "poppler": ["pdftoppm", "-r", DOTS, "-singlefile", "{pdf}", "{stem}"],
    "mupdf": ["mutool", "draw", "-q", "-N", "-r", DOTS, "-F", "ppm", "-o", "{stem}.ppm", "{pdf}"],
    "ghostscript": [
        *["gs", "-q", "-dSAFER", "-dBATCH", "-dNOPAUSE", "-sDEVICE=ppmraw", "-r" + DOTS],
        *["-dTextAlphaBits=4", "-dGraphicsAlphaBits=4", "-sOutputFile={stem}.ppm", "{pdf}"],
    ],
}
DIFFER = "the pictures differ"
# What every sheet has: a font without these, as one of symbols, has no letters for it.
NEEDED = "AZaz0123456789:.+ "


class Lacking(Embedded):
    """A font whose subset lacks one letter of the sheet: its picture must be another."""

    def program(self, whole):
        missing = self.glyphs["ö"]
        self.glyphs["ö"] = self.glyphs["Z"]
        made = super().program(whole)
        self.glyphs["ö"] = missing
        return made


def picture(viewer, pdf):
    """What a viewer draws: the samples, or its complaint."""
    stem = pdf.with_suffix("." + viewer)
    words = [word.format(pdf=pdf, stem=stem) for word in VIEWERS[viewer]]
    done = subprocess.run(words, capture_output=True, check=False)
    if done.returncode or done.stderr.strip():
        return None, done.stderr.decode("utf-8", "replace").strip() or f"status {done.returncode}"
    drawn = Path(f"{stem}.ppm")
    samples = drawn.read_bytes()
    drawn.unlink()
    return samples, None


def compared(font, folder):
    """What is wrong, by viewer: nothing where both pictures are equal and not empty. The PDFs' sizes."""
    part, whole = folder / "part.pdf", folder / "whole.pdf"
    part.write_bytes(sheet(font, False))
    whole.write_bytes(sheet(font, True))
    wrong = {}
    for viewer in VIEWERS:
        (one, complaint), (other, further) = picture(viewer, part), picture(viewer, whole)
        if complaint or further:
            wrong[viewer] = complaint or further
        elif one != other:
            wrong[viewer] = DIFFER
        elif len(set(one[100:])) < 16:
            wrong[viewer] = "nothing is drawn"
    return wrong, part.stat().st_size, whole.stat().st_size


def control(file, folder):
    """A subset that lacks a letter must be seen, by each viewer."""
    wrong, _part, _whole = compared(Lacking(file), folder)
    unseen = [viewer for viewer in VIEWERS if wrong.get(viewer) != DIFFER]
    print(f"control, a letter left out: {'not seen by ' + ', '.join(unseen) if unseen else 'seen by each viewer'}")
    return not unseen


def line(place, folder):
    """Compares one font, and prints a line; whether all is well, and whether it was a font for a sheet."""
    font = Embedded(File(place.read_bytes()))
    if not all(font.has(letter) for letter in NEEDED):
        print(f"{place.stem}: no letters for a sheet", flush=True)
        return True, None
    wrong, part, whole = compared(font, folder)
    keying = "CID" if font.font.is_cid_keyed else "names"
    told = "; ".join(f"{viewer}: {what}" for viewer, what in wrong.items()) or "equal in " + ", ".join(VIEWERS)
    print(f"{place.stem} ({keying}): {part} bytes of PDF, whole {whole}; {told}", flush=True)
    return not wrong, keying


def main():
    folder, *rest = sys.argv[1:]
    split = rest.index("--")
    places, words = [Path(place) for place in rest[:split]], rest[split + 1 :]
    if words:
        places = [place for place in places if any(word in place.name for word in words)]
    folder = Path(folder)
    folder.mkdir(parents=True, exist_ok=True)
    tally, bad = {"names": 0, "CID": 0}, 0
    for place in places:
        try:
            good, keying = line(place, folder)
        except RefusedError as error:
            print(f"{place.stem}: {error}", flush=True)
            good, keying = False, None
        bad += not good
        if keying:
            tally[keying] += 1
    seen = not places or control(File(places[0].read_bytes()), folder)
    print(f"{tally['names']} name-keyed and {tally['CID']} CID-keyed fonts drawn, {bad} with a difference")
    return 0 if seen and not bad and sum(tally.values()) else 1


if __name__ == "__main__":
    sys.exit(main())
