#!/usr/bin/env python3
"""Whole commands, from a font's file to a subset's: mogdivash beside pyftsubset (fonttools) and hb-subset (libharfbuzz-bin).

    commands.py MOGDIVASH OUTPUT FOLDER... [-- WORD...]

Looks in the folders for the fonts below, those whose names have one of the words, and prints a Markdown table. See README.md.
"""

import math
import os
import shutil
import struct
import subprocess
import sys
import time
import zlib
from pathlib import Path

ROOT = Path(__file__).resolve().parents[2]
sys.path[:0] = [str(ROOT / "bindings/python"), str(ROOT / "examples/sheet")]

import mogdivash  # noqa: E402
from sfnt import File  # noqa: E402

# Letters, digits and signs of a result sheet: 75, those of src/sheet.rs.
TEXT = "ABCDEFGHIJKLMNOPQRSTUVWXYZabcdefghijklmnopqrstuvwxyz0123456789 .,-:()\u2019/+\u00e1\u00e9\u00f6"

FONTS = """Cantarell-Regular Cantarell-Bold EBGaramond08-Regular EBGaramond12-Regular EBGaramond12-Italic FreeMono FreeSans FreeSansBold
FreeSerif FreeSerifItalic LinBiolinum_R LinBiolinum_RB LinLibertine_R LinLibertine_RI STIX-Regular STIXGeneral-Bold lmroman10-regular
lmroman10-italic lmsans10-regular lmmono10-regular unifont unifont_jp NotoSansCJK-Regular NotoSansCJK-Bold NotoSerifCJK-Regular
FandolSong-Regular FandolHei-Regular FandolKai-Regular HaranoAjiMincho-Regular HaranoAjiGothic-Regular""".split()

# Without the tables of layout, whose glyphs (ligatures, alternates, tall brackets) the others would keep too, and with the outline of glyph 0. Hints and
# subroutines stay, glyphs are numbered anew: their defaults, and what mogdivash does. (The third spares pyftsubset a fault at Unifont.)
OTHERS = ["--drop-tables+=GSUB,GPOS,GDEF,MATH", "--notdef-outline", "--no-prune-unicode-ranges"]

# Runs of a command: so many at most, in so many seconds.
RUNS, SECONDS = 10, 3.0


def face(place, folder):
    """The file itself, or the first face of a collection (.ttc), written as an .otf."""
    if place.suffix != ".ttc":
        return place
    tables = sorted(File(place.read_bytes()).tables.items())
    front, body = b"OTTO" + struct.pack(">4H", len(tables), 0, 0, 0), b""
    for tag, data in tables:
        at = 12 + 16 * len(tables) + len(body)
        front += struct.pack(">4s3I", tag.encode("latin-1"), 0, at, len(data))
        body += data + bytes(-len(data) % 4)
    made = folder / (place.stem + ".otf")
    made.write_bytes(front + body)
    return made


def milliseconds(words):
    """The least time of a command, from its start until it has ended."""
    quiet = [(os.POSIX_SPAWN_OPEN, fd, os.devnull, os.O_WRONLY, 0) for fd in (1, 2)]
    program, best, start = shutil.which(words[0]), math.inf, time.perf_counter()
    for _ in range(RUNS):
        before = time.perf_counter()
        child = os.posix_spawn(program, words, os.environ, file_actions=quiet)
        status = os.waitpid(child, 0)[1]
        best = min(best, time.perf_counter() - before)
        if status:
            return None
        if time.perf_counter() - start > SECONDS:
            break
    return best * 1000


def table(data):
    """The CFF table of a file, or the file itself where it is a bare font."""
    return File(data).tables["CFF "] if data[:4] == b"OTTO" else data


def names(data):
    """The names or CIDs of all glyphs, to see that each command has kept the same."""
    font = mogdivash.Font(data)
    of = font.glyph_cid if font.is_cid_keyed else font.glyph_name
    return {of(glyph) for glyph in range(font.glyphs)}


class Result:
    """What a command took, and what it left; nothing where it failed."""

    def __init__(self, words, output):
        output.unlink(missing_ok=True)
        self.time = milliseconds(words)
        if self.time is None:
            return
        data = output.read_bytes()
        self.file, self.cff = len(data), table(data)
        self.size, self.deflated = len(self.cff), len(zlib.compress(self.cff, 9))


def results(font, command, folder):
    ours, py, hb = (folder / name for name in ("ours.cff", "py.otf", "hb.otf"))
    return [
        Result([command, "subset", str(font), "--text", TEXT, "-o", str(ours)], ours),
        Result(["pyftsubset", str(font), f"--text={TEXT}", *OTHERS, f"--output-file={py}"], py),
        Result(["hb-subset", str(font), f"--text={TEXT}", *OTHERS, "-o", str(hb)], hb),
    ]


def ratios(what, of):
    mean = math.exp(sum(map(math.log, of)) / len(of))
    print(f"{what}: geometric mean {mean:.2f}, least {min(of):.2f}, most {max(of):.2f}.")


def summary(all_results):
    print(f"\n{len(all_results)} fonts. Below, the other's over ours: above 1 ours is faster, or smaller.\n")
    for k, other in ((1, "pyftsubset"), (2, "hb-subset")):
        both = [(row[0], row[k]) for row in all_results if row[k].time]
        ratios(f"- {other}, time", [b.time / a.time for a, b in both])
        ratios(f"- {other}, CFF table", [b.size / a.size for a, b in both])
        ratios(f"- {other}, CFF table deflated", [b.deflated / a.deflated for a, b in both])


def row(font, found):
    """A line of the table; a warning where a command keeps other glyphs."""
    ours, *others = found
    kept = names(ours.cff)
    for name, other in zip(("pyftsubset", "hb-subset"), others):
        if other.time and names(other.cff) != kept:
            print(f"commands.py: {font.stem}: {name} keeps other glyphs", file=sys.stderr)
    whole = mogdivash.Font(font.read_bytes())
    cells = [font.stem, "CIDs" if whole.is_cid_keyed else "names", whole.glyphs, len(kept), font.stat().st_size]
    cells += ["–" if r.time is None else f"{r.time:.1f}" for r in found]
    for measure in ("size", "deflated"):
        cells += [getattr(r, measure, "–") for r in found]
    cells += [getattr(r, "file", "–") for r in others]
    print("| " + " | ".join(map(str, cells)) + " |", flush=True)


def disk(font, command, folder):
    """What it takes ours to wait until the subset is on the disk, which the others do not: the time to target/ less that to memory."""
    words = [command, "subset", str(font), "--text", TEXT, "-o"]
    return [milliseconds([*words, str(place / "ours.cff")]) for place in (ROOT / "target", folder)]


def versions():
    said = subprocess.run(["hb-subset", "--version"], capture_output=True, text=True, check=True).stdout.split("\n")[0]
    package = subprocess.run(["dpkg-query", "-W", "-f", "${Version}", "python3-fonttools"], capture_output=True, text=True, check=False).stdout
    return f"fonttools {package}, {said}"


def main():
    command, output, *rest = sys.argv[1:]
    split = rest.index("--") if "--" in rest else len(rest)
    folders, words = [Path(folder) for folder in rest[:split]], rest[split + 1 :]
    output = Path(output)
    output.mkdir(parents=True, exist_ok=True)
    wanted = [name for name in FONTS if not words or any(word in name for word in words)]
    places = [folder / (name + suffix) for name in wanted for folder in folders for suffix in (".otf", ".ttc")]
    print(f"{versions()}; {' '.join(OTHERS)}. An empty command (`true`) takes {milliseconds(['true']):.1f} ms.\n")
    three = "ours | pyftsubset | hb-subset"
    print(f"| font | keying | glyphs | kept | bytes | ms: {three} | CFF: {three} | deflated: {three} | file: pyftsubset | hb-subset |")
    print("|---" * 16 + "|")
    all_results, first = [], None
    for place in places:
        if not place.exists():
            continue
        font = face(place, output)
        found = results(font, command, output)
        if found[0].time is None:
            print(f"commands.py: {font.stem}: mogdivash refuses it", file=sys.stderr)
            continue
        row(font, found)
        all_results.append(found)
        first = first or font
    if not all_results:
        return 1
    summary(all_results)
    on_disk, in_memory = disk(first, command, output)
    print(f"- {first.stem} by ours to a file on the disk, which ours waits for: {on_disk:.1f} ms, in memory {in_memory:.1f}.")
    return 0


if __name__ == "__main__":
    if len(sys.argv) < 4:
        sys.exit(__doc__)
    sys.exit(main())
