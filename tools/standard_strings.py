#!/usr/bin/env python3
"""Writes the table of the 391 standard strings (TN5176, Appendix A) from the Rust's STANDARD_STRINGS.

Usage: tools/standard_strings.py [--check]      (from anywhere; std python3 only)

Reads   docs/src/crates/efterscript-fonts/src/cff/mod.rs
Writes  crates/strings/src/table.rt       the code's table: all names one behind the other, where each begins and the last ends,
                                          and the ids in the rising byte order of their names
        crates/strings/specs/Table.antt   the same for the definitions, the names one by one
Both files are in the layout of `rt fmt`. With --check nothing is written: the status says whether the two are what
would be written. The prover shows that the code's table is the definitions' one, that the offsets rise and that all
names differ; that the names are those of Appendix A is for a reader to see in Table.antt."""
import os
import re
import sys

ROOT = os.path.join(os.path.dirname(os.path.abspath(__file__)), "..")
RUST = os.path.join(ROOT, "docs/src/crates/efterscript-fonts/src/cff/mod.rs")
COUNT = 391


def standard_strings():
    source = open(RUST, encoding="utf-8").read()
    body = re.search(r"STANDARD_STRINGS: \[&str; %d\] = \[(.*?)\];" % COUNT, source, re.S).group(1)
    names = re.findall(r'"([^"\\]*)"', body)
    assert len(names) == COUNT and all(n.isascii() for n in names)
    return names


def offsets_of(names):
    offsets = [0]
    for name in names:
        offsets.append(offsets[-1] + len(name))
    return offsets


def lines_of(words, between, width):
    """The words in lines of at most width characters, between before each word but a line's first."""
    lines = []
    for word in words:
        if lines and len(lines[-1]) + len(between) + len(word) <= width:
            lines[-1] += between + word
        else:
            lines.append(word)
    return lines


def array(name, comment, numbers):
    head = f"// {comment}\npub static {name}: [u16; {len(numbers)}] = [\n"
    return head + "".join(f"    {line}\n" for line in lines_of([f"{n}," for n in numbers], " ", 95)) + "];\n"


def code(names, offsets, order):
    text = "\\\n    ".join(lines_of(names, "", 100))
    return (
        "// The standard strings of TN5176, Appendix A, written by tools/standard_strings.py from the Rust's STANDARD_STRINGS.\n\n"
        "// All names, one behind the other.\n"
        f'pub static STANDARD_TEXT: [u8; {offsets[-1]}] =\n    *b"{text}";\n\n'
        + array("STANDARD_OFFSETS", "Where each name begins in the text, and where the last one ends.", offsets)
        + "\n"
        + array("STANDARD_ORDER", "The ids in the rising byte order of their names.", order)
    )


def cons(name, kind, comment, words):
    return f"-- {comment}\nunfoldable pub {name} : List {kind}\n{name} =\n    " + "\n    ".join(
        lines_of([w + " ∷" for w in words], " ", 116)
    ) + " []\n"


def definitions(names, offsets, order):
    return (
        "-- The standard strings of TN5176, Appendix A, written by tools/standard_strings.py from the Rust's STANDARD_STRINGS.\n"
        "use Rattle.std.specs.Prelude.{ℕ, List, [], ◌∷◌}\n"
        "use Prim.Native.String.{String}\n\n"
        + cons("standard_names", "String", "the names in the order of their ids, from 0 to 390", [f'"{n}"' for n in names])
        + "\n"
        + cons("standard_offsets", "ℕ", "where each name begins in the text of all names, and where the last one ends", [str(n) for n in offsets])
        + "\n"
        + cons("standard_order", "ℕ", "the ids in the rising byte order of their names", [str(n) for n in order])
    )


def main():
    names = standard_strings()
    offsets = offsets_of(names)
    order = sorted(range(COUNT), key=lambda k: names[k].encode())
    files = {
        "crates/strings/src/table.rt": code(names, offsets, order),
        "crates/strings/specs/Table.antt": definitions(names, offsets, order),
    }
    stale = 0
    for path, text in files.items():
        path = os.path.join(ROOT, path)
        if "--check" in sys.argv[1:]:
            if not os.path.exists(path) or open(path, encoding="utf-8").read() != text:
                print("not what the Rust's table gives:", os.path.relpath(path, ROOT))
                stale = 1
        else:
            open(path, "w", encoding="utf-8").write(text)
    return stale


sys.exit(main())
