#!/usr/bin/env python3
"""Checks that each name which docs/PROMISES.md cites stands where the page says: tools/promises.py. Prints those that do not, and fails.

A name in backquotes is a definition, law, function, constant or type of a crate, a must-fail edit, a module, or a name of the original
(docs/src). `A.b` is b in A.antt, `a::b` is b of the crate or module a. A crate's name before a name, as in: subset `Cut.Outcome`,
`leaves_out`, holds for it and for those that follow behind commas; there the name must stand in that crate. A name without one must
stand in a crate that its row names, if it names any, else anywhere. Names of other forms, as bytes and commands, are passed over.
"""

import glob
import os
import re
import sys

ROOT = os.path.dirname(os.path.dirname(os.path.abspath(__file__)))
PAGE = sys.argv[1] if len(sys.argv) > 1 else f"{ROOT}/docs/PROMISES.md"
NAME = r"[A-Za-z][\w₀-₉'-]*"
CITED = re.compile(rf"{NAME}(?:(?:::|\.){NAME})*(?:\(\))?")
# The page's own patterns, words of Rust, and bytes that read like names.
PASSED_OVER = {"A.b", "X.antt", "as", "dense", "expect", "ff", "ff00", "requires"}


def read(pattern):
    return {f: open(f, encoding="utf-8").read() for f in glob.glob(f"{ROOT}/{pattern}", recursive=True)}


def stem(file):
    return os.path.basename(file).rsplit(".", 1)[0]


def defined_in_specs(text):
    return set(re.findall(rf"^\s*(?:(?:abbrev|unfoldable|pub|record|data) )*({NAME})(?= [:({{])", text, re.M))


def defined_in_code(text):
    return set(re.findall(rf"\b(?:fn|struct|enum|const|mod|type|trait|static) ({NAME})", text))


class Crate:
    def __init__(self, name):
        specs, code = read(f"crates/{name}/specs/**/*.antt") | read(f"crates/{name}/proofs/*.antt"), read(f"crates/{name}/src/**/*.rt")
        self.specs = {}
        for f, t in specs.items():
            self.specs.setdefault(stem(f), set()).update(defined_in_specs(t))
        self.code = {stem(f): defined_in_code(t) for f, t in code.items()}
        self.edits = {stem(f) for f in glob.glob(f"{ROOT}/crates/{name}/must-fail/*.edit")}
        self.known = {name} | self.edits | set(self.specs) | set(self.code)
        self.known = self.known.union(*self.specs.values(), *self.code.values())
        # fields of records and variants of enums
        self.words = set(re.findall(NAME, " ".join([*specs.values(), *code.values()])))

    def has(self, name):
        parts = re.split(r"::|\.", name)
        if len(parts) == 1:
            return name in self.known or (name in self.words and name[0].isupper())
        module, inside = parts[-2], parts[-1]
        if "::" not in name and module[0].isupper():
            return inside in self.specs.get(module, set())
        if module in self.code:
            return inside in self.code[module] or inside in self.words
        return module in self.known and inside in self.known | self.words


CRATES = {os.path.basename(d): Crate(os.path.basename(d)) for d in glob.glob(f"{ROOT}/crates/*")}
original = {**read("docs/src/**/*.rs"), **read("bindings/rust/src/*.rs")}
ORIGINAL = set().union(*map(defined_in_code, original.values())) | set(re.findall(NAME, " ".join(original.values())))


def holders(name):
    first, _, rest = name.partition("::")
    where = {c for c, crate in CRATES.items() if crate.has(name)}
    return where | {first} if rest and first in CRATES and CRATES[first].has(rest) else where


def in_original(name):
    return re.split(r"::|\.", name)[-1] in ORIGINAL


def citations(row):
    """The names of a row, each with the crate said for it or None; and the crates that the row names."""
    cited, crates = [], set()
    for cell in row.split("|"):
        said = None
        pieces = re.split(r"`([^`\n]+)`", cell)
        for text, name in zip(pieces[::2], pieces[1::2]):
            word = re.search(rf"({NAME})\s*\(?$", text)
            if word and word.group(1) in CRATES:
                said = word.group(1)
            elif not re.fullmatch(r",? (and )?|\s*", text):
                said = None
            crates |= {w for w in re.findall(NAME, text) if w in CRATES}
            if not CITED.fullmatch(name) or name in PASSED_OVER:
                continue
            name = name.removesuffix("()")
            if name in CRATES:
                crates.add(name)
            elif name.split("::")[0] in CRATES and "::" in name:
                crates.add(name.split("::")[0])
            cited.append((name, said))
        crates |= {w for w in re.findall(NAME, pieces[-1]) if w in CRATES}
    return cited, crates


names, wrong = set(), []
for number, row in enumerate(open(PAGE, encoding="utf-8"), 1):
    cited, named = citations(row)
    for name, said in cited:
        names.add(name)
        where = holders(name)
        if said and name not in CRATES and said not in where:
            wrong.append(f"line {number}: `{name}` does not stand in {said}" + (f", but in {', '.join(sorted(where))}" if where else ""))
        elif not where and not in_original(name):
            wrong.append(f"line {number}: `{name}` does not stand in the tree")
        elif not said and where and named and not where & named and not in_original(name):
            wrong.append(f"line {number}: `{name}` stands in {', '.join(sorted(where))}, which the row does not name")
for line in wrong:
    print(f"docs/PROMISES.md, {line}")
print(f"{len(names)} names cited, {len(wrong)} places wrong")
sys.exit(bool(wrong))
