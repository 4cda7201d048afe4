#!/usr/bin/env python3
"""Counts the places of docs/DESIGN-PASS.md in crates/*/src: tools/design_places.py [POINT]. With a point's number it lists that point's
places, one a line, else it prints a count for each point."""

import collections
import glob
import itertools
import os
import re
import sys

ROOT = os.path.dirname(os.path.dirname(os.path.abspath(__file__)))
SIGNATURE = re.compile(r"\bfn (\w+)(?:<[^>(]*>)?\(([^)]*)\)")


def sources():
    """Each file of src/ by crate, its comments blanked."""
    for path in sorted(glob.glob(f"{ROOT}/crates/*/src/*.rt")):
        crate = os.path.relpath(path, f"{ROOT}/crates").split("/")[0]
        yield crate, os.path.relpath(path, ROOT), re.sub(r"//[^\n]*", "", open(path, encoding="utf-8").read())


def enums():
    for crate, path, text in sources():
        for m in re.finditer(r"enum (\w+) \{(.*?)\n\}", text, re.S):
            variants = re.findall(r"^    (\w+)(\(|\s*\{|,)", m.group(2), re.M)
            yield crate, path, m.group(1), variants, m.group(2)


def point_1():
    """Enums of the shape of Option or Result (also with a third case), refusals as numbers, and kinds as numbers."""
    for _, path, name, variants, body in enums():
        bare = [v for v, kind in variants if kind == ","]
        refused = "(u8)" in body and any(v in ("Refused", "Bad") for v, _ in variants)
        if refused or (len(variants) == 2 and len(bare) == 1):
            yield f"{path}: enum {name}"
    for _, path, text in sources():
        for m in re.finditer(r"Refusal::[A-Z][A-Z_]+\b|(?:Refused|Bad)\([0-9]+\)", text):
            yield f"{path}: {m.group(0)}"
        for m in re.finditer(r"\b(?:way|traced|kind|flag|mode|how): (?:u8|usize)", text):
            yield f"{path}: {m.group(0)}"


def point_2():
    """Functions whose bodies differ only in names, numbers and types: the shape of each body of four lines or more, met twice."""
    shapes = collections.defaultdict(list)
    for _, path, text in sources():
        for m in re.finditer(r"\bfn (\w+)[^{;]*?(?:(?:requires|ensures)[^\n]*\{(?:[^{}]|\{[^{}]*\})*\}\s*)*\n\{\n(.*?)\n\}", text, re.S):
            body = m.group(2)
            if body.count("\n") >= 3:
                shape = re.sub(r"\b[A-Za-z_]\w*\b", lambda w: w.group(0) if w.group(0) in ("if", "while", "for", "let", "mut", "match", "return", "in") else "x", body)
                shapes[re.sub(r"\s+", " ", re.sub(r"\b\d+\b", "0", shape))].append(f"{path}: {m.group(1)}")
    for found in shapes.values():
        if len(found) > 1:
            yield " ~ ".join(found)


def point_3():
    """Loops that are no `for`."""
    for _, path, text in sources():
        for m in re.finditer(r"^\s*((?:while|loop)\b[^\n]*)", text, re.M):
            yield f"{path}: {m.group(1)}"


def point_4():
    """Equality, order, copying, conversion and printing by hand: functions of such a name, and casts of a byte or a word."""
    for _, path, text in sources():
        for m in re.finditer(r"\bfn ((?:same|order|is_same|compare|copy|put_bytes|wide|print)\w*)\b", text):
            yield f"{path}: fn {m.group(1)}"
        for m in re.finditer(r"\bwide\([^\n]*", text):
            if "fn " not in text[text.rfind("\n", 0, m.start()) : m.start()]:
                yield f"{path}: {m.group(0)}"


def point_5():
    """Facts in the `requires` of three functions or more, and pairs of parameters that ten functions or more take together."""
    facts, pairs = collections.defaultdict(set), collections.defaultdict(set)
    for _, path, text in sources():
        for m in SIGNATURE.finditer(text):
            named = f"{path}: {m.group(1)}"
            words = [re.sub(r"\s+", " ", it.strip()) for it in m.group(2).split(",") if ":" in it]
            for pair in itertools.combinations(words, 2):
                pairs[pair].add(named)
            clause = re.match(r"[^{;]*?requires[^{]*\{((?:[^{}]|\{[^{}]*\})*)\}", text[m.end() :])
            if clause and "fn " not in text[m.end() : m.end() + clause.start(1)]:
                for fact in re.sub(r"\s+", " ", clause.group(1)).split(" × "):
                    facts[fact.strip(" ()")].add(named)
    for fact, at in sorted(facts.items(), key=lambda it: -len(it[1])):
        if len(at) >= 3:
            yield f"{len(at)} functions require {fact}"
    for pair, at in sorted(pairs.items(), key=lambda it: -len(it[1])):
        if len(at) >= 10:
            yield f"{len(at)} functions take {', '.join(pair)}"


def point_6():
    """A buffer with a place or a length beside it: functions that take a slice and, for it, `at`, `to`, `n`, `len` or `count`."""
    for _, path, text in sources():
        for m in SIGNATURE.finditer(text):
            if re.search(r"&(?:mut )?\[\w+\]", m.group(2)) and re.search(r"\b(?:at|to|n|len|count|end)\s*:\s*usize", m.group(2)):
                yield f"{path}: {m.group(1)}"


def point_7():
    """Switches on which step to run: matches on a kind that is passed in, and numbers that choose a way."""
    for _, path, text in sources():
        for m in re.finditer(r"match (kind|way|how|mode|step)\b|if (?:way|how|mode|kind|traced) [=!]= [^\n]*", text):
            yield f"{path}: {m.group(0)}"


def point_8():
    """Answers of proofs (the lines that state one), by crate."""
    for at in sorted(glob.glob(f"{ROOT}/crates/*")):
        count = 0
        for folder, _, files in os.walk(f"{at}/proofs"):
            for name in files:
                if name in ("Answers.antt", "Invariants.antt", "Proof.antt"):
                    count += len(re.findall(r"^(?:abbrev )?pub [\w-]+ : goal", open(f"{folder}/{name}", encoding="utf-8").read(), re.M))
        if count:
            yield f"{os.path.basename(at)}: {count}"


POINTS = {1: point_1, 2: point_2, 3: point_3, 4: point_4, 5: point_5, 6: point_6, 7: point_7, 8: point_8}
if len(sys.argv) > 1:
    print("\n".join(POINTS[int(sys.argv[1])]()))
else:
    for number, point in POINTS.items():
        found = list(point())
        count = sum(int(it.split(": ")[1]) for it in found) if number == 8 else len(found)
        print(f"{number}. {count}  {point.__doc__}")
