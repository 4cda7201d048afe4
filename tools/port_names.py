#!/usr/bin/env python3
"""Brings the repository's own definitions and lemmas to today's spelling: words in snake case, a dash only between two names.

usage: tools/port_names.py [--table FILE]     at the top of the repository, once, after the kit's port.py
       --table FILE also writes the rows (old, a tab, new)

A name is one that a file of specs/ or a file of lemmas in proofs/ declares. camelCase becomes snake_case. A dash stays where the words
on both sides are names of definitions themselves, as in length-append; elsewhere it becomes an underscore. Where the new spelling
stands in a file already that has the old one, a definition gets `_lem` behind it and a lemma stays. What Rattle generates (behind `tie.`, `goal.`, `c.` ..)
and names of src/ keep their spelling.
"""
import collections
import glob
import os
import re
import sys

WORD = re.compile(r'[^\s(){}.;,@"«»]+')
DECLARED = re.compile(r"^ *(?:(?:pub|abbrev|unfoldable|mutual) +)*([^\s(){}.;,@\"«»:|λ=]+)(?: \{[^{}\n]*\})* :(?= |$)", re.M)
COMMENT = re.compile(r"--[^\n]*")
GENERATED = ("tie", "goal", "reads", "lts")


def files(*shapes):
    return sorted(p for s in shapes for p in glob.glob(s, recursive=True) if "/out/" not in p)


def text(p):
    with open(p, encoding="utf-8") as f:
        return f.read()


def without_comments(t):
    return COMMENT.sub("", t)


def in_snake(name):
    return re.sub(r"(?<=[a-z0-9₀-₉'])[A-Z]+", lambda m: "_" + m[0].lower(), name)


def std_names():
    """The one-word definitions of the library, which a dash may join."""
    kit = "/opt/rattle/rattle"
    found = set()
    for p in glob.glob(kit + "/*/specs/**/*.antt", recursive=True) + glob.glob(kit + "/logic/Lib/**/*.antt", recursive=True):
        found.update(re.findall(r"^(?:(?:pub|abbrev|unfoldable) +)+([a-z][a-z0-9_]*)\b(?![-'])", text(p), re.M))
    return found | {"zero", "suc", "length", "append", "take", "drop"}


def main():
    specs = files("crates/*/specs/**/*.antt")
    lemmas = files("crates/*/proofs/*.antt")
    declared = set()
    definitions = set()
    for p in specs + lemmas:
        t = without_comments(text(p))
        declared.update(n for n in DECLARED.findall(t) if n[0].islower())
        definitions.update(re.findall(r"^ *(?:(?:pub|abbrev|unfoldable) +)*(?:abbrev|unfoldable) +(?:pub +)?([a-z][^\s(){}.;,@:]*)", t, re.M))
    joined = {in_snake(n) for n in definitions if "-" not in n} | std_names()

    def spelled(name):
        parts = in_snake(name).split("-")
        new = parts[0]
        for a, b in zip(parts, parts[1:]):
            new += ("-" if a in joined and b in joined else "_") + b
        return new

    table = {n: spelled(n) for n in declared}
    table = {a: b for a, b in table.items() if a != b and b.strip("_-")}
    # two names that fall together, or with a name that a file has already
    where = collections.defaultdict(set)
    texts = {p: text(p) for p in files("crates/*/specs/**/*.antt", "crates/*/proofs/**/*.antt", "crates/*/src/**/*.rt")}
    for p, t in texts.items():
        if p.endswith(".rt"):
            code = re.sub(r"//[^\n]*", "", t)
        else:
            code = without_comments(t)
        for w in set(WORD.findall(code)):
            where[w].add(p)
    fields = set()
    for p, t in texts.items():
        if p.endswith(".rt"):
            fields.update(re.findall(r"^\s*(?:pub )?([a-z_0-9]+): [^=\n]*,$", t, re.M))

    def stands_beside(old, new):
        """Whether a file that has the old name has the new one too, other than as a function of the code."""
        beside = [p for p in where[old] & where[new] if not (p.endswith(".rt") and is_only_called(new, texts[p]))]
        return bool(beside) or (new in fields and old in definitions)

    clashes = []
    given = collections.defaultdict(list)
    # definitions first: a lemma that would fall together with one keeps its dashes
    for old in sorted(table, key=lambda n: (n not in definitions, n)):
        tries = [table[old]]
        tries += [table[old] + "_lem"] if "-" not in old else [old]
        for new in tries:
            if new == old or not (stands_beside(old, new) or any(where[old] & where[r] for r in given[new])):
                break
        else:
            sys.exit(f"no spelling for {old}")
        if new != table[old]:
            clashes.append((old, new))
        table[old] = new
        given[new].append(old)
    table = {a: b for a, b in table.items() if a != b}
    print("clashes:", len(clashes))
    for c in clashes:
        print("  ", *c)

    def turned(t, rt):
        out, at = [], 0
        comment = re.compile(r"//[^\n]*|\"(?:[^\"\\\n]|\\.)*\"" if rt else r"--[^\n]*|\"(?:[^\"\\\n]|\\.)*\"")
        for m in comment.finditer(t):
            out.append((t[at : m.start()], True))
            out.append((m[0], False))
            at = m.end()
        out.append((t[at:], True))
        done = []
        for piece, code in out:
            if code:
                done.append(WORD.sub(one_in(piece, table), piece))
            elif piece.startswith('"'):
                done.append(piece)
            else:
                done.append(comment_turned(piece, table))
        return "".join(done)

    for p, t in texts.items():
        new = turned(t, p.endswith(".rt"))
        if new != t:
            with open(p, "w", encoding="utf-8") as f:
                f.write(new)
    if "--table" in sys.argv:
        with open(sys.argv[sys.argv.index("--table") + 1], "w", encoding="utf-8") as f:
            f.writelines(f"{a}\t{b}\n" for a, b in sorted(table.items()))
    print("names:", len(table))


def is_only_called(name, t):
    """Whether a name of a .rt file stands only as a function of the code: declared by fn, called, or imported by use."""
    code = re.sub(r"//[^\n]*", "", t)
    for m in re.finditer(r"(?<![\w-])%s(?![\w-])" % re.escape(name), code):
        behind = code[m.end() : m.end() + 1]
        before = code[max(0, m.start() - 4) : m.start()]
        if behind in "(<" or before.endswith("fn ") or before.endswith("::") or before.endswith("mod ") or behind in "::;,}":
            if behind == ":" and code[m.end() : m.end() + 2] != "::":
                return False
            continue
        return False
    return True


def one_in(piece, table):
    def one(m):
        w = m[0]
        if w not in table:
            return w
        head = piece[max(0, m.start() - 12) : m.start()]
        if re.search(r"(?:^|[\s(){}])(?:%s)\.$" % "|".join(GENERATED), head):
            return w
        return table[w]

    return one


def comment_turned(piece, table):
    def one(m):
        w = m[0]
        bare = w.strip("`:!?[]")
        if bare in table and (re.search(r"[a-z][A-Z]", bare) or w.startswith("`")):
            return w.replace(bare, table[bare])
        return w

    return WORD.sub(one, piece)


if __name__ == "__main__":
    main()
