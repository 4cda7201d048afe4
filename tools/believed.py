#!/usr/bin/env python3
"""Counts what a reader believes: tools/believed.py. Follows the definitions from `Faithful`, from `Cuts` and from the contract of each C
function, and prints for each how many definitions, lines and files it stands on; with --check, fails where docs/PROMISES.md has another
table. With --list NAME prints the definitions below one of them.

A definition is followed to each definition, record, data type and declared type of the code that its text names; a constructor stands
for its type. Lines are those of the definitions: comments, imports and empty lines are left out. Names of the kit (lists, arithmetic) are
not followed: their number, signs such as + aside, is the last column. Laws and proofs are never reached.
"""

import glob
import os
import re
import sys

ROOT = os.path.dirname(os.path.dirname(os.path.abspath(__file__)))
IDENT = r"[^\W\d][\w'′-]*"
HEAD = re.compile(rf"^(\s*)((?:(?:pub|abbrev|unfoldable) )*)(?:(data|record) )?({IDENT}|_\S+_)(?= [:({{])")


class Module:
    """A file of definitions: its imports, and its definitions with their lines."""

    def __init__(self, path, crate):
        self.crate, self.imports, self.aliases, self.defs, self.parent = crate, {}, {}, {}, {}
        lines = [l.split("--")[0].rstrip() for l in open(path, encoding="utf-8")]
        block = None
        for line in lines:
            if line.startswith("use "):
                self.imported(line[4:])
            elif line.strip():
                block = self.taken(line, block)

    def imported(self, text):
        named = re.fullmatch(r"(\S+)\.\{(.*)\}", text)
        if named:
            for part in named.group(2).split(", "):
                there, _, here = part.partition(" as ")
                self.imports[here or there] = (named.group(1), there)
        else:
            there, _, here = text.partition(" as ")
            self.aliases[here or there.split(".")[-1]] = there

    def taken(self, line, block):
        indent = len(line) - len(line.lstrip())
        head = HEAD.match(line)
        if block and indent > block[1]:
            inside = re.match(rf"^\s+(?:pub )?({IDENT}) :", line)
            if block[2] and inside:
                self.parent[inside.group(1)] = block[0]
            self.defs[block[0]].append(line)
            return block
        if line.lstrip().startswith(("module ", "mutual", "infix", "unfolding ")):
            return None
        if head and (head.group(2) or head.group(3) or " : " in line) and head.group(4) not in self.defs:
            self.defs[head.group(4)] = [line]
            return (head.group(4), indent, bool(head.group(3)))
        first = line.split()[0]
        if first in self.defs:
            self.defs[first].append(line)
            return (first, indent, False)
        return None


def declared(crate):
    """The structs and enums of a crate's code, each with its lines."""
    types = {}
    for path in glob.glob(f"{ROOT}/crates/{crate}/src/**/*.rt", recursive=True):
        text = re.sub(r"//[^\n]*", "", open(path, encoding="utf-8").read())
        for m in re.finditer(r"^(?:pub )?(?:struct|enum) (\w+).*?^\}", text, re.M | re.S):
            types[m.group(1)] = [l for l in m.group(0).split("\n") if l.strip()]
    return types


MODULES = {
    (c, os.path.basename(f)[:-5]): Module(f, c)
    for c in os.listdir(f"{ROOT}/crates")
    for f in glob.glob(f"{ROOT}/crates/{c}/specs/*.antt")
}
DECLARED = {c: declared(c) for c in os.listdir(f"{ROOT}/crates")}


def place(module, name, crate):
    """What an import names: a definition of the tree, a type of the code, or a name of the kit."""
    m = re.match(r"Rattle\.(\w+)\.(?:specs|proofs)\.(.*)", module)
    if not m or m.group(1) not in DECLARED:
        return ("kit", module, name)
    there, path = m.group(1), m.group(2).split(".")
    if path[0] == "declared":
        return (there, "src", path[-2] if path[-1] == "TheVariants" else path[-1])
    return defined(there, path[0], name)


def defined(crate, file, name):
    module = MODULES.get((crate, file))
    if module is None:
        return None
    if name in module.defs:
        return (crate, file, name)
    if name in module.parent:
        return (crate, file, module.parent[name])
    return None


def bound(text):
    """The variables of a text: of patterns, λ, let and typed binders."""
    names = set()
    for binder in re.findall(rf"[({{]((?:{IDENT} )+):", text):
        names |= set(binder.split())
    for binder in re.findall(r"λ ([^.]*)\.", text):
        names |= set(re.findall(IDENT, binder))
    names |= set(re.findall(rf"\blet ({IDENT})", text))
    return names


def below(key):
    """What the text of a definition names."""
    crate, file, name = key
    if crate == "kit":
        return set()
    if file == "src":
        text = " ".join(DECLARED[crate].get(name, []))
        return {(crate, "src", t) for t in re.findall(IDENT, text) if t in DECLARED[crate] and t != name}
    module, found = MODULES[(crate, file)], set()
    for line in module.defs[name]:
        found |= named(line, module, file, name)
    return found


def named(line, module, file, own):
    found, free = set(), bound(line)
    left, equals, right = line.partition(" = ")
    if equals and left.split()[:1] == [own]:
        free |= {t for t in re.findall(IDENT, left) if lookup(t, module, file) is None or t[0].islower() and t not in module.parent and t not in module.imports}
    line = re.sub(rf"(?<=[{{;]) ?{IDENT} = ", " ", line)
    for alias, inside in re.findall(rf"({IDENT})\.({IDENT})", line):
        if alias in module.aliases:
            found.add(place(module.aliases[alias], inside, module.crate))
    line = re.sub(rf"\.{IDENT}", " ", line)
    for token in set(re.findall(IDENT, line)) - free - {own}:
        found.add(lookup(token, module, file))
    return found - {None}


def lookup(token, module, file):
    if token in module.imports:
        return place(*module.imports[token], module.crate)
    return defined(module.crate, file, token)


def closure(roots):
    seen, todo = set(), list(roots)
    while todo:
        key = todo.pop()
        if key not in seen:
            seen.add(key)
            todo += below(key)
    return seen


def size(key):
    crate, file, name = key
    return len(DECLARED[crate].get(name, [])) if file == "src" else len(MODULES[(crate, file)].defs[name])


def contract(crate, function):
    """What a function's contract names, and its lines."""
    for path in glob.glob(f"{ROOT}/crates/{crate}/src/**/*.rt", recursive=True):
        text = open(path, encoding="utf-8").read()
        m = re.search(rf"fn {function}\b.*?\n\{{", text, re.S)
        if not m:
            continue
        module = Module(os.devnull, crate)
        for use in re.findall(r"ghost use ([^;]*);", text):
            module.imported(use)
        clauses = [l for l in m.group(0).split("\n")[:-1] if l.strip()]
        first = next((i for i, l in enumerate(clauses) if l.lstrip().startswith(("requires", "ensures"))), len(clauses))
        said = clauses[first:]
        return set().union(*(named(l, module, "", function) for l in said)), len(said)
    sys.exit(f"believed.py: no function {function} in {crate}")


def row(what, roots, lines=0):
    seen = closure(roots)
    ours = {k for k in seen if k[0] != "kit"}
    files = {k[:2] for k in ours}
    return f"| {what} | {len(ours)} | {sum(map(size, ours)) + lines} | {len(files)} | {len(seen) - len(ours)} |"


C = ["cff_read", "cff_find_name", "cff_find_cid", "cff_glyph", "cff_find_names", "cff_find_cids", "cff_item", "cff_item_place", "cff_item_refusal", "cff_subset", "cff_subset_cid", "cff_trace", "cff_check_record", "cff_blocking_glyph", "cff_next_charstring"]
ROOTS = {"`Faithful` (demand 3)": ({("faithful", "Faithful", "Faithful")}, 0), "`Cuts` (a call of subsetting)": ({("outcome", "Entry", "Cuts")}, 0)}
ROOTS |= {f"`{f}`": contract("capi", f) for f in C}
table = ["| believed for | definitions | lines | files | names of the kit |", "|---|---|---|---|---|", *(row(w, *r) for w, r in ROOTS.items())]
if "--list" in sys.argv:
    wanted = sys.argv[sys.argv.index("--list") + 1]
    for what, (roots, _) in ROOTS.items():
        if wanted in what:
            print("\n".join(f"{size(k):4} {k[0]} {k[1]} {k[2]}" for k in sorted(closure(roots)) if k[0] != "kit"))
            break
else:
    print("\n".join(table))
    if "--check" in sys.argv and "\n".join(table) not in open(f"{ROOT}/docs/PROMISES.md", encoding="utf-8").read():
        sys.exit("docs/PROMISES.md has another table")
