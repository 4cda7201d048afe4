"""Reads .antt files: the statements of a file, each with the modules around it."""
import os
import re

MODS = r"(?:(?:pub|abbrev|unfoldable|opaque|private|instance)\s+)*"
DECL = re.compile(r"(" + MODS + r")(record\s+|data\s+)?([^\s:(){}\[\],.=|;λ]+|\[\])(?=\s|$)")
SKIP = ("use", "mod", "open", "infixl", "infixr", "infix", "prefix", "unfolding", "where", "let", "import", "module", "private")


def squeeze(s):
    return re.sub(r"\s+", " ", s).strip()


def uncomment(line):
    """The line without its comment ('--' at the start or behind a space)."""
    return re.sub(r"(^|\s)--.*", "", line).rstrip()


def blocks(lines):
    """(depth, [lines]) of a file: a line and the deeper lines behind it."""
    out = []
    i = 0
    return out


def depth(l):
    return len(l) - len(l.lstrip())


def parse(raw):
    """Items of a file, in order: name, kind (record, data, abbrev, unfoldable, def), modules (texts of the modules around), head (the statement), body (the
    equations; for record and data all is head), pub, deep, local (whether it stands in a 'where' of another's body)."""
    lines = [uncomment(l) for l in raw.split("\n")]
    out = []
    scan([l for l in lines if l.strip()], [], out, False)
    return out


def scan(lines, around, out, local):
    stack, i, n = [], 0, len(lines)  # stack: (depth, text) of the modules inside this block

    def take(i, d):
        """Behind the line i and all deeper lines."""
        j = i + 1
        while j < n and (depth(lines[j]) > d or (depth(lines[j]) == d and re.match(r"\s*[)}\]]", lines[j]))):
            j += 1
        return j

    def text(i, j):
        return squeeze(" ".join(x.strip() for x in lines[i:j]))

    def inside(i, j):
        """The statements of the 'where' blocks among the lines."""
        k = i
        while k < j:
            s = lines[k].strip()
            if s == "where" or (s.endswith(" where") and not re.match(MODS + r"(module|record|data)(?![^\s])", s)):
                d = depth(lines[k])
                e = k + 1
                # the block: deeper lines, or, behind a line that only ends with it, lines deeper than the equation
                while e < j and depth(lines[e]) > d:
                    e += 1
                if e > k + 1:
                    scan(lines[k + 1:e], around + [x[1] for x in stack], out, True)
                k = max(e, k + 1)
            else:
                k += 1

    while i < n:
        d, s = depth(lines[i]), lines[i].strip()
        while stack and d <= stack[-1][0]:
            stack.pop()
        if re.match(r"module(?![^\s])", s):
            j, t = i, s
            while not re.search(r"\bwhere$", t) and j + 1 < n:
                j += 1
                t += " " + lines[j].strip()
            stack.append((d, squeeze(t)[len("module "):]))
            i = j + 1
            continue
        w = re.match(MODS + r"(\S+)", s)
        if w and w[1] in ("use", "mod", "open", "infixl", "infixr", "infix", "prefix"):
            i = take(i, d)
            continue
        m = DECL.match(s)
        j = take(i, d)
        if not m or (local and not m[2] and not has_colon(text(i, j))):
            inside(i, j)
            i = j
            continue
        mods, kw, name = m[1].split(), (m[2] or "").strip(), m[3]
        head, body, start = text(i, j), [], j
        if not kw:
            k = j
            while k < n and depth(lines[k]) == d:
                t = lines[k].strip()
                if re.match(MODS + r"(use|mod|open|infix\w*|module|record|data)(?![^\s])", t):
                    break
                e = take(k, d)
                whole = text(k, e)
                if re.match(r"unfolding(?![^\s])", t):
                    body.append(("unfolding", whole))
                elif t == "where" or t.startswith("where "):
                    body.append(("where", whole))
                elif is_equation(t, name, whole):
                    body.append(("eq", whole))
                else:
                    break
                k = e
            j = k
        out.append({"name": name, "kind": kw or ("abbrev" if "abbrev" in mods else "unfoldable" if "unfoldable" in mods else "def"), "modules": around + [x[1] for x in stack], "head": head, "body": body, "pub": "pub" in mods, "deep": d, "local": local})
        inside(start, j)
        i = j


def is_equation(t, name, whole):
    """Whether the chunk is an equation of name: it begins with it, or has it between two arguments, and has ' =' at no depth."""
    if has_colon(whole):
        return False
    if "◌" in name:
        return True
    return re.match(re.escape(name) + r"(?=\s|$)", t) is not None


def has_colon(s):
    """Whether ' : ' stands before any ' = ', outside of brackets."""
    deep = 0
    for k, c in enumerate(s):
        if c in "({[":
            deep += 1
        elif c in ")}]":
            deep -= 1
        elif not deep and c == "=" and s[k - 1: k] == " " and (s[k + 1: k + 2] in (" ", "")):
            return False
        elif not deep and c == ":" and s[k - 1: k] == " " and (s[k + 1: k + 2] in (" ", "")):
            return True
    return False


def files(root, crate):
    """The files with statements of a crate: specs/ and the law files of proofs/, in order."""
    for first in ("proofs", "specs"):
        base = os.path.join(root, "crates", crate, first)
        for folder, dirs, names in os.walk(base):
            dirs[:] = sorted(x for x in dirs if x not in ("out", ".git")) if first == "specs" else []
            for f in sorted(names):
                if f.endswith(".antt"):
                    yield os.path.relpath(os.path.join(folder, f), os.path.join(root, "crates", crate))


def read(root):
    """{crate: [(file, item)]}"""
    out = {}
    top = os.path.join(root, "crates")
    for c in sorted(os.listdir(top)):
        if not os.path.isdir(os.path.join(top, c)):
            continue
        got = []
        for f in files(root, c):
            with open(os.path.join(top, c, f), encoding="utf-8") as h:
                for it in parse(h.read()):
                    got.append((f, it))
        out[c] = got
    return out
