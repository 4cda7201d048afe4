#!/usr/bin/env python3
"""Must-fail edits whose 'old:' text does not stand exactly once in the file it names: edits.py TREE [CRATE..]
As the kit reads them: pairs are applied one after another; 'file:' is below src/, specs/ or proofs/ of the crate; 'old:' and 'new:' are one line each."""
import os
import re
import sys


def faults(crate, edit):
    path, old, pairs, texts, was, line_no, out = "", None, 0, {}, {}, 0, []
    with open(edit, encoding="utf-8") as f:
        lines = f.read().split("\n")
    for line_no, line in enumerate(lines, 1):
        if line.startswith("file: "):
            path = line[len("file: "):].strip()
            if os.path.normpath(path) != path or not path.startswith(("src/", "specs/", "proofs/")):
                out.append(f"line {line_no}: names no file below src/, specs/ or proofs/: {path}")
                path = ""
        elif line.startswith("old: "):
            old = line[len("old: "):]
        elif line.startswith("new:"):
            new = re.sub(r"\A ", "", line[len("new:"):])
            pairs += 1
            if not path or not old:
                out.append(f"line {line_no}: a 'new:' line before any 'file:' or 'old:' line")
                continue
            if path not in texts:
                if not os.path.isfile(os.path.join(crate, path)):
                    out.append(f"line {line_no}: there is no file {path}")
                    texts[path] = was[path] = ""
                    continue
                with open(os.path.join(crate, path), encoding="utf-8") as f:
                    texts[path] = was[path] = f.read()
            found = texts[path].count(old)
            if found != 1:
                where = []
                if not found:
                    for folder, dirs, names in os.walk(crate):
                        dirs[:] = [d for d in dirs if d not in ("out", "target", "must-fail")]
                        for n in names:
                            if n.endswith((".rt", ".antt")):
                                with open(os.path.join(folder, n), encoding="utf-8") as f:
                                    c = f.read().count(old)
                                if c:
                                    where.append(f"{os.path.relpath(os.path.join(folder, n), crate)} {c} times")
                out.append(f"line {line_no - 1}: in {path} {found} times: {old.strip()[:100]}" + (f"  (it is in {', '.join(where[:4])})" if where else ""))
            else:
                texts[path] = texts[path].replace(old, new)
            old = None
        elif line.strip() and not line.startswith(("#", "--", "//")):
            out.append(f"line {line_no}: is not read: {line.strip()[:80]}")
    if not pairs:
        out.append("it has no 'old:' and 'new:' pair")
    elif not out and texts == was:
        out.append("it changes nothing")
    return out


def main(argv):
    if not argv:
        print(__doc__)
        return 2
    top, n, bad = os.path.join(argv[0], "crates"), 0, 0
    for c in sorted(os.listdir(top)):
        folder = os.path.join(top, c, "must-fail")
        if (argv[1:] and c not in argv[1:]) or not os.path.isdir(folder):
            continue
        for e in sorted(os.listdir(folder)):
            if not e.endswith(".edit"):
                if not e.endswith(".md"):
                    print(f"{c}/must-fail/{e}: no edit")
                    bad += 1
                continue
            n += 1
            for f in faults(os.path.join(top, c), os.path.join(folder, e)):
                bad += 1
                print(f"{c}/must-fail/{e}: {f}")
    print(f"{n} edits, {bad} faults")
    return 1 if bad else 0


if __name__ == "__main__":
    raise SystemExit(main(sys.argv[1:]))
