#!/usr/bin/env python3
"""Public functions (methods too) and types of tree B that A has not, by crate and name: newpub.py A B [--all]
--all  also private functions. A function that only moved to another file of its crate is not new; one that came from another crate says so."""
import os
import sys

sys.path.insert(0, os.path.dirname(os.path.realpath(__file__)))
import rtsrc  # noqa: E402


def main(argv):
    every = "--all" in argv
    roots = [a for a in argv if not a.startswith("--")]
    if len(roots) != 2:
        print(__doc__)
        return 2
    (fa, ta), (fb, tb) = rtsrc.read(roots[0]), rtsrc.read(roots[1])
    key = lambda f: (f.crate, f.name)  # noqa: E731
    a_fn, a_pub = {}, {}
    for f in fa:
        a_fn.setdefault(key(f), []).append(f)
        if f.pub:
            a_pub.setdefault(key(f), []).append(f)
    by_name = {}
    for f in fa:
        by_name.setdefault(f.name, []).append(f)
    b_now = {(f.crate, f.name) for f in fb}
    n = 0
    left = {k: len(v) for k, v in (a_fn if every else a_pub).items()}
    for f in sorted(fb, key=lambda f: (f.crate, f.name, f.file)):
        if not (f.pub or every):
            continue
        if left.get(key(f), 0):
            left[key(f)] -= 1
            continue
        n += 1
        note = "" if f.pub else " (private)"
        if f.pub and a_fn.get(key(f)) and not a_pub.get(key(f)):
            note += "  [private in A]"
        elif key(f) not in a_fn:
            gone = [g for g in by_name.get(f.name, []) if (g.crate, g.name) not in b_now]
            if gone:
                note += "  [of that name and gone in B: " + ", ".join(f"{g.crate} {g.file}" + (", same signature" if g.sign == f.sign else "") for g in gone) + "]"
        print(f"{f.crate} {f.file} {(f.place + '::') if f.place else ''}{f.name}{f.sign}{note}")
    print(f"{n} functions")
    had = {(t.crate, t.name) for t in ta if t.pub}
    fresh = [t for t in tb if t.pub and t.kind != "Model" and (t.crate, t.name) not in had]
    for t in sorted(fresh, key=lambda t: (t.crate, t.name)):
        print(f"{t.kind} {t.crate} {t.file} {t.name}")
    print(f"{len(fresh)} types and constants")
    return 0


if __name__ == "__main__":
    raise SystemExit(main(sys.argv[1:]))
