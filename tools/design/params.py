#!/usr/bin/env python3
"""Functions with more than 10 parameters or a body of more than 40 lines in crates/*/src: params.py TREE [PARAMS [LINES]]
A body's lines are those between its braces; self counts as a parameter. Functions with more than one loop are listed too (they are no fault here)."""
import os
import sys

sys.path.insert(0, os.path.dirname(os.path.realpath(__file__)))
import rtsrc  # noqa: E402


def main(argv):
    if not argv:
        print(__doc__)
        return 2
    most, lines = (int(x) for x in (argv[1:] + ["10", "40"])[:2]) if len(argv) != 2 else (int(argv[1]), 40)
    fns, _ = rtsrc.read(argv[0])
    bad = 0
    for f in fns:
        if len(f.params) > most or f.lines > lines:
            bad += 1
            print(f"{f.crate} {f.file} {(f.place + '::') if f.place else ''}{f.name}: {len(f.params)} parameters, {f.lines} lines")
    for f in fns:
        if f.loops > 1:
            print(f"more than one loop: {f.crate} {f.file} {f.name}: {f.loops}")
    top = max(fns, key=lambda f: len(f.params)), max(fns, key=lambda f: f.lines)
    print(f"{bad} of {len(fns)} functions; most parameters {len(top[0].params)} ({top[0].crate} {top[0].name}), longest body {top[1].lines} ({top[1].crate} {top[1].name})")
    return 1 if bad else 0


if __name__ == "__main__":
    raise SystemExit(main(sys.argv[1:]))
