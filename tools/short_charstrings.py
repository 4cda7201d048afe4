#!/usr/bin/env python3
"""All short charstrings by brute force (document 02, Wish 13), apart from the Rattle code: written from TN5177 and document 01, 'Plain glyphs'.
Prints what crates/short_count prints:

    tools/short_charstrings.py | diff - crates/short_count/stdout

They are made in two ways, which must agree: built token by token, and of all strings that end in endchar those that a reader of tokens takes to the
last byte. `--every N` takes all strings of 1 to N bytes for the second way, whatever they end in, N up to 3."""
import sys

HINTS = {1, 3, 18, 23}                       # hstem, vstem, hstemhm, vstemhm
MASKS = {19, 20}                             # hintmask, cntrmask
PATHS = {4, 5, 6, 7, 8, 21, 22, 24, 25, 26, 27, 30, 31}   # moves, lines, curves
FLEX = {34, 35, 36, 37}                      # 12 34 to 12 37: hflex, flex, hflex1, flex1
ENDCHAR = 14


def plain_to_its_last_byte(s):
    """Whether the charstring is plain, makes no call, and its endchar is the last byte."""
    at, operands, stems = 0, 0, 0
    while at < len(s):
        b = s[at]
        if b >= 32 or b == 28:               # a number
            width = 3 if b == 28 else 1 if b <= 246 else 2 if b <= 254 else 5
            at += width
            operands += 1
            if at > len(s) or operands > 48:
                return False
            continue
        at += 1
        if b == ENDCHAR:
            return operands <= 1 and at == len(s)
        if b == 12:
            if at == len(s) or s[at] not in FLEX:
                return False
            at += 1
        elif b in HINTS or b in MASKS:
            stems += operands // 2
            if stems > 96:
                return False
            if b in MASKS:
                at += -(-stems // 8)
                if at > len(s):
                    return False
        elif b not in PATHS:
            return False                     # callsubr, callgsubr, return, and what has no meaning
        operands = 0
    return False


def by_tokens(length):
    """Those of one length, rising: each built from tokens, by depth first."""
    found = []

    def number_tokens():
        for b in range(32, 247):
            yield bytes([b])
        for b in range(247, 255):
            for c in range(256):
                yield bytes([b, c])
        for c in range(65536):
            yield bytes([28, c >> 8, c & 255])

    numbers = {w: [t for t in number_tokens() if len(t) == w] for w in (1, 2, 3)}
    operators = {1: [bytes([b]) for b in sorted(HINTS | PATHS | MASKS)], 2: [bytes([12, e]) for e in sorted(FLEX)]}

    def grow(front, operands, stems, room):
        if room == 1:
            if operands <= 1:
                found.append(front + bytes([ENDCHAR]))
            return
        for width in (1, 2, 3):
            if width < room:
                for t in numbers[width]:
                    grow(front + t, operands + 1, stems, room - width)
        for width in (1, 2):
            if width < room:
                for t in operators[width]:
                    more = stems + operands // 2 if t[0] in HINTS | MASKS else stems
                    mask = -(-more // 8) if t[0] in MASKS else 0
                    # up to 4 bytes leave no room for the bytes of a mask: two operands, it, its byte and endchar are five
                    assert mask == 0 or width + mask >= room
                    if mask == 0:
                        grow(front + t, 0, more, room - width)

    grow(b"", 0, 0, length)
    return sorted(found)


def main():
    every = int(sys.argv[sys.argv.index("--every") + 1]) if "--every" in sys.argv else 0
    fnv, counts = 2166136261, []
    for length in (1, 2, 3, 4):
        found = by_tokens(length)
        assert all(plain_to_its_last_byte(s) for s in found) and len(set(found)) == len(found)
        if length <= every:
            assert found == [s for s in (v.to_bytes(length, "big") for v in range(256 ** length)) if plain_to_its_last_byte(s)]
        else:
            fronts = (v.to_bytes(length - 1, "big") for v in range(256 ** (length - 1)))
            assert found == [s for s in (f + bytes([ENDCHAR]) for f in fronts) if plain_to_its_last_byte(s)]
        counts.append(len(found))
        for b in b"".join(found):
            fnv = (fnv ^ b) * 16777619 % 4294967296
    for n, c in enumerate(counts, 1):
        print("%d byte%s: %d" % (n, "s" if n > 1 else "", c))
    print("all: %d" % sum(counts))
    print("FNV-1a: %08x" % fnv)


main()
