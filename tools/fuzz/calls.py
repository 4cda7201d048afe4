"""The Python module over generated inputs, in one process: calls.py FILE, as `fuzz corpus` writes it.

Each answer must be the Rust binding's. What is no input of its kind, numbers out of range among it, is refused by the module's own
exception; what is of another type is a TypeError.
"""

import sys
import time

import mogdivash
from mogdivash import Font, Item, Record, RefusedError

CALLS = 0
REFUSED = 0
FAILED = []
# Calls with what is of another type.
WRONG = 13


def told(call, shown):
    """The answer of a call as the file has it."""
    global CALLS, REFUSED
    CALLS += 1
    try:
        return shown(call())
    except RefusedError as error:
        REFUSED += 1
        return f"!{int(error.refusal)}"
    except Exception as error:  # not the module's own: compared with what is expected
        return f"{type(error).__name__}: {error}"


def hexed(data):
    return bytes(data).hex() or "-"


def glyph(found):
    return "-" if found is None else str(found)


def unhexed(field):
    return b"" if field == "-" else bytes.fromhex(field)


def cut(subset):
    return f"{int(subset.way)}:{hexed(subset.data)}"


def expect(line, what, answer, field):
    if answer != field:
        FAILED.append(f"line {line}: {what}: {answer[:200]} is not {field[:200]}")


def kinds(line, data):
    """The same bytes as another type."""
    return [bytes, bytearray, memoryview][line % 3](data)


def fonts(line, font, fields):
    looked, found, cid, found_cid, item, bytes_of, keep, traced, rows, checked, name, encoding, subset, whole, blocking = fields
    looked, rows, name = unhexed(looked), unhexed(rows), unhexed(name)
    keep = [int(word) for word in keep[1:-1].split(",") if word]
    kept = [list, tuple, iter][line % 3]
    kind, number = (int(word) for word in item.split(","))
    expect(line, "find_name", told(lambda: font.find_name(kinds(line, looked)), glyph), found)
    expect(line, "find_name of text", told(lambda: font.find_name(looked.decode("latin-1")), glyph), found)
    expect(line, "find_cid", told(lambda: font.find_cid(int(cid)), glyph), found_cid)
    expect(line, "item", told(lambda: font.item([kind, Item(kind)][line % 2], number), hexed), bytes_of)
    record = told(lambda: font.trace(kept(keep)), lambda record: f"{int(record.traced)}:{hexed(record.rows)}")
    expect(line, "trace", record, traced)
    expect(line, "check_record", told(lambda: font.check_record(kept(keep), kinds(line, rows)), lambda _: "0"), checked)
    given = [Record(kinds(line, rows), True), (kinds(line, rows), True)][line % 2]
    with_codes = [bool(int(encoding)), int(encoding)][line % 2]
    expect(line, "subset", told(lambda: font.subset(kinds(line, name), kept(keep), given, with_codes), cut), subset)
    few = told(lambda: font.subset(kinds(line, name), kept(keep), given, with_codes, few_words=[True, 1, "yes"][line % 3]), cut)
    expect(line, "subset, few words", few, subset)
    expect(line, "subset, traced", told(lambda: font.subset(name, kept(keep)), cut), whole)
    expect(line, "blocking_glyph", told(lambda: font.blocking_glyph(name, kept(keep)), glyph), blocking)


def out_of_range(line, font):
    """Numbers that are none of the font's, and what is of another type."""
    far = [-1, 65536, 1 << 40, -(1 << 70)][line % 4]
    expect(line, "a glyph out of range", told(lambda: font.trace([0, far]), str), "!6")
    expect(line, "a glyph out of range", told(lambda: font.check_record([far], b""), str), "!6")
    expect(line, "a number out of range", told(lambda: font.item(Item.CHARSTRING, [-1, 1 << 64, 1 << 200][line % 3]), str), "!6")
    expect(line, "a kind out of range", told(lambda: font.item([3, 255, 256, -1][line % 4], 0), str), "!6")
    expect(line, "a CID out of range", told(lambda: font.find_cid(far), glyph), "-")
    sound = told(lambda: font.subset(b"A", [], (b"", True)), cut)
    expect(line, "any true flag", told(lambda: font.subset(b"A", [], (b"", 256)), cut), sound)
    # a font that is not cut at all is refused before its record
    cut_off = sound if sound in ("!2", "!3") else "!8"
    expect(line, "a record cut off", told(lambda: font.subset(b"A", [], (kinds(line, bytes(7)), True)), cut), cut_off)
    wrong = [
        lambda: font.trace(None),
        lambda: font.trace(["A"]),
        lambda: font.trace([1.5]),
        lambda: font.find_name(5),
        lambda: font.find_name(None),
        lambda: font.subset(5, []),
        lambda: font.subset(b"A", [], (5, True)),
        lambda: font.check_record([], 5),
        lambda: Font(5),
        lambda: Font(None),
        lambda: mogdivash.next_charstring(5),
        lambda: font.find_cid(1.5),
        lambda: font.item(Item.CHARSTRING, 0.5),
    ][line % WRONG]
    answer = told(wrong, str)
    if not answer.startswith("TypeError: "):
        FAILED.append(f"line {line}: a wrong type, {line % WRONG}: {answer[:200]}")


def run(path):
    started = time.monotonic()
    with open(path) as lines:
        for line, fields in enumerate(lines):
            data, counts, code, following, *rest = fields.split()
            data = unhexed(data)
            shown = told(
                lambda: Font(kinds(line, data)),
                lambda font: f"{font.glyphs},{font.globals},{font.strings},{int(font.is_cid_keyed)},{font.work_words}",
            )
            expect(line, "Font", shown, counts)
            following_code = told(lambda: mogdivash.next_charstring(kinds(line, unhexed(code))), lambda code: hexed(code or b""))
            expect(line, "next_charstring", following_code, following)
            if rest and shown == counts:
                font = Font(data)
                fonts(line, font, rest)
                out_of_range(line, font)
    print(f"Python module: {CALLS} calls over {line + 1} inputs, {REFUSED} refused; {time.monotonic() - started:.0f} seconds")
    for words in FAILED[:10]:
        print(f"fuzz: {words}", file=sys.stderr)
    return 1 if FAILED else 0


if __name__ == "__main__":
    sys.exit(run(sys.argv[1]))
