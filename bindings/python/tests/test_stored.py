"""The stored cases of the gate (crates/replay/data), answered through the module."""

import unittest
from pathlib import Path

from mogdivash import Font, RefusedError

DATA = Path(__file__).resolve().parents[3] / "crates/replay/data"


class Fields:
    """Takes bytes and numbers from the front of a field."""

    def __init__(self, text):
        self.left = bytes.fromhex(text.lstrip("-"))

    def bytes(self, count):
        taken, self.left = self.left[:count], self.left[count:]
        return taken

    def number(self, count):
        return int.from_bytes(self.bytes(count), "big")


def cases(name):
    for line in (DATA / name).read_text().splitlines():
        kind, given, answer = line.split(" ")
        yield kind, Fields(given), Fields(answer)


def outcome(call):
    """What a call answers, or the number of its refusal."""
    try:
        return 0, call()
    except RefusedError as error:
        return int(error.refusal), None


class Stored(unittest.TestCase):
    def test_reading_finding_and_items(self):
        asked = 0
        for kind, given, answer in cases("cff"):
            data = given.bytes(given.number(2))
            returned = answer.number(1)
            refusal, font = outcome(lambda: Font(data))
            if font is None:
                self.assertEqual(refusal, returned)
                continue
            self.check(font, kind, given, returned, answer)
            asked += 1
        self.assertGreater(asked, 1000)

    def check(self, font, kind, given, returned, answer):
        if kind == "R":
            told = [answer.number(size) for size in (4, 4, 4, 1, 8)]
            self.assertEqual(told, [font.glyphs, font.globals, font.strings, font.is_cid_keyed, font.work_words])
        elif kind in "NC":
            found = font.find_name(given.left) if kind == "N" else font.find_cid(given.number(2))
            self.assertEqual(answer.left, bytes(3) if found is None else b"\1" + found.to_bytes(2, "big"))
        else:
            refusal, item = outcome(lambda: font.item(given.number(1), given.number(4)))
            self.assertEqual(refusal, returned)
            if item is not None:
                self.assertEqual(item, answer.left)

    def test_subsets(self):
        cut = 0
        for kind, given, answer in cases("subset"):
            data = given.bytes(given.number(2))
            name = given.bytes(given.number(1))
            keep = [given.number(2) for _ in range(given.number(2))]
            flag, _work, _room = given.number(1), given.number(2), given.number(2)
            returned = answer.number(1)
            # Flags that the module does not give, and lent memory, which it chooses itself, are tried elsewhere.
            if flag > 1 or returned in (9, 11):
                continue
            refusal, font = outcome(lambda: Font(data))
            if font is None or font.is_cid_keyed != (kind == "D"):
                continue
            refusal, subset = outcome(lambda: font.subset(name, keep, (given.left, bool(flag))))
            self.assertEqual(refusal, returned)
            self.assertEqual(outcome(lambda: font.subset(name, keep, (given.left, bool(flag)), few_words=True)), (refusal, subset))
            if subset is not None:
                self.assertEqual((subset.way, subset.data), (answer.number(1), answer.left))
                cut += 1
        self.assertGreater(cut, 300)


if __name__ == "__main__":
    unittest.main()
