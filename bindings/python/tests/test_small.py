"""Small fonts, refusals, threads with little stack, and short charstrings."""

import threading
import unittest
from pathlib import Path

import mogdivash
from mogdivash import Font, Item, Refusal, RefusedError, Way

from .small import CID_FONT, FONT, file


class Small(unittest.TestCase):
    def refused(self, refusal, call, *arguments):
        with self.assertRaises(RefusedError) as caught:
            call(*arguments)
        self.assertEqual(caught.exception.refusal, refusal)
        self.assertIn(f"refused by {int(refusal)}: ", str(caught.exception))

    def test_version(self):
        root = Path(__file__).resolve().parents[3]
        self.assertEqual(mogdivash.__version__, (root / "VERSION").read_text().strip())

    def test_reading(self):
        for data in (FONT, file(b"CFF "), bytearray(FONT), memoryview(FONT)):
            font = Font(data)
            self.assertEqual((font.glyphs, font.globals, font.strings, font.work_words), (2, 0, 0, 4))
            self.assertFalse(font.is_cid_keyed)
            self.assertEqual(font.find_name("space"), 1)
            self.assertEqual(font.find_name(b".notdef"), 0)
            self.assertIsNone(font.find_name("A"))
            self.assertIsNone(font.find_cid(1))
            self.assertEqual(font.item(Item.CHARSTRING, 1), b"\x0e")

    def test_glyphs(self):
        font = Font(FONT)
        self.assertEqual([font.glyph_name(glyph) for glyph in (0, 1)], [b".notdef", b"space"])
        self.assertEqual((font.glyph_cid(1), font.glyph_fd(1)), (None, 0))
        self.assertEqual(font.find_names(["A", b"space", ".notdef", ""]), [None, 1, 0, None])
        self.assertEqual(font.find_names([]), [])
        self.assertEqual(font.find_cids([0, 1]), [None, None])
        for glyph in (-1, 2, 65537, 1 << 32, 1 << 64):
            self.refused(Refusal.NO_SUCH_NUMBER, font.glyph_name, glyph)

    def test_glyphs_of_a_cid_keyed_font(self):
        font = Font(CID_FONT)
        self.assertEqual([font.glyph_cid(glyph) for glyph in range(3)], [0, 5, 5])
        self.assertEqual([font.glyph_fd(glyph) for glyph in range(3)], [0, 1, 1])
        self.assertIsNone(font.glyph_name(1))
        self.assertEqual(font.find_cids([5, -1, 1, 0, 65536, 5]), [1, None, None, 0, None, 1])
        self.assertEqual(font.find_names(["space"]), [None])
        self.refused(Refusal.NO_SUCH_NUMBER, font.glyph_fd, 3)

    def test_refusals(self):
        self.refused(Refusal.TRUNCATED, Font, b"")
        self.refused(Refusal.UNSUPPORTED, Font, b"\x02\0\x04\x01")
        self.refused(Refusal.NO_TABLE, Font, file(b"CFF2"))
        font = Font(FONT)
        self.refused(Refusal.NO_SUCH_NUMBER, font.item, Item.CHARSTRING, 2)
        self.refused(Refusal.NO_SUCH_NUMBER, font.item, Item.GLOBAL, -1)
        self.refused(Refusal.NO_SUCH_NUMBER, font.trace, [2])
        self.refused(Refusal.NO_SUCH_NUMBER, font.subset, "A", [65536])
        self.refused(Refusal.RECORD, font.subset, "A", [1], (b"12345", True))
        self.refused(Refusal.TOO_LONG, font.subset, "A" * 65536, [1])

    def test_records_of_any_bytes(self):
        """A record may be any object that holds bytes, in any order, and its flag anything that is true or false."""
        font = Font(FONT)
        rows = b"\2" + bytes(9) + b"\1" + bytes(9)
        for kind in (bytes, bytearray, memoryview):
            self.assertEqual(font.subset("A", [1], (kind(rows), True)).way, Way.STUBBED)
            self.refused(Refusal.RECORD, font.subset, "A", [1], (kind(bytes(7)), True))
        for flag in (True, 2, 256, "yes"):
            self.assertEqual(font.subset("A", [1], (b"", flag)).way, Way.RENUMBERED)

    def test_numbers_and_types(self):
        font = Font(FONT)
        for kind in (-1, 3, 256):
            self.refused(Refusal.NO_SUCH_NUMBER, font.item, kind, 0)
        self.refused(Refusal.NO_SUCH_NUMBER, font.item, Item.CHARSTRING, 1 << 64)
        self.assertIsNone(font.find_cid(65536))
        # a number is no bytes: not so many zeros
        for call in (Font, font.find_name, mogdivash.next_charstring, lambda n: font.check_record([], n)):
            self.assertRaises(TypeError, call, 5)
        self.assertRaises(TypeError, font.subset, 5, [1])
        self.assertRaises(TypeError, font.subset, "A", [1], (5, True))
        self.assertRaises(TypeError, font.find_cid, 1.5)
        self.assertRaises(TypeError, font.item, Item.CHARSTRING, 0.5)

    def test_every_cut_font(self):
        """Each beginning of a font but the whole is refused."""
        for end in range(len(FONT)):
            with self.assertRaises(RefusedError):
                Font(FONT[:end])

    def test_subset(self):
        cut = Font(FONT).subset("A", [1])
        self.assertEqual(cut.way, Way.RENUMBERED)
        self.assertEqual(cut, mogdivash.subset(file(b"CFF "), b"A", [1]))
        self.assertEqual(Font(cut.data).glyphs, 2)
        self.assertEqual(mogdivash.trace(FONT, [1]), (b"", True))
        self.assertEqual(Font(FONT).subset("A", [1], record=(b"", False)).way, Way.COPIED)

    def test_few_words(self):
        """The subset with few work words is that with many, and so are the refusals before 9."""
        self.assertEqual([Font(data).small_work_words for data in (FONT, CID_FONT)], [1, 1])
        for font, keep in ((Font(FONT), [1]), (Font(CID_FONT), [1])):
            for encoding in (False, True):
                for record in (None, (b"", False), (b"\1" + bytes(9), True)):
                    self.assertEqual(font.subset("A", keep, record, encoding, few_words=True), font.subset("A", keep, record, encoding))
            few = lambda *given: font.subset(*given, few_words=True)
            self.refused(Refusal.NO_SUCH_NUMBER, few, "A", [3])
            self.refused(Refusal.RECORD, few, "A", keep, (b"12345", True))
            self.refused(Refusal.TOO_LONG, few, "A" * 65536, keep)
        self.refused(Refusal.NOT_FOUND, Font(CID_FONT).subset, "A", [2], (b"", False), False, True)

    def test_records(self):
        font = Font(FONT)
        self.assertIsNone(font.check_record([1], b""))
        self.refused(Refusal.RECORD, font.check_record, [1], b"12345")
        self.refused(Refusal.NOT_ACCEPTED, font.check_record, [1], b"\1" + bytes(9))
        self.refused(Refusal.NO_SUCH_NUMBER, font.check_record, [2], b"")

    def test_blocking_glyph(self):
        self.assertIsNone(Font(FONT).blocking_glyph("A", [1]))
        self.refused(Refusal.NO_SUCH_NUMBER, Font(FONT).blocking_glyph, "A", [2])

    def test_little_stack(self):
        """A thread with the least stack that Python gives traces and cuts, on a thread of the module's."""
        answers = []
        before = threading.stack_size(1 << 16)
        thread = threading.Thread(target=lambda: answers.append((Font(FONT).subset("A", [1]), Font(CID_FONT).find_cids([5]))))
        thread.start()
        threading.stack_size(before)
        thread.join()
        self.assertEqual(answers, [(Font(FONT).subset("A", [1]), [1])])
        self.assertEqual(threading.stack_size(), before)

    def test_threads(self):
        whole, answers = Font(FONT), []
        threads = [threading.Thread(target=lambda: answers.append(whole.subset("A", [1]))) for _ in range(8)]
        for thread in threads:
            thread.start()
        for thread in threads:
            thread.join()
        self.assertEqual(answers, [whole.subset("A", [1])] * 8)

    def test_short_charstrings(self):
        first = mogdivash.next_charstring()
        self.assertEqual(first, b"\x0e")
        self.assertEqual(len(mogdivash.next_charstring(first)), 2)
        self.refused(Refusal.MALFORMED, mogdivash.next_charstring, b"\x00")


if __name__ == "__main__":
    unittest.main()
