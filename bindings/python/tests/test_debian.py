"""A font of Debian's (fonts-cantarell): an OpenType file as it comes. FONT=FILE names another with Latin letters and names."""

import os
import unittest
from pathlib import Path

from mogdivash import Font, RefusedError, Way

PLACE = Path(os.environ.get("FONT", "/usr/share/fonts/opentype/cantarell/Cantarell-Regular.otf"))
NAMES = ["Z", "o", "edieresis", "Aring", "n", "g", "zero", "colon", "four"]


@unittest.skipUnless(PLACE.exists(), "fonts-cantarell is not installed")
class Debian(unittest.TestCase):
    def test_a_name_and_a_time(self):
        whole = PLACE.read_bytes()
        font = Font(whole)
        keep = [font.find_name(name) for name in NAMES]
        self.assertNotIn(None, keep)
        record = font.trace(keep)
        self.assertTrue(record.traced)
        font.check_record(keep, record.rows)
        with self.assertRaises(RefusedError):
            font.check_record(keep, record.rows[:-10])
        subset = font.subset("ABCDEF+Cantarell", keep)
        self.assertEqual(subset.way, Way.RENUMBERED)
        self.assertEqual(subset, font.subset("ABCDEF+Cantarell", reversed(keep), record))
        self.assertLess(len(subset.data), len(whole) // 10)
        small = Font(subset.data)
        self.assertEqual(small.glyphs, 1 + len(set(keep)))
        for name in NAMES:
            self.assertIsNotNone(small.find_name(name))
        self.assertIsNone(small.find_name("B"))

    def test_all_glyphs(self):
        font = Font(PLACE.read_bytes())
        subset = font.subset("Whole", range(font.glyphs))
        self.assertEqual(Font(subset.data).glyphs, font.glyphs)


if __name__ == "__main__":
    unittest.main()
