"""A font that was read, and its subsets."""

import ctypes
import enum
from operator import index
from typing import NamedTuple

from .library import library, octets
from .refusal import Refusal, RefusedError, check
from .stack import on_own_stack

# The longest subset: document 01, refusal 10.
_LONGEST = 67_108_864
# The most work words that are allocated, 4 MiB as in the Rust binding: a font of some kilobytes can ask for half a gigabyte.
_MOST_WORDS = 1 << 20
_ABSENT = 65536
_ROW = 10


class Item(enum.IntEnum):
    """Kinds of items. A string is meant by its place in the String INDEX and not by its string id."""

    CHARSTRING = 0
    GLOBAL = 1
    STRING = 2


class Way(enum.IntEnum):
    """How the subroutines of a subset are pruned: those reached renumbered, the others stubbed, or all copied."""

    RENUMBERED = 0
    STUBBED = 1
    COPIED = 2


class Record(NamedTuple):
    """What kept glyphs reach: rows of ten bytes (document 01, 'Reach record'), and whether they were traced."""

    rows: bytes
    traced: bool


UNTRACED = Record(b"", False)


class Subset(NamedTuple):
    """A bare CFF font, and how its subroutines are pruned."""

    data: bytes
    way: Way


def _glyphs(keep):
    keep = list(keep)
    if any(not 0 <= glyph <= 65535 for glyph in keep):
        raise RefusedError(Refusal.NO_SUCH_NUMBER)
    return (ctypes.c_uint16 * len(keep))(*keep), len(keep)


def _text(name):
    return name.encode() if isinstance(name, str) else octets(name)


class Font:
    """The first font of a file: an OpenType file as it is, or a bare CFF font. Raises RefusedError where it is refused."""

    def __init__(self, data):
        self._data = octets(data)
        counts = (ctypes.c_uint64 * 5)()
        check(library.cff_read(self._data, len(self._data), counts, 5))
        self.glyphs, self.globals, self.strings, cid, self.work_words = counts
        self.is_cid_keyed = bool(cid)
        # of a subset with few_words: a bit for each glyph in the place of two words
        self.small_work_words = (self.glyphs + 31) // 32 + self.work_words - 2 * self.glyphs

    def find_name(self, name):
        """The first glyph of that name, or None, as in a CID-keyed font."""
        name, answer = _text(name), (ctypes.c_uint64 * 1)()
        check(library.cff_find_name(self._data, len(self._data), name, len(name), answer, 1))
        return None if answer[0] == _ABSENT else answer[0]

    def find_cid(self, cid):
        """The first glyph of that CID, or None, as in a name-keyed font."""
        if not 0 <= index(cid) <= 65535:
            return None
        answer = (ctypes.c_uint64 * 1)()
        check(library.cff_find_cid(self._data, len(self._data), cid, answer, 1))
        return None if answer[0] == _ABSENT else answer[0]

    def find_names(self, names):
        """The first glyph of each name, or None, with one reading of the font: what find_name gives for each."""
        names = [_text(name) for name in names]
        data, count, glyphs = b"".join(names), len(names), (ctypes.c_uint32 * len(names))()
        lengths = (ctypes.c_uint32 * count)(*map(len, names))
        check(library.cff_find_names(self._data, len(self._data), data, len(data), lengths, count, glyphs, count))
        return [None if glyph == _ABSENT else glyph for glyph in glyphs]

    def find_cids(self, cids):
        """The first glyph of each CID, or None, with one reading of the font: what find_cid gives for each."""
        cids = list(cids)
        return on_own_stack(lambda: self._find_cids(cids))

    def _find_cids(self, cids):
        asked = [cid for cid in cids if 0 <= cid <= 65535]
        count, glyphs = len(asked), (ctypes.c_uint32 * len(asked))()
        check(library.cff_find_cids(self._data, len(self._data), (ctypes.c_uint16 * count)(*asked), count, glyphs, count))
        found = dict(zip(asked, glyphs))
        return [None if found.get(cid, _ABSENT) == _ABSENT else found[cid] for cid in cids]

    def glyph_name(self, glyph):
        """The name of a glyph, the bytes of its string, standard or the font's own; None in a CID-keyed font."""
        name, _words = self._glyph(glyph)
        return None if self.is_cid_keyed else name

    def glyph_cid(self, glyph):
        """The CID of a glyph; None in a name-keyed font."""
        _name, words = self._glyph(glyph)
        return words[1] if self.is_cid_keyed else None

    def glyph_fd(self, glyph):
        """The font dictionary of a glyph; 0 in a name-keyed font."""
        _name, words = self._glyph(glyph)
        return words[2]

    def _glyph(self, glyph):
        if not 0 <= glyph < 1 << 64:
            raise RefusedError(Refusal.NO_SUCH_NUMBER)
        # Names of real fonts are shorter; a longer one is a part of the font.
        for room in (256, len(self._data)):
            name, words = (ctypes.c_uint8 * room)(), (ctypes.c_uint64 * 4)()
            returned = library.cff_glyph(self._data, len(self._data), glyph, name, room, words, 4)
            if returned != Refusal.OUTPUT:
                break
        check(returned)
        return ctypes.string_at(name, words[3]), list(words)

    def item(self, kind, number):
        """The bytes of a charstring, global subroutine or string."""
        if kind not in list(Item) or not 0 <= index(number) < 1 << 64:
            raise RefusedError(Refusal.NO_SUCH_NUMBER)
        place = (ctypes.c_uint64 * 2)()
        check(library.cff_item_place(self._data, len(self._data), Item(kind), number, place, 2))
        start, length = place
        return self._data[start : start + length]

    def trace(self, keep):
        """The reach record of glyph 0 and the glyphs of `keep`: traced, or UNTRACED where one of them is not plain."""
        return on_own_stack(lambda: self._trace(*_glyphs(keep)))

    def _trace(self, keep, count):
        room = 1 << 16
        while True:
            rows, answer = (ctypes.c_uint8 * room)(), (ctypes.c_uint64 * 2)()
            returned = library.cff_trace(self._data, len(self._data), keep, count, rows, room, answer, 2)
            if returned != Refusal.OUTPUT:
                check(returned)
                return Record(ctypes.string_at(rows, answer[1]), bool(answer[0]))
            room *= 4

    def check_record(self, keep, rows):
        """Whether rows of another tracer are accepted for glyph 0 and the glyphs of `keep` (document 02, Wish 6): RefusedError where
        they are not. A subset by accepted rows holds every kept glyph."""
        rows = octets(rows)
        on_own_stack(lambda: self._check_record(*_glyphs(keep), rows))

    def _check_record(self, keep, count, rows):
        check(library.cff_check_record(self._data, len(self._data), keep, count, rows, len(rows)))

    def blocking_glyph(self, name, keep):
        """Which glyph costs the small file (document 02, Wish 12): where the traced subset is STUBBED, the smallest kept glyph but 0
        without which it is RENUMBERED; else None."""
        return on_own_stack(lambda: self._blocking_glyph(_text(name), *_glyphs(keep)))

    def _blocking_glyph(self, name, keep, count):
        words = self.work_words if self.work_words <= _MOST_WORDS else 0
        work, answer, room = (ctypes.c_uint32 * words)(), (ctypes.c_uint64 * 1)(), 1 << 16
        front = [self._data, len(self._data), name, len(name), keep, count, work, words]
        while True:
            returned = library.cff_blocking_glyph(*front, (ctypes.c_uint8 * room)(), room, answer, 1)
            if returned != Refusal.OUTPUT:
                check(returned)
                return None if answer[0] == _ABSENT else answer[0]
            room *= 4

    def subset(self, name, keep, record=None, encoding=False, few_words=False):
        """The subset of glyph 0 and the glyphs of `keep` under a new name, by a record, or traced where there is none. With
        `encoding` a name-keyed font keeps the codes of the kept glyphs. With `few_words` the answer is the same, by `small_work_words`
        work words in the place of `work_words` (document 02, Wish 10)."""
        keep = list(keep)
        return on_own_stack(lambda: self._subset(_text(name), keep, record, encoding, few_words))

    def _subset(self, name, keep, record, encoding, few_words):
        keep, count = _glyphs(keep)
        rows, traced = self._trace(keep, count) if record is None else record
        rows = octets(rows)
        # In rising order rows are searched, in another each mask passes over all of them; no answer changes.
        if len(rows) % _ROW == 0:
            rows = b"".join(sorted(rows[k : k + _ROW] for k in range(0, len(rows), _ROW)))
        words = self.small_work_words if few_words else self.work_words
        words = words if words <= _MOST_WORDS else 0
        work, answer = (ctypes.c_uint32 * words)(), (ctypes.c_uint64 * 2)()
        data, length = self._data, len(self._data)
        front = [data, length, name, len(name), keep, count, rows, len(rows), int(bool(traced))]
        room = min(length + length // 4 + len(name) + 65_536, _LONGEST)
        while True:
            out = (ctypes.c_uint8 * room)()
            lent = [work, words, out, room, answer, 2]
            if self.is_cid_keyed:
                cut = library.cff_subset_cid_small if few_words else library.cff_subset_cid
                returned = cut(*front, *lent)
            else:
                cut = library.cff_subset_small if few_words else library.cff_subset
                returned = cut(*front, int(bool(encoding)), *lent)
            if returned != Refusal.OUTPUT or room == _LONGEST:
                check(returned)
                return Subset(ctypes.string_at(out, answer[1]), Way(answer[0]))
            room = min(2 * room, _LONGEST)


def trace(data, keep):
    """The reach record of glyphs of a file: Font(data).trace(keep)."""
    return Font(data).trace(keep)


def subset(data, name, keep, encoding=False):
    """The traced subset of a file: Font(data).subset(name, keep)."""
    return Font(data).subset(name, keep, encoding=encoding)
