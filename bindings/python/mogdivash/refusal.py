"""Refusals: document 01, 'Entries and their refusals', and document 02."""

import enum


class Refusal(enum.IntEnum):
    """Why a call was refused: the number that the C functions return."""

    TRUNCATED = 1
    MALFORMED = 2
    UNSUPPORTED = 3
    TOO_LONG = 4
    REAL = 5
    NO_SUCH_NUMBER = 6
    NOT_FOUND = 7
    RECORD = 8
    WORK = 9
    SUBSET_TOO_LONG = 10
    OUTPUT = 11
    STRINGS = 12
    PAIRS = 13
    NOT_ACCEPTED = 14
    NO_TABLE = 15


WORDS = {
    Refusal.TRUNCATED: "the font is truncated",
    Refusal.MALFORMED: "the font is malformed",
    Refusal.UNSUPPORTED: "the font has a form that is not supported",
    Refusal.TOO_LONG: "the font or the new name is too long",
    Refusal.REAL: "a real number of the font is past its limits",
    Refusal.NO_SUCH_NUMBER: "the font has no glyph or item of that number",
    Refusal.NOT_FOUND: "a kept glyph is not the one that its name or CID finds",
    Refusal.RECORD: "the record or its flag is not well-formed",
    Refusal.WORK: "too few work words",
    Refusal.SUBSET_TOO_LONG: "the subset is too long",
    Refusal.OUTPUT: "too little room for the answer",
    Refusal.STRINGS: "the subset has too many strings",
    Refusal.PAIRS: "the subset has too many codes",
    Refusal.NOT_ACCEPTED: "the record does not fit the kept glyphs",
    Refusal.NO_TABLE: "the OpenType file has no table of CFF outlines",
}


class RefusedError(ValueError):
    """A call was refused; `refusal` says why."""

    def __init__(self, refusal):
        super().__init__(refusal)
        self.refusal = refusal

    def __str__(self):
        return f"refused by {int(self.refusal)}: {WORDS[self.refusal]}"


def check(returned):
    """What a C function returned: 0, or a refusal, which is raised."""
    if returned != 0:
        raise RefusedError(Refusal(returned))
