"""Short charstrings: document 02, Wish 13."""

import ctypes

from .library import library, octets
from .refusal import check


def next_charstring(code=b""):
    """The short charstring behind `code`, one of them or nothing; None where none is left."""
    out, size = (ctypes.c_uint8 * 4)(), (ctypes.c_uint64 * 1)()
    code = octets(code)
    check(library.cff_next_charstring(code, len(code), out, 4, size, 1))
    return bytes(out[: size[0]]) if size[0] else None
