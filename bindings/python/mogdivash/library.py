"""The shared library and its functions, as include/mogdivash.h declares them.

It is looked for where the environment variable MOGDIVASH_LIBRARY says, then where the installation put it, then in build/ of the
repository, then where the system looks for libraries.
"""

import ctypes
import os
from pathlib import Path

_HERE = Path(__file__).resolve().parent
# Of the repository; an installed module has its own files beside it.
_ROOT = _HERE / "../../.."

_version = _HERE / "VERSION"
VERSION = (_version if _version.exists() else _ROOT / "VERSION").read_text().strip()

_U8, _U16, _U32, _U64 = ctypes.c_uint8, ctypes.c_uint16, ctypes.c_uint32, ctypes.c_uint64
_SIZE = ctypes.c_size_t


def _slice(element):
    return [ctypes.POINTER(element), _SIZE]


_BYTES = [ctypes.c_char_p, _SIZE]
_CUT = [*_BYTES, *_BYTES, *_slice(_U16), *_BYTES, _U8]
_LENT = [*_slice(_U32), *_slice(_U8), *_slice(_U64)]

_ARGUMENTS = {
    "cff_read": [*_BYTES, *_slice(_U64)],
    "cff_find_name": [*_BYTES, *_BYTES, *_slice(_U64)],
    "cff_find_cid": [*_BYTES, _U16, *_slice(_U64)],
    "cff_glyph": [*_BYTES, _U64, *_slice(_U8), *_slice(_U64)],
    "cff_find_names": [*_BYTES, *_BYTES, *_slice(_U32), *_slice(_U32)],
    "cff_find_cids": [*_BYTES, *_slice(_U16), *_slice(_U32)],
    "cff_item_place": [*_BYTES, _U8, _U64, *_slice(_U64)],
    "cff_subset": [*_CUT, _U8, *_LENT],
    "cff_subset_cid": [*_CUT, *_LENT],
    "cff_subset_small": [*_CUT, _U8, *_LENT],
    "cff_subset_cid_small": [*_CUT, *_LENT],
    "cff_trace": [*_BYTES, *_slice(_U16), *_slice(_U8), *_slice(_U64)],
    "cff_check_record": [*_BYTES, *_slice(_U16), *_BYTES],
    "cff_blocking_glyph": [*_BYTES, *_BYTES, *_slice(_U16), *_slice(_U32), *_slice(_U8), *_slice(_U64)],
    "cff_next_charstring": [*_BYTES, *_slice(_U8), *_slice(_U64)],
}


def octets(data):
    """The bytes of what holds bytes. Else a TypeError: `bytes` makes so many zeros of a number."""
    return bytes(memoryview(data))


def _place():
    named = os.environ.get("MOGDIVASH_LIBRARY")
    if named:
        return named
    installed = _HERE / "LIBRARY"
    if installed.exists():
        return installed.read_text().strip()
    built = _ROOT / "build" / "libmogdivash.so"
    if built.exists():
        return str(built)
    return "libmogdivash.so." + ".".join(VERSION.split(".")[:2])


def _load():
    library = ctypes.CDLL(_place())
    for name, arguments in _ARGUMENTS.items():
        function = getattr(library, name)
        function.argtypes = arguments
        function.restype = _U8
    return library


library = _load()
