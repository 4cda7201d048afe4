"""Cuts a CFF font, bare or in an OpenType file, down to the glyphs in use, as a document embeds it.

    import mogdivash

    font = mogdivash.Font(open("font.otf", "rb").read())
    keep = font.find_names(["R", "i", "d", "e", "r"])
    subset = font.subset("ABCDEF+Font", keep)
    open("subset.cff", "wb").write(subset.data)

The work is done by the shared library libmogdivash.so, every function of which is proved: whatever the bytes are, a call ends
without a fault, answers as its definition says, and a refusal writes nothing. This module allocates what a call is lent and gives
its answer a type. It needs the standard library alone.
"""

from .font import Font, Item, Record, Subset, Way, subset, trace
from .library import VERSION as __version__
from .refusal import Refusal, RefusedError
from .short import next_charstring

__all__ = ["Font", "Item", "Record", "RefusedError", "Refusal", "Subset", "Way", "next_charstring", "subset", "trace"]
