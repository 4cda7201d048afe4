"""Document 01's font of two glyphs, and an OpenType file of it."""

FONT = bytes.fromhex("01000401 000101010258 0001010103a011 0000 0000 000201010203 0e0e".replace(" ", ""))

# A CID-keyed font of three glyphs: CID 5 twice, FD 1 for both; two font dictionaries without entries.
CID_FONT = bytes.fromhex(
    "01000401 000101010258 0001010110 8b8b8b0c1ead0fb611c00c24b20c25 00000000 0000050005 00000101 000301010203040e0e0e 000201010101".replace(
        " ", ""
    )
)


def file(tag):
    """A file whose directory has one row of that tag, with the font behind it."""
    row = tag + bytes(4) + (28).to_bytes(4, "big") + len(FONT).to_bytes(4, "big")
    return b"OTTO\0\x01" + bytes(6) + row + FONT
