//! What `mogdivash --help` prints.

pub const TEXT: &str = "\
Cuts a font down to the letters in use, as a document embeds it.

    mogdivash subset FONT [--text TEXT] [--text-file FILE] [--glyphs N,..] [--names A,..] [--cids N,..]
                     [--name NAME] [--encoding] [-o OUT]
    mogdivash check FONT RECORD [--text TEXT] .. as above
    mogdivash blocking FONT [--text TEXT] .. [--name NAME]
    mogdivash info FONT
    mogdivash --help | --version

FONT is an OpenType file with CFF outlines (.otf) as it is, or a bare CFF font. The subset is a bare CFF font,
as a PDF embeds it. It has glyph 0 and what is kept:

    --text TEXT       the characters of TEXT, by the cmap table of the file
    --text-file FILE  the characters of FILE, which is UTF-8; control characters are passed over
    --glyphs N,..     glyphs by their numbers; N-M for those from N to M
    --names A,..      glyphs by their names, in a name-keyed font
    --cids N,..       glyphs by their CIDs, in a CID-keyed font; N-M as above

Each may stand more than once, beside the others. A character without a glyph is named in a warning. Ligatures
and alternates, which a shaper would choose, are not added: name them.

    --name NAME       the name of the new font; without it six letters, a plus and the name of the file
    --encoding        a name-keyed font's own codes are kept, for a printer that is driven by codes
    -o OUT            the file that is written, `-` for standard output; without it the name of FONT with
                      .subset.cff, in the current folder

check says whether RECORD, the reach record of another tracer, ten bytes a row, is accepted for what is kept: each
glyph is plain, the record lists all that they meet, and each subroutine that it lists exists.

blocking says which kept glyph costs the small file: the smallest one without which a subset whose unused subroutines
are emptied has only those in use.

A file is written whole or not at all. Exit status: 0 done; 1 refused (the number and the words of the refusal
stand on standard error), or a file cannot be read or written; 2 wrong usage.
";
