"""Names that fonts give the glyphs of letters: Adobe's glyph list, the Latin part of it, which names of riders need.

An encoding of a name-keyed font says by name which glyph a code has.
"""

# The first character of a run, and the names of it and those behind it.
RUNS = {
    0x0020: """space exclam quotedbl numbersign dollar percent ampersand quotesingle parenleft parenright asterisk plus comma
    hyphen period slash zero one two three four five six seven eight nine colon semicolon less equal greater
    question at A B C D E F G H I J K L M N O P Q R S T U V W X Y Z bracketleft backslash bracketright asciicircum
    underscore grave a b c d e f g h i j k l m n o p q r s t u v w x y z braceleft bar braceright asciitilde""",
    0x00A1: """exclamdown cent sterling currency yen brokenbar section dieresis copyright ordfeminine guillemotleft logicalnot""",
    0x00AE: """registered macron degree plusminus""",
    0x00B4: """acute mu paragraph periodcentered cedilla""",
    0x00BA: """ordmasculine guillemotright onequarter onehalf threequarters questiondown Agrave Aacute Acircumflex Atilde
    Adieresis Aring AE Ccedilla Egrave Eacute Ecircumflex Edieresis Igrave Iacute Icircumflex Idieresis Eth Ntilde
    Ograve Oacute Ocircumflex Otilde Odieresis multiply Oslash Ugrave Uacute Ucircumflex Udieresis Yacute Thorn
    germandbls agrave aacute acircumflex atilde adieresis aring ae ccedilla egrave eacute ecircumflex edieresis
    igrave iacute icircumflex idieresis eth ntilde ograve oacute ocircumflex otilde odieresis divide oslash ugrave
    uacute ucircumflex udieresis yacute thorn ydieresis Amacron amacron Abreve abreve Aogonek aogonek Cacute cacute
    Ccircumflex ccircumflex Cdotaccent cdotaccent Ccaron ccaron Dcaron dcaron Dcroat dcroat Emacron emacron Ebreve
    ebreve Edotaccent edotaccent Eogonek eogonek Ecaron ecaron Gcircumflex gcircumflex Gbreve gbreve Gdotaccent
    gdotaccent""",
    0x0124: """Hcircumflex hcircumflex Hbar hbar Itilde itilde Imacron imacron Ibreve ibreve Iogonek iogonek Idotaccent
    dotlessi IJ ij Jcircumflex jcircumflex""",
    0x0138: """kgreenlandic Lacute lacute""",
    0x013D: """Lcaron lcaron Ldot ldot Lslash lslash Nacute nacute""",
    0x0147: """Ncaron ncaron napostrophe Eng eng Omacron omacron Obreve obreve Ohungarumlaut ohungarumlaut OE oe Racute racute""",
    0x0158: """Rcaron rcaron Sacute sacute Scircumflex scircumflex Scedilla scedilla Scaron scaron""",
    0x0164: """Tcaron tcaron Tbar tbar Utilde utilde Umacron umacron Ubreve ubreve Uring uring Uhungarumlaut uhungarumlaut
    Uogonek uogonek Wcircumflex wcircumflex Ycircumflex ycircumflex Ydieresis Zacute zacute Zdotaccent zdotaccent
    Zcaron zcaron longs""",
    0x0218: """Scommaaccent scommaaccent uni021A uni021B""",
    0x2013: """endash emdash""",
    0x2018: """quoteleft quoteright""",
    0x201C: """quotedblleft quotedblright""",
    0x2022: """bullet""",
    0x2026: """ellipsis""",
    0x20AC: """Euro""",
}

NAMES = {chr(first + k): name for first, run in RUNS.items() for k, name in enumerate(run.split())}


def candidates(letter):
    """What the glyph of a letter may be called: by the list, or by its number."""
    code = ord(letter)
    listed = [NAMES[letter]] if letter in NAMES else []
    return [*listed, "uni%04X" % code, "u%04X" % code, "u%05X" % code]
