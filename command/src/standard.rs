//! The standard encoding (TN5176, appendix B): the name of a code. The parts of a composed glyph are named by it.

/// The names of consecutive codes, from the first on.
#[rustfmt::skip]
const RUNS: [(u8, &str); 14] = [
    (
        32,
        "space exclam quotedbl numbersign dollar percent ampersand quoteright parenleft parenright asterisk plus \
         comma hyphen period slash zero one two three four five six seven eight nine colon semicolon less equal \
         greater question at A B C D E F G H I J K L M N O P Q R S T U V W X Y Z bracketleft backslash \
         bracketright asciicircum underscore quoteleft a b c d e f g h i j k l m n o p q r s t u v w x y z \
         braceleft bar braceright asciitilde",
    ),
    (
        161,
        "exclamdown cent sterling fraction yen florin section currency quotesingle quotedblleft guillemotleft \
         guilsinglleft guilsinglright fi fl",
    ),
    (177, "endash dagger daggerdbl periodcentered"),
    (
        182,
        "paragraph bullet quotesinglbase quotedblbase quotedblright guillemotright ellipsis perthousand",
    ),
    (191, "questiondown"),
    (193, "grave acute circumflex tilde macron breve dotaccent dieresis"),
    (202, "ring cedilla"),
    (205, "hungarumlaut ogonek caron emdash"),
    (225, "AE"),
    (227, "ordfeminine"),
    (232, "Lslash Oslash OE ordmasculine"),
    (241, "ae"),
    (245, "dotlessi"),
    (248, "lslash oslash oe germandbls"),
];

/// The name of a code, if it has one.
pub fn name(code: u8) -> Option<&'static str> {
    RUNS.iter().find_map(|&(first, names)| {
        let behind = code.checked_sub(first)?;
        names.split(' ').nth(usize::from(behind))
    })
}

#[cfg(test)]
mod tests {
    use super::*;

    #[test]
    fn codes() {
        assert_eq!(name(31), None);
        assert_eq!(name(32), Some("space"));
        assert_eq!(name(65), Some("A"));
        assert_eq!(name(126), Some("asciitilde"));
        assert_eq!(name(127), None);
        assert_eq!(name(194), Some("acute"));
        assert_eq!(name(202), Some("ring"));
        assert_eq!(name(251), Some("germandbls"));
        assert_eq!((0..=255).filter(|&code| name(code).is_some()).count(), 149);
    }
}
