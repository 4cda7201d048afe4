//! Glyphs that are composed of two others: `endchar` with four operands (TN5177, appendix C), of which the last two are the codes of
//! the parts in the standard encoding.

use crate::standard;

/// What a charstring of Type 2 has at a place.
enum Token {
    /// A number, whole where it is one.
    Number(Option<i32>),
    /// An operator, 256 more for those behind an escape.
    Operator(u16),
}

/// The token at a place, and how many bytes it has.
fn token(code: &[u8]) -> Option<(Token, usize)> {
    let &first = code.first()?;
    let at = |k: usize| code.get(k).map(|&byte| i32::from(byte));
    let b0 = i32::from(first);
    Some(match first {
        12 => (Token::Operator(256 + u16::from(*code.get(1)?)), 2),
        28 => {
            let value = i16::from_be_bytes([*code.get(1)?, *code.get(2)?]);
            (Token::Number(Some(i32::from(value))), 3)
        }
        32..=246 => (Token::Number(Some(b0 - 139)), 1),
        247..=250 => (Token::Number(Some((b0 - 247) * 256 + at(1)? + 108)), 2),
        251..=254 => (Token::Number(Some(-(b0 - 251) * 256 - at(1)? - 108)), 2),
        255 => {
            let fraction = (at(3)?, at(4)?) != (0, 0);
            let whole = i16::from_be_bytes([code[1], code[2]]);
            (Token::Number((!fraction).then_some(whole.into())), 5)
        }
        _ => (Token::Operator(first.into()), 1),
    })
}

/// The names of the two parts of a glyph that is composed of others, if this charstring says so itself. One that calls subroutines is
/// not followed: fonts with composed glyphs write them without calls.
pub fn parts(charstring: &[u8]) -> Option<[&'static str; 2]> {
    let (mut operands, mut stems, mut at) = (Vec::new(), 0, 0);
    loop {
        let (token, length) = token(charstring.get(at..)?)?;
        at += length;
        match token {
            Token::Number(value) => operands.push(value),
            Token::Operator(14) => return named(&operands),
            // a call or a return, or arithmetic, which leaves operands; the flexes (290 to 293) take all
            Token::Operator(10 | 11 | 29 | 256..=289) => return None,
            Token::Operator(operator) => {
                if matches!(operator, 1 | 3 | 18 | 19 | 20 | 23) {
                    stems += operands.len() / 2;
                }
                if matches!(operator, 19 | 20) {
                    at += stems.div_ceil(8);
                }
                operands.clear();
            }
        }
    }
}

/// The names of the last two operands of four or, with a width, five.
fn named(operands: &[Option<i32>]) -> Option<[&'static str; 2]> {
    let &[.., _, _, base, accent] = operands else {
        return None;
    };
    let name = |code: Option<i32>| standard::name(u8::try_from(code?).ok()?);
    Some([name(base)?, name(accent)?])
}

#[cfg(test)]
mod tests {
    use super::*;

    /// A number of one byte, or 200: two bytes.
    fn n(value: i32) -> Vec<u8> {
        match value {
            -107..=107 => vec![(value + 139) as u8],
            _ => vec![247, (value - 108) as u8],
        }
    }

    fn code(parts: &[Vec<u8>]) -> Vec<u8> {
        parts.concat()
    }

    #[test]
    fn composed() {
        let eacute = code(&[n(10), n(0), n(101), n(194), vec![14]]);
        assert_eq!(parts(&eacute), Some(["e", "acute"]));
        let with_width = code(&[n(50), eacute]);
        assert_eq!(parts(&with_width), Some(["e", "acute"]));
    }

    /// Hints before, and the mask of nine stems, whose bytes would read as endchar.
    #[test]
    fn behind_a_mask() {
        let stems = code(&vec![n(1); 18]);
        let ring = code(&[n(0), n(0), n(65), n(202), vec![14]]);
        let whole = code(&[stems, vec![18, 19, 14, 14], ring]);
        assert_eq!(parts(&whole), Some(["A", "ring"]));
    }

    #[test]
    fn not_composed() {
        assert_eq!(parts(&[14]), None);
        assert_eq!(parts(&code(&[n(5), vec![14]])), None);
        assert_eq!(parts(&code(&[n(1), n(2), n(3), vec![10, 14]])), None);
        // a code without a name, and a number that is not whole
        assert_eq!(parts(&code(&[n(0), n(0), n(65), n(5), vec![14]])), None);
        let half = vec![255, 0, 65, 128, 0];
        assert_eq!(parts(&code(&[n(0), n(0), half, n(194), vec![14]])), None);
    }

    /// Every charstring of up to three bytes, and longer ones cut: an answer or none.
    #[test]
    fn any_bytes() {
        for a in 0..=255 {
            for b in 0..=255 {
                assert_eq!(parts(&[a, b]), None);
                parts(&[139, 139, 139, 139, a, b, 14]);
            }
        }
        let whole = code(&[
            n(200),
            n(200),
            n(101),
            n(194),
            vec![255, 0, 1, 0, 0, 28, 1, 2, 14],
        ]);
        for end in 0..whole.len() {
            assert_eq!(parts(&whole[..end]), None);
        }
    }
}
