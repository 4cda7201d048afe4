//! Bodies of the model of subsetting: tokens, and calls renumbered. Document 01, 'Corners in charstring.rs' and 'Corners in
//! write.rs'.

use crate::cut_model_dicts::integer;
use std::collections::BTreeMap;

/// A unit of a charstring; a number in 65536ths.
enum Token {
    Number(i64),
    Operator(u8),
    Escape(u8),
    Mask(Vec<u8>),
}

/// New numbers of subroutines of one kind, and how many there were.
pub struct Numbers {
    pub new: BTreeMap<u16, usize>,
    pub old_count: usize,
}

fn bias(count: usize) -> i64 {
    match count {
        0..1240 => 107,
        1240..33_900 => 1131,
        _ => 32_768,
    }
}

/// The tokens of a body; nothing where it ends early.
fn tokens(body: &[u8], lengths: &BTreeMap<usize, usize>) -> Option<Vec<Token>> {
    let mut out = Vec::new();
    let (mut at, mut waiting, mut stems) = (0, 0, 0);
    while at < body.len() {
        let first = body[at];
        let mut take = |n: usize| {
            let bytes = body.get(at + 1..at + 1 + n)?;
            at += 1 + n;
            Some(bytes)
        };
        let number = match first {
            28 => {
                let b = take(2)?;
                Some(i64::from(i16::from_be_bytes([b[0], b[1]])) * 65_536)
            }
            32..=246 => take(0).map(|_| (i64::from(first) - 139) * 65_536),
            247..=250 => {
                Some((i64::from(first) * 256 - 247 * 256 + i64::from(take(1)?[0]) + 108) * 65_536)
            }
            251..=254 => {
                Some(-(i64::from(first) * 256 - 251 * 256 + i64::from(take(1)?[0]) + 108) * 65_536)
            }
            255 => {
                let b = take(4)?;
                // One f32 addition: 24 significant bits.
                let high = f32::from(i16::from_be_bytes([b[0], b[1]]));
                let low = f32::from(u16::from_be_bytes([b[2], b[3]])) / 65_536.0;
                Some((f64::from(high + low) * 65_536.0) as i64)
            }
            _ => None,
        };
        if let Some(n) = number {
            out.push(Token::Number(n));
            waiting += 1;
            continue;
        }
        if first == 12 {
            out.push(Token::Escape(take(1)?[0]));
        } else {
            out.push(Token::Operator(first));
            if [1, 3, 18, 23, 19, 20].contains(&first) {
                stems += waiting / 2;
            }
            let place = at;
            at += 1;
            if [19, 20].contains(&first) {
                let length = lengths.get(&place).copied().unwrap_or((stems + 7usize) / 8);
                out.push(Token::Mask(body.get(at..at + length)?.to_vec()));
                at += length;
            }
        }
        waiting = 0;
    }
    Some(out)
}

/// A body with its calls renumbered; nothing where one cannot be.
pub fn rewritten(
    body: &[u8],
    lengths: &BTreeMap<usize, usize>,
    locals: Option<&Numbers>,
    globals: &Numbers,
) -> Option<Vec<u8>> {
    let mut tokens = tokens(body, lengths)?;
    for k in 0..tokens.len() {
        let numbers = match tokens[k] {
            Token::Operator(10) => locals?,
            Token::Operator(29) => globals,
            _ => continue,
        };
        let Token::Number(n) = tokens[k.checked_sub(1)?] else {
            return None;
        };
        if n % 65_536 != 0 {
            return None;
        }
        let old = u16::try_from(n / 65_536 + bias(numbers.old_count)).ok()?;
        let new = *numbers.new.get(&old)? as i64 - bias(numbers.new.len());
        tokens[k - 1] = Token::Number(new * 65_536);
    }
    let mut out = Vec::new();
    for token in tokens {
        match token {
            Token::Number(n) if n % 65_536 == 0 && n.abs() < 32_768 * 65_536 => {
                integer(n / 65_536, &mut out)
            }
            Token::Number(n) => {
                out.push(255);
                out.extend_from_slice(&(n.min(i64::from(i32::MAX)) as i32).to_be_bytes());
            }
            Token::Operator(b) => out.push(b),
            Token::Escape(b) => out.extend_from_slice(&[12, b]),
            Token::Mask(bytes) => out.extend(bytes),
        }
    }
    Some(out)
}
