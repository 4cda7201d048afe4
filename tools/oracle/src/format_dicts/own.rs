//! The own reading of a DICT: exact decimals, and refusal 5 of docs/01-scope.md.

use super::{BEYOND, MALFORMED, TRUNCATED};

/// An exact decimal: digits without a zero at the end, times a power of ten. Zero is all 0.
#[derive(Clone, Copy, Debug, PartialEq)]
pub(super) struct Decimal {
    negative: bool,
    digits: u64,
    power: i32,
}

const ZERO: Decimal = Decimal {
    negative: false,
    digits: 0,
    power: 0,
};

impl Decimal {
    pub(super) fn new(negative: bool, mut digits: u64, mut power: i32) -> Decimal {
        if digits == 0 {
            return ZERO;
        }
        while digits.is_multiple_of(10) {
            digits /= 10;
            power += 1;
        }
        Decimal {
            negative,
            digits,
            power,
        }
    }

    fn whole(v: i32) -> Decimal {
        Decimal::new(v < 0, u64::from(v.unsigned_abs()), 0)
    }

    /// Within the limits of refusal 5 that are about the value.
    pub(super) fn held(&self) -> bool {
        self.digits < 1_000_000_000_000_000 && (-30..=30).contains(&self.power)
    }

    pub(super) fn value(&self) -> f64 {
        let sign = if self.negative { "-" } else { "" };
        format!("{sign}{}e{}", self.digits, self.power)
            .parse()
            .expect("a number's text")
    }

    pub(super) fn put(&self, out: &mut Vec<u8>) {
        assert!(self.held());
        out.push(u8::from(self.negative));
        out.extend_from_slice(&self.digits.to_be_bytes());
        out.push(self.power.max(0) as u8);
        out.push((-self.power).max(0) as u8);
    }
}

/// A real from the byte after 30: its decimal and the place after it, or a refusal and, for 5, the place after it.
fn own_real(bytes: &[u8], start: usize) -> Result<(Decimal, usize), (u8, usize)> {
    let mut nibbles = Vec::new();
    let mut pos = start;
    'all: loop {
        let b = *bytes.get(pos).ok_or((TRUNCATED, pos))?;
        pos += 1;
        for nibble in [b >> 4, b & 15] {
            match nibble {
                0xd => return Err((MALFORMED, pos)),
                0xf => break 'all,
                _ => nibbles.push(nibble),
            }
        }
    }
    // The nibbles and the end.
    let long = nibbles.len() + 1 > 64;
    let mut rest = &nibbles[..];
    if rest.is_empty() {
        return Ok((ZERO, pos));
    }
    let negative = rest[0] == 0xe;
    if negative {
        rest = &rest[1..];
    }
    let mut digits = Vec::new();
    let mut power = 0i64;
    let mut point = false;
    while let [n, behind @ ..] = rest {
        match *n {
            0..=9 => {
                digits.push(*n);
                power -= i64::from(point);
            }
            0xa if !point => point = true,
            _ => break,
        }
        rest = behind;
    }
    if digits.is_empty() {
        return Err((MALFORMED, pos));
    }
    if let [n, behind @ ..] = rest {
        let (minus, exponent) = match (*n, behind) {
            (0xb, [0xe, exponent @ ..]) => (true, exponent),
            (0xb, exponent) => (false, exponent),
            (0xc, exponent) => (true, exponent),
            _ => return Err((MALFORMED, pos)),
        };
        if exponent.is_empty() || exponent.iter().any(|&n| n > 9) {
            return Err((MALFORMED, pos));
        }
        // Far past every limit is far enough.
        let size = exponent
            .iter()
            .fold(0i64, |e, &n| (10 * e + i64::from(n)).min(1_000_000));
        power += if minus { -size } else { size };
    }
    while digits.last() == Some(&0) {
        digits.pop();
        power += 1;
    }
    let led = digits.iter().take_while(|&&n| n == 0).count();
    let digits = &digits[led..];
    if long {
        return Err((BEYOND, pos));
    }
    if digits.is_empty() {
        return Ok((ZERO, pos));
    }
    if digits.len() > 15 || !(-30..=30).contains(&power) {
        return Err((BEYOND, pos));
    }
    let digits = digits.iter().fold(0u64, |d, &n| 10 * d + u64::from(n));
    Ok((
        Decimal {
            negative,
            digits,
            power: power as i32,
        },
        pos,
    ))
}

pub(super) type Entries = Vec<(u16, Vec<Decimal>)>;

/// The entries of a DICT, or a refusal and the place where it is met.
pub(super) fn own_dict(bytes: &[u8]) -> Result<Entries, (u8, usize)> {
    let mut entries = Vec::new();
    let mut operands = Vec::new();
    let mut pos = 0;
    while let Some(&b) = bytes.get(pos) {
        pos += 1;
        let more = match b {
            12 | 247..=254 => 1,
            28 => 2,
            29 => 4,
            _ => 0,
        };
        let behind = bytes.get(pos..pos + more).ok_or((TRUNCATED, pos))?;
        pos += more;
        let whole = match (b, behind) {
            (12, [e]) => {
                entries.push((0x0c00 + u16::from(*e), std::mem::take(&mut operands)));
                continue;
            }
            (0..=21, _) => {
                entries.push((u16::from(b), std::mem::take(&mut operands)));
                continue;
            }
            (30, _) => {
                let (decimal, after) = own_real(bytes, pos)?;
                operands.push(decimal);
                pos = after;
                continue;
            }
            (32..=246, _) => i32::from(b) - 139,
            (247..=250, [w]) => (i32::from(b) - 247) * 256 + i32::from(*w) + 108,
            (251..=254, [w]) => -((i32::from(b) - 251) * 256 + i32::from(*w) + 108),
            (28, [h, l]) => i32::from(i16::from_be_bytes([*h, *l])),
            (29, [a, b, c, d]) => i32::from_be_bytes([*a, *b, *c, *d]),
            _ => return Err((MALFORMED, pos)),
        };
        operands.push(Decimal::whole(whole));
    }
    if operands.is_empty() {
        Ok(entries)
    } else {
        Err((MALFORMED, pos))
    }
}
