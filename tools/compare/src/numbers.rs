//! Numbers of DICTs in every form, with reals of every shape.

use crate::generator::Generator;

/// How a number is written.
#[derive(Clone, Copy, Debug)]
pub enum Form {
    Shortest,
    /// 28 and two bytes, where they hold it.
    Two,
    /// 29 and four bytes.
    Four,
    /// A real of the same value; the number picks its shape.
    Real(u64),
    /// A real with a fraction added; the number picks its shape.
    Fraction(u64),
}

pub fn form(g: &mut Generator) -> Form {
    match g.below(10) {
        0..=4 => Form::Shortest,
        5 => Form::Two,
        6 | 7 => Form::Four,
        _ => Form::Real(g.word()),
    }
}

/// A number in a form.
pub fn write(value: i64, form: Form) -> Vec<u8> {
    match form {
        Form::Shortest => shortest(value),
        Form::Two => match i16::try_from(value) {
            Ok(v) => [vec![28], v.to_be_bytes().to_vec()].concat(),
            Err(_) => write(value, Form::Four),
        },
        Form::Four => match i32::try_from(value) {
            Ok(v) => [vec![29], v.to_be_bytes().to_vec()].concat(),
            Err(_) => write(value, Form::Real(0)),
        },
        Form::Real(shape) => {
            let mut g = Generator::new(shape);
            let (digits, power) = normal(value.unsigned_abs());
            // Minus zero is zero.
            let negative = value < 0 || value == 0 && g.once_in(3);
            packed(&decorated(&mut g, negative, &digits, power), 15)
        }
        Form::Fraction(shape) => {
            let mut g = Generator::new(shape);
            let mut digits = normal_digits(value.unsigned_abs());
            digits.push(1 + g.below(9) as u8);
            packed(&decorated(&mut g, value < 0, &digits, -1), 15)
        }
    }
}

fn shortest(v: i64) -> Vec<u8> {
    match v {
        -107..=107 => vec![(v + 139) as u8],
        108..=1131 => vec![((v - 108) / 256 + 247) as u8, ((v - 108) % 256) as u8],
        -1131..=-108 => vec![((-v - 108) / 256 + 251) as u8, ((-v - 108) % 256) as u8],
        -32768..=32767 => write(v, Form::Two),
        _ => write(v, Form::Four),
    }
}

/// The digits of a number, without zeros at the end, and the power of ten of the last one.
fn normal(value: u64) -> (Vec<u8>, i64) {
    let mut digits = normal_digits(value);
    let mut power = 0;
    while digits.len() > 1 && digits.last() == Some(&0) {
        digits.pop();
        power += 1;
    }
    (digits, power)
}

fn normal_digits(value: u64) -> Vec<u8> {
    value.to_string().bytes().map(|c| c - b'0').collect()
}

/// A text of a number as nibbles, without the end: with zeros, a point and an exponent as it
/// comes. `power` is the power of ten of the last digit.
fn decorated(g: &mut Generator, negative: bool, digits: &[u8], power: i64) -> Vec<u8> {
    let zeros_before = if g.once_in(4) { g.below(4) } else { 0 };
    let mut zeros_after = if g.once_in(4) { g.below(4) } else { 0 };
    let exponent = if g.once_in(2) {
        // Without an exponent the point must be at its own place.
        zeros_after = zeros_after.max(power.max(0) as usize);
        None
    } else {
        Some(g.below(8) as i64 - 4)
    };
    let mut all = vec![0; zeros_before];
    all.extend_from_slice(digits);
    all.extend(std::iter::repeat_n(0, zeros_after));
    let last = power - zeros_after as i64;
    // Digits after the point: the last of them has the power `last` less the exponent.
    let (after, exponent) = match exponent {
        None => ((-last).max(0) as usize, None),
        Some(shift) => {
            let after = (shift.max(0) as usize).min(all.len());
            (after, Some(last + after as i64))
        }
    };
    while all.len() < after {
        all.insert(0, 0);
    }
    let mut nibbles = Vec::new();
    if negative {
        nibbles.push(0xe);
    }
    let point = all.len() - after;
    if point == 0 && g.once_in(2) {
        nibbles.push(0);
    }
    nibbles.extend_from_slice(&all[..point]);
    if after > 0 || g.once_in(8) {
        nibbles.push(0xa);
    }
    nibbles.extend_from_slice(&all[point..]);
    if let Some(e) = exponent {
        exponent_nibbles(g, e, &mut nibbles);
    }
    nibbles
}

fn exponent_nibbles(g: &mut Generator, e: i64, nibbles: &mut Vec<u8>) {
    if e < 0 {
        if g.once_in(3) {
            nibbles.extend_from_slice(&[0xb, 0xe]);
        } else {
            nibbles.push(0xc);
        }
    } else {
        nibbles.push(0xb);
    }
    if g.once_in(5) {
        nibbles.push(0);
    }
    nibbles.extend(normal_digits(e.unsigned_abs()));
}

/// A real of these nibbles: 30, the nibbles, the end, and `fill` where a nibble is left.
fn packed(nibbles: &[u8], fill: u8) -> Vec<u8> {
    let mut all = nibbles.to_vec();
    all.push(15);
    if all.len() % 2 == 1 {
        all.push(fill);
    }
    let mut out = vec![30];
    out.extend(all.chunks(2).map(|pair| pair[0] << 4 | pair[1]));
    out
}

/// An integer, often at the end of a form's range.
pub fn integer(g: &mut Generator) -> Vec<u8> {
    const ENDS: [i64; 20] = [
        0,
        1,
        2,
        -1,
        107,
        108,
        -107,
        -108,
        363,
        364,
        1131,
        1132,
        -1131,
        -1132,
        32767,
        32768,
        -32768,
        -32769,
        i32::MAX as i64,
        i32::MIN as i64,
    ];
    let value = match g.below(4) {
        0 => g.one_of(&ENDS),
        1 => i64::from(g.word() as i32),
        _ => g.below(2400) as i64 - 1200,
    };
    let form = match g.below(4) {
        0 => Form::Two,
        1 => Form::Four,
        _ => Form::Shortest,
    };
    write(value, form)
}

/// A real within document 01's limits, near them as often as not.
pub fn real(g: &mut Generator) -> Vec<u8> {
    let nibbles = match g.below(8) {
        0 => zero(g),
        1 => {
            let n = 61 + g.below(3);
            padded(g, n)
        }
        2 => Vec::new(),
        _ => {
            let count = 1 + if g.once_in(2) {
                g.below(15)
            } else {
                g.below(4)
            };
            let power = match g.below(4) {
                0 => 30 - g.below(3) as i64,
                1 => g.below(3) as i64 - 30,
                _ => g.below(12) as i64 - 6,
            };
            significant(g, count, power)
        }
    };
    let fill = if g.once_in(4) { g.below(16) as u8 } else { 15 };
    // A long one may have come out past the nibbles; drop to a plain one.
    let nibbles = if nibbles.len() > 63 { vec![1] } else { nibbles };
    packed(&nibbles, fill)
}

/// A well-formed real past the limits.
pub fn real_past(g: &mut Generator) -> Vec<u8> {
    let nibbles = match g.below(7) {
        0 => {
            let n = 64 + g.below(4);
            padded(g, n)
        }
        1 => {
            let n = 16 + g.below(3);
            significant(g, n, 0)
        }
        2 => {
            let (n, power) = (1 + g.below(15), 31 + g.below(3) as i64);
            significant(g, n, power)
        }
        3 => {
            let (n, power) = (1 + g.below(15), -31 - g.below(3) as i64);
            significant(g, n, power)
        }
        4 => vec![0; 64 + g.below(3)],
        5 => {
            let mut nibbles = vec![1, g.one_of(&[0xb, 0xc])];
            nibbles.extend(std::iter::repeat_n(9, 2 + g.below(30)));
            nibbles
        }
        _ => {
            // Many digits, long enough for both limits.
            let mut nibbles = vec![1; 20 + g.below(60)];
            let k = g.below(nibbles.len());
            nibbles[k] = 0xa;
            nibbles
        }
    };
    let fill = if g.once_in(4) { g.below(16) as u8 } else { 15 };
    packed(&nibbles, fill)
}

/// A real that is no number.
pub fn real_malformed(g: &mut Generator) -> Vec<u8> {
    const TEXTS: [&[u8]; 20] = [
        &[0xa],
        &[0xe],
        &[0xe, 0xe, 1],
        &[1, 0xe],
        &[1, 0xa, 0xa, 2],
        &[1, 0xa, 2, 0xa],
        &[0xb, 5],
        &[0xc, 5],
        &[0xa, 0xb, 5],
        &[1, 0xb],
        &[1, 0xc],
        &[1, 0xb, 0xe],
        &[1, 0xb, 0xb, 5],
        &[1, 0xc, 0xe, 5],
        &[1, 0xb, 0xe, 0xe, 5],
        &[1, 0xb, 5, 0xa, 0],
        &[1, 0xb, 5, 0xb, 5],
        &[1, 0xc, 5, 0xe],
        &[0xd],
        &[1, 2, 0xd],
    ];
    let nibbles = match g.below(3) {
        0 => {
            // A number with one nibble too many.
            let mut nibbles = significant(g, 4, 2);
            let k = g.below(nibbles.len() + 1);
            nibbles.insert(k, g.one_of(&[0xa, 0xb, 0xc, 0xd, 0xe]));
            nibbles
        }
        1 => {
            // As long as one past the limits: malformed all the same.
            let mut nibbles = vec![0; 60 + g.below(10)];
            nibbles.push(g.one_of(&[0xb, 0xc, 0xd, 0xe]));
            nibbles
        }
        _ => g.one_of(&TEXTS).to_vec(),
    };
    packed(&nibbles, 15)
}

/// A real without an end, whatever follows.
pub fn real_endless(g: &mut Generator) -> Vec<u8> {
    let mut out = vec![30];
    out.extend((0..g.below(6)).map(|_| (g.below(10) << 4 | g.below(10)) as u8));
    out
}

fn zero(g: &mut Generator) -> Vec<u8> {
    const ZEROS: [&[u8]; 9] = [
        &[0],
        &[0xe, 0],
        &[0, 0xa, 0],
        &[0xa, 0],
        &[0xe, 0xa, 0],
        &[0, 0xb, 9, 9],
        &[
            0, 0xc, 9, 9, 9, 9, 9, 9, 9, 9, 9, 9, 9, 9, 9, 9, 9, 9, 9, 9, 9, 9,
        ],
        &[0, 0, 0, 0, 0],
        &[0, 0xa],
    ];
    g.one_of(&ZEROS).to_vec()
}

/// A number of exactly `n` nibbles by zeros in front, behind the point or in the exponent.
fn padded(g: &mut Generator, n: usize) -> Vec<u8> {
    let digit = g.below(10) as u8;
    let mut nibbles = match g.below(3) {
        0 => [vec![0; n - 1], vec![digit]].concat(),
        1 => [vec![digit, 0xa], vec![0; n - 2]].concat(),
        _ => [vec![digit, 0xb], vec![0; n - 3], vec![g.below(10) as u8]].concat(),
    };
    if g.once_in(4) {
        nibbles[0] = 0xe;
    }
    // A sign alone before the point or the exponent is no number.
    if nibbles[0] == 0xe && nibbles[1] > 9 {
        nibbles[0] = 1;
    }
    nibbles
}

/// `count` digits that are all significant; the last has this power of ten.
fn significant(g: &mut Generator, count: usize, power: i64) -> Vec<u8> {
    let mut digits: Vec<u8> = (0..count).map(|_| g.below(10) as u8).collect();
    digits[0] = 1 + g.below(9) as u8;
    digits[count - 1] = 1 + g.below(9) as u8;
    let negative = g.once_in(3);
    decorated(g, negative, &digits, power)
}

#[cfg(test)]
mod tests {
    use super::*;
    use crate::decimal::{self, Decimal, Real};

    fn nibbles(real: &[u8]) -> Vec<u8> {
        let all = real[1..].iter().flat_map(|b| [b >> 4, b & 15]);
        all.take_while(|&n| n != 15).collect()
    }

    #[test]
    fn reals_are_what_they_are_made_for() {
        let mut g = Generator::new(7);
        for _ in 0..50_000 {
            let good = real(&mut g);
            assert!(
                matches!(decimal::real(&nibbles(&good)), Real::Number(_)),
                "{good:02x?}"
            );
            let past = real_past(&mut g);
            assert!(
                matches!(decimal::real(&nibbles(&past)), Real::Past(_)),
                "{past:02x?}"
            );
        }
    }

    #[test]
    fn a_real_keeps_its_value() {
        let mut g = Generator::new(8);
        for _ in 0..50_000 {
            let value = g.below(100_000) as i64 - 20_000;
            let whole = write(value, Form::Real(g.word()));
            let want = Real::Number(Decimal::integer(value));
            assert_eq!(
                decimal::real(&nibbles(&whole)),
                want,
                "{value} {whole:02x?}"
            );
            let fraction = write(value, Form::Fraction(g.word()));
            let Real::Number(n) = decimal::real(&nibbles(&fraction)) else {
                panic!("{value} {fraction:02x?}")
            };
            assert_eq!(n.power, -1);
            assert_eq!((n.digits / 10) as i64, value.abs());
        }
    }
}
