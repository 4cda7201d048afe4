//! Numbers of DICTs as document 01 has them: a sign, digits and a power of ten. Written from
//! document 01 ('Reading') and TN5176, section 4, table 5.

/// A number, `digits` times ten to `power`. The last digit is not 0 but in zero itself, which is
/// held with power 0 and without a sign.
#[derive(Clone, Copy, Debug, PartialEq, Eq)]
pub struct Decimal {
    pub negative: bool,
    pub digits: u64,
    pub power: i32,
}

/// What nibbles give.
#[derive(Clone, Copy, Debug, PartialEq, Eq)]
pub enum Real {
    Number(Decimal),
    /// Not the text of a number.
    Malformed,
    /// Well formed, and past document 01's limits: which one.
    Past(&'static str),
}

/// The most nibbles of a real, its end among them.
const NIBBLES: usize = 64;
/// The most digits, zeros at either end dropped.
const DIGITS: usize = 15;
/// The largest size of the last digit's power of ten.
const POWER: i64 = 30;

impl Decimal {
    pub fn integer(value: i64) -> Decimal {
        let mut n = Decimal {
            negative: value < 0,
            digits: value.unsigned_abs(),
            power: 0,
        };
        while n.digits != 0 && n.digits.is_multiple_of(10) {
            n.digits /= 10;
            n.power += 1;
        }
        n
    }

    /// Whether it is the integer `value`.
    pub fn is(&self, value: i64) -> bool {
        *self == Decimal::integer(value)
    }

    /// The number without its fraction, held at the largest u64; nothing when it is below 0.
    pub fn whole_part(&self) -> Option<u64> {
        if self.negative {
            return None;
        }
        let mut value = u128::from(self.digits);
        for _ in 0..self.power.unsigned_abs() {
            if self.power < 0 {
                value /= 10;
            } else {
                value = (value * 10).min(u128::from(u64::MAX));
            }
        }
        Some(value as u64)
    }

    /// The number as an offset: not below 0, and without a fraction.
    pub fn place(&self) -> Option<u64> {
        if self.power < 0 {
            return None;
        }
        self.whole_part()
    }
}

/// The real of these nibbles, the end (f) not among them.
pub fn real(nibbles: &[u8]) -> Real {
    if nibbles.is_empty() {
        return Real::Number(Decimal::integer(0));
    }
    // The text, c being two signs of it.
    let mut text = Vec::new();
    for &n in nibbles {
        match n {
            0..=9 => text.push(b'0' + n),
            0xa => text.push(b'.'),
            0xb => text.push(b'E'),
            0xc => text.extend_from_slice(b"E-"),
            0xe => text.push(b'-'),
            _ => return Real::Malformed,
        }
    }
    let (negative, rest) = sign(&text);
    let (mantissa, exponent) = match rest.iter().position(|&c| c == b'E') {
        None => (rest, None),
        Some(k) => (&rest[..k], Some(&rest[k + 1..])),
    };
    // The mantissa: digits, and at most one point.
    let point = mantissa.iter().position(|&c| c == b'.');
    let (before, after) = match point {
        None => (mantissa, &mantissa[..0]),
        Some(k) => (&mantissa[..k], &mantissa[k + 1..]),
    };
    let all_digits = |part: &[u8]| part.iter().all(u8::is_ascii_digit);
    if !all_digits(before) || !all_digits(after) || before.len() + after.len() == 0 {
        return Real::Malformed;
    }
    let mut power = 0i64;
    if let Some(exponent) = exponent {
        let (below, digits) = sign(exponent);
        if digits.is_empty() || !all_digits(digits) {
            return Real::Malformed;
        }
        // Held at a size that no 64 digits of a mantissa bring back within the limit.
        for &d in digits {
            power = (power * 10 + i64::from(d - b'0')).min(1_000_000);
        }
        if below {
            power = -power;
        }
    }
    if nibbles.len() + 1 > NIBBLES {
        return Real::Past("nibbles");
    }
    power -= after.len() as i64;
    let mut digits: Vec<u8> = before.iter().chain(after).map(|c| c - b'0').collect();
    while digits.last() == Some(&0) {
        digits.pop();
        power += 1;
    }
    let first = digits.iter().position(|&d| d != 0).unwrap_or(digits.len());
    digits.drain(..first);
    if digits.is_empty() {
        return Real::Number(Decimal::integer(0));
    }
    if digits.len() > DIGITS {
        return Real::Past("digits");
    }
    if !(-POWER..=POWER).contains(&power) {
        return Real::Past("power");
    }
    Real::Number(Decimal {
        negative,
        digits: digits.iter().fold(0, |n, &d| n * 10 + u64::from(d)),
        power: power as i32,
    })
}

/// A minus or none, and the rest.
fn sign(text: &[u8]) -> (bool, &[u8]) {
    match text.split_first() {
        Some((b'-', rest)) => (true, rest),
        _ => (false, text),
    }
}

#[cfg(test)]
mod tests {
    use super::*;

    /// The nibbles of a text; `c` stands for the nibble c, and `d` for the reserved one.
    fn nibbles(text: &str) -> Vec<u8> {
        text.bytes()
            .map(|c| match c {
                b'0'..=b'9' => c - b'0',
                b'.' => 0xa,
                b'E' => 0xb,
                b'c' => 0xc,
                b'-' => 0xe,
                _ => 0xd,
            })
            .collect()
    }

    fn number(negative: bool, digits: u64, power: i32) -> Real {
        Real::Number(Decimal {
            negative,
            digits,
            power,
        })
    }

    #[test]
    fn well_formed() {
        for (text, want) in [
            ("", number(false, 0, 0)),
            ("0", number(false, 0, 0)),
            ("-0", number(false, 0, 0)),
            ("1.", number(false, 1, 0)),
            (".5", number(false, 5, -1)),
            ("-2.250", number(true, 225, -2)),
            ("100", number(false, 1, 2)),
            ("0.001", number(false, 1, -3)),
            ("12E2", number(false, 12, 2)),
            ("12E-2", number(false, 12, -2)),
            ("12c2", number(false, 12, -2)),
            ("12E05", number(false, 12, 5)),
            ("1E30", number(false, 1, 30)),
            ("10E29", number(false, 1, 30)),
            ("1E-30", number(false, 1, -30)),
            ("123456789012345", number(false, 123456789012345, 0)),
            (
                "0.0012345678901234500",
                number(false, 12345678901234500 / 100, -17),
            ),
            ("0E99999999999999999999", number(false, 0, 0)),
        ] {
            assert_eq!(real(&nibbles(text)), want, "{text}");
        }
    }

    #[test]
    fn malformed() {
        for text in [
            ".", "-", "--1", "1-", "1-1", "1..2", "1.2.", "E5", "-E5", ".E5", "1E", "1E-", "1c",
            "1EE5", "1E--5", "1c-5", "1E5.0", "1E5E5", "1E5-", "1c5c5", "d", "1d", "-.",
        ] {
            assert_eq!(real(&nibbles(text)), Real::Malformed, "{text}");
        }
        let long = format!("{}-", "0".repeat(70));
        assert_eq!(real(&nibbles(&long)), Real::Malformed);
    }

    #[test]
    fn past_the_limits() {
        let zeros = |n| "0".repeat(n);
        for (text, want) in [
            (zeros(63), number(false, 0, 0)),
            (zeros(64), Real::Past("nibbles")),
            (format!("{}7", zeros(62)), number(false, 7, 0)),
            (format!("{}7", zeros(63)), Real::Past("nibbles")),
            ("1234567890123456".to_string(), Real::Past("digits")),
            ("1.234567890123456".to_string(), Real::Past("digits")),
            ("1E31".to_string(), Real::Past("power")),
            ("10E30".to_string(), Real::Past("power")),
            ("0.1E31".to_string(), number(false, 1, 30)),
            ("1E-31".to_string(), Real::Past("power")),
            ("10E-31".to_string(), number(false, 1, -30)),
            ("1.1E-30".to_string(), Real::Past("power")),
            ("1E99999999999999999999".to_string(), Real::Past("power")),
        ] {
            assert_eq!(real(&nibbles(&text)), want, "{text}");
        }
    }

    /// Rust's own reading of the text takes exactly the well formed ones, and agrees on the value.
    #[test]
    fn against_the_parse_of_rust() {
        let mut state = 1u64;
        let mut below = |n: u64| {
            state = state.wrapping_mul(6364136223846793005).wrapping_add(1);
            (state >> 33) % n
        };
        for _ in 0..300_000 {
            let length = below(9);
            let text: String = (0..length)
                .map(|_| ["0", "1", "9", "5", ".", "E", "E-", "-"][below(8) as usize])
                .collect();
            let parsed = if text.is_empty() {
                Ok(0.0)
            } else {
                text.parse::<f64>()
            };
            match real(&nibbles(&text)) {
                Real::Malformed => assert!(parsed.is_err(), "{text}"),
                Real::Past(_) => assert!(parsed.is_ok(), "{text}"),
                Real::Number(n) => {
                    let v = parsed.expect(&text);
                    let sign = if n.negative { "-" } else { "" };
                    assert_eq!(
                        v,
                        format!("{sign}{}E{}", n.digits, n.power).parse().unwrap()
                    );
                    assert_eq!(n.place().is_some(), v >= 0.0 && v.fract() == 0.0, "{text}");
                    // Above 2 to the 53 an f64 is no exact integer; no font is so long.
                    if v < 9.0e15 {
                        assert_eq!(n.whole_part().unwrap_or(0), v as u64, "{text}");
                    }
                }
            }
        }
    }
}
