//! Checks that the exact decimal agrees with the f64 that the original holds, under refusal 5's limits (at most 15 digits, a last
//! digit's power of ten from -30 to 30): that it is printed as the same digits, and truncates, compares and clamps alike.

use crate::cff::write::dict_number;
use crate::generator::Generator;

/// A decimal as the crate `decimal` holds one: digits without a zero at their end, and a power of ten.
struct Decimal {
    neg: bool,
    digits: u64,
    power: i32,
}

impl Decimal {
    /// The text of a DICT's real, with an exponent.
    fn text(&self) -> String {
        format!(
            "{}{}E{}",
            if self.neg { "-" } else { "" },
            self.digits,
            self.power
        )
    }

    /// The digits without an exponent, as the cut writes them.
    fn plain(&self) -> String {
        let digits = self.digits.to_string();
        let sign = if self.neg { "-" } else { "" };
        if self.power >= 0 {
            return format!("{sign}{digits}{}", "0".repeat(self.power as usize));
        }
        let behind = -self.power as usize;
        let padded = format!("{digits:0>width$}", width = behind + 1);
        let (whole, part) = padded.split_at(padded.len() - behind);
        format!("{sign}{whole}.{part}")
    }

    /// The size without its fraction, or `u128::MAX` past 38 digits.
    fn trunc(&self) -> u128 {
        let digits = u128::from(self.digits);
        if self.power >= 0 {
            return 10u128
                .checked_pow(self.power as u32)
                .and_then(|p| digits.checked_mul(p))
                .unwrap_or(u128::MAX);
        }
        10u128
            .checked_pow(-self.power as u32)
            .map_or(0, |p| digits / p)
    }

    fn clamped(&self, most: u128) -> u128 {
        if self.neg { 0 } else { self.trunc().min(most) }
    }

    fn signed(&self, low: u128, high: u128) -> i128 {
        let size = self.trunc();
        if self.neg {
            -(size.min(low) as i128)
        } else {
            size.min(high) as i128
        }
    }
}

/// The nibbles of a text, as the cut packs them.
fn real_bytes(text: &str) -> Vec<u8> {
    let mut nibbles: Vec<u8> = text
        .bytes()
        .map(|c| match c {
            b'.' => 0xa,
            b'-' => 0xe,
            _ => c - b'0',
        })
        .collect();
    nibbles.push(0xf);
    if nibbles.len() % 2 == 1 {
        nibbles.push(0xf);
    }
    let mut out = vec![30];
    out.extend(nibbles.chunks(2).map(|pair| pair[0] << 4 | pair[1]));
    out
}

/// What differs between a decimal and its f64, if anything does.
fn difference(d: &Decimal) -> Option<&'static str> {
    let v: f64 = d.text().parse().ok()?;
    let whole = d.power >= 0;
    if v.fract() == 0.0 && !whole || v.fract() != 0.0 && whole {
        return Some("wholeness");
    }
    if (v >= 0.0) == d.neg {
        return Some("sign");
    }
    if format!("{v}") != d.plain() {
        return Some("digits");
    }
    if u128::from(v as u16) != d.clamped(65535) || u128::from(v as u32) != d.clamped(4294967295) {
        return Some("clamp to u16 or u32");
    }
    if i128::from(v as i32) != d.signed(2147483648, 2147483647) {
        return Some("clamp to i32");
    }
    let id = u16::try_from(v as i64).ok().map(u128::from);
    let own = if d.trunc() == 0 {
        Some(0)
    } else {
        Some(d.trunc()).filter(|&n| !d.neg && n < 65536)
    };
    if id != own {
        return Some("string id");
    }
    if !d.neg && (v as usize).min(1 << 32) as u128 != d.trunc().min(1 << 32) {
        return Some("offset");
    }
    let integer = whole && d.trunc() < 2147483647;
    if integer != (v.fract() == 0.0 && v.abs() < f64::from(i32::MAX)) {
        return Some("integer or real");
    }
    let mut bytes = Vec::new();
    dict_number(v, &mut bytes);
    (!integer && bytes != real_bytes(&d.plain())).then_some("bytes of a real")
}

/// A number of digits, then digits that favour the ends: all nines, a one and zeros, or random ones.
fn digits(random: &mut Generator) -> u64 {
    let most = 10u64.pow(random.below(15) as u32 + 1);
    let n = match random.below(4) {
        0 => most - 1 - random.word() % 3,
        1 => most / 10 + 1 + random.word() % 3,
        _ => 1 + random.word() % (most - 1),
    };
    if n % 10 == 0 { n + 1 } else { n }
}

/// Runs `count` decimals, and those around each power of ten and each clamp; prints how many differ.
pub fn run(random: &mut Generator, count: u64) -> bool {
    let mut bad = 0u64;
    let mut try_one = |d: Decimal| {
        if let Some(what) = difference(&d) {
            bad += 1;
            if bad <= 20 {
                println!("{}: {what}", d.text());
            }
        }
    };
    let mut tried = 0u64;
    let edges = [
        65535u64, 65536, 2147483646, 2147483647, 2147483648, 4294967295, 4294967296,
    ];
    for edge in edges {
        for scale in 0..=5u32 {
            for step in 0..=20u64 {
                let n = edge * 10u64.pow(scale) + step;
                for n in [n, n - 2 * step.min(n / 2)] {
                    let (mut digits, mut power) = (n, -(scale as i32));
                    while digits % 10 == 0 {
                        digits /= 10;
                        power += 1;
                    }
                    if digits < 1_000_000_000_000_000 {
                        for neg in [false, true] {
                            try_one(Decimal { neg, digits, power });
                            tried += 1;
                        }
                    }
                }
            }
        }
    }
    for _ in 0..count {
        let d = Decimal {
            neg: random.below(2) == 1,
            digits: digits(random).min(999_999_999_999_999),
            power: random.below(61) as i32 - 30,
        };
        try_one(d);
        tried += 1;
    }
    println!("{tried} decimals, {bad} differ");
    bad == 0
}
