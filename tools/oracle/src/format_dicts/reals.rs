//! Chosen reals: each form of text, and the limits of refusal 5.

use super::{entry, nibbles, read, real};
use crate::cases::Cases;

/// Nibbles in hexadecimal: a is the point, b an exponent, c a negative one, e the sign; the end is added.
#[rustfmt::skip]
const TEXTS: &[&str] = &[
    // No digit, signs and points.
    "", "e", "a", "ea", "ae", "ee", "aa", "b", "c", "be", "ce", "ba", "e0", "ee1", "1e", "1e1", "e1e", "1ee", "ae1", "ea1", "e1a",
    "a1", "1a", "1a1", "e1a1", "ea5", "a5", "5a", "0a5", "00a50", "aa1", "a1a", "1aa", "1a1a", "1a2a3", "a0", "0a", "ea0",
    // Exponents: missing, signed twice, with a point, twice.
    "1b", "1c", "1be", "1ce", "1b1", "1c1", "1be1", "1ce1", "1bee1", "1b1e", "1c1e", "1b1a", "1b1a1", "1ba1", "1ca1", "1b1b1",
    "1b1c1", "1c1c1", "1c1b1", "1bb1", "1bc1", "1cb1", "1cc1", "b1", "c1", "eb1", "ec1", "ab1", "ac1", "eab1", "a1b1", "1ab1", "1ac1",
    "1a5b1", "1a5c1", "e1a5be1", "e1b1", "e1c1", "1b0", "1c0", "1be0", "1b00", "1c00", "1b05", "1c05", "1b0005", "1be0005", "1c0005",
    // Zeros.
    "0", "00", "000000", "e00", "0a0", "0a00000", "e0a0", "ea00", "0b0", "0c0", "0b1", "0c1", "0b30", "0b31", "0c30", "0c31", "0b99",
    "0c99", "0be99", "e0b99", "0b999999999999999999999999", "0c999999999999999999999999", "0a000b400", "0a000c400", "e0a0c99999",
    "0b", "0c", "0be", "e0b", "0a0000000000000000000000000000000000000000", "0000000000000000000000000000000000000000",
    // Zeros at both ends of digits.
    "001", "100", "00100", "0a001", "0a00100", "100a001", "00100a00100", "1a000", "10a00", "e0010a0", "e0a0010",
    // 15 and 16 digits, plain and among zeros.
    "123456789012345", "1234567890123456", "999999999999999", "9999999999999999", "100000000000001", "1000000000000001",
    "e123456789012345", "e1234567890123456", "00123456789012345", "001234567890123456", "123456789012345000", "1234567890123450",
    "12345678901234500", "1234567890123451", "0a123456789012345", "0a1234567890123456", "0a000123456789012345", "0a0001234567890123456",
    "12345678a9012345", "12345678a90123456", "12345678a90123450", "12345678a901234500", "1234567a89012345000", "100000000a000001",
    "1000000000a000001", "a999999999999999", "a9999999999999999", "123456789012345a", "1234567890123456a", "123456789012345a0",
    "123456789012345a1", "123456789012345b5", "1234567890123456b5", "123456789012345c5", "1234567890123456c5",
    "123456789012345b30", "123456789012345b31", "123456789012345c30", "123456789012345c31", "1a23456789012345b44",
    "1a23456789012345b45", "1a23456789012345c16", "1a23456789012345c17", "999999999999999b30", "999999999999999c30", "1000000000000000",
    "10000000000000000", "20000000000000000000", "9007199254740993", "900719925474099", "179769313486231b294",
    // Powers 30 and 31 of the last digit, both ways, by exponent, point and zeros.
    "1b29", "1b30", "1b31", "1b32", "1c29", "1c30", "1c31", "1c32", "1be30", "1be31", "10b28", "10b29", "10b30", "10c30", "10c31", "10c32",
    "100c32", "100c33", "e1b30", "e1b31", "e1c30", "e1c31", "0a1b30", "0a1b31", "0a1b32", "0a1c29", "0a1c30", "0a10c29", "0a01b32",
    "0a01b33", "a1b31", "a1b32", "a1c29", "a1c30", "7b030", "7b031", "7c030", "7c031", "20b29", "20b30", "12b30", "12b31", "1a2b31", "1a2b32",
    "1a2c29", "1a2c30", "1b99", "1c99", "1b308", "1b309", "1b400", "1c323", "1c324", "1c400", "e1b400", "1b65536", "1b4294967296",
    "1b4294967297", "1b18446744073709551616", "1b18446744073709551617", "1c18446744073709551616", "1b99999999999999999999999999",
    "1c99999999999999999999999999", "1be99999999999999999999999999", "5b000000000000000000000000000001",
    "5c000000000000000000000000000001", "0a0000000000000000000000000000000000000001b40", "0a0000000000000000000000000000000000000001b9",
    "0a0000000000000000000000000000000000000001b10", "10000000000000000000000000000000000000000c40",
    "10000000000000000000000000000000000000000c10", "10000000000000000000000000000000000000000c9",
    // Document 01's, and usual ones.
    "0a001", "a001", "1c3", "0a039625", "0a06", "e2a25", "0a140541c3", "31a4159", "0a5", "a25", "2147483647", "2147483648",
];

/// Ends of texts that zeros fill.
#[rustfmt::skip]
const FILLED: &[(&str, &str)] = &[
    ("", ""), ("e", ""), ("0a", ""), ("", "a"), ("", "1"), ("e", "12"), ("", "1a5"), ("0b", ""), ("1b", "5"), ("1c", "30"), ("1c", "31"),
    ("1b", "1234"), ("0b", "99"), ("", "b5"), ("1", ""), ("1", "c60"), ("a", "1b61"), ("e", "e"), ("", "b"), ("", "ba"), ("a", "a"), ("", "d"),
    ("d", ""),
];

/// Texts with the reserved nibble.
#[rustfmt::skip]
const RESERVED: &[&str] = &[
    "d", "d1", "1d", "12d", "1d2", "1b1d", "1bd", "ed", "ad", "0d0", "bd", "cd", "1234567890123456d", "1a1ad",
];

pub(super) fn chosen_reals(cases: &mut Cases) {
    for text in TEXTS {
        read(cases, &entry(&[&real(text)]));
        // No end: the bytes stop.
        read(cases, &nibbles(text, 0));
    }
    for zeros in [28, 29, 30, 31, 32, 40] {
        let zeros = "0".repeat(zeros);
        for text in [
            format!("1{zeros}"),
            format!("e7{zeros}"),
            format!("0a{zeros}1"),
            format!("a{zeros}3"),
            format!("12{zeros}a{}", "0"),
        ] {
            read(cases, &entry(&[&real(&text)]));
        }
    }
    // After the end any nibble may stand, before it no d.
    for n in 0..16 {
        for text in ["", "12", "a5", "1b", "e1", "0000"] {
            if text.len() == 2 || text.is_empty() || n == 13 || n == 0 {
                read(cases, &entry(&[&nibbles(&format!("{text}f"), n)]));
            }
        }
    }
    for text in RESERVED {
        read(cases, &entry(&[&real(text)]));
        read(cases, &nibbles(text, 0));
    }
    lengths(cases);
}

/// 63 to 66 nibbles with the end, and many more: well formed and not, zero and not, without an end, with a d.
fn lengths(cases: &mut Cases) {
    for length in [62, 63, 64, 65, 66, 67, 127, 128, 129, 190] {
        let fill = |head: &str, tail: &str| {
            format!(
                "{head}{}{tail}",
                "0".repeat(length - 1 - head.len() - tail.len())
            )
        };
        for (head, tail) in FILLED {
            let text = fill(head, tail);
            read(cases, &entry(&[&real(&text)]));
            if head.is_empty() {
                read(cases, &nibbles(&text, 0));
            }
        }
    }
    // 63 and 64 digits that are not zeros.
    for length in [63, 64] {
        read(cases, &entry(&[&real(&"7".repeat(length))]));
    }
}
