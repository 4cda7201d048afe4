//! Random charstrings with lengths for their masks.

use super::numbers::fixed_code;
use super::{LONGEST, Pair};
use crate::generator::Generator;

/// A random charstring with its pairs: whole, or cut short, or with a byte changed, or of bytes that mean nothing.
pub(super) fn stream(random: &mut Generator) -> (Vec<Pair>, Vec<u8>) {
    let limit = 1 + random.below(LONGEST);
    if random.once_in(12) {
        let code = random.bytes(limit);
        let pairs = stray_pairs(random, code.len());
        return (pairs, code);
    }
    let mut pairs = Vec::new();
    let mut code = Vec::new();
    let mut stems = 0;
    while code.len() < limit {
        let operands = operand_count(random);
        for _ in 0..operands {
            put_operand(random, &mut code);
        }
        let op = operator(random);
        if matches!(op, 1 | 3 | 18 | 19 | 20 | 23) {
            stems += operands / 2;
        }
        let at = code.len();
        code.push(op);
        match op {
            12 => code.push(random.byte()),
            19 | 20 => put_mask(random, at, stems, &mut pairs, &mut code),
            _ => {}
        }
    }
    code.truncate(LONGEST);
    if random.once_in(5) {
        code.truncate(random.below(code.len()));
    }
    if random.once_in(10) && !code.is_empty() {
        let at = random.below(code.len());
        code[at] = random.byte();
    }
    if random.once_in(6) {
        pairs.extend(stray_pairs(random, code.len()));
    }
    (pairs, code)
}

fn operand_count(random: &mut Generator) -> usize {
    match random.below(8) {
        0 => 0,
        1..=5 => random.below(6),
        6 => random.below(20),
        _ => 14 + random.below(6),
    }
}

/// A number in one of its forms: one byte, two bytes up and down, three bytes, five bytes.
fn put_operand(random: &mut Generator, code: &mut Vec<u8>) {
    match random.below(12) {
        0..=6 => code.push(32 + random.below(215) as u8),
        7 => code.extend([247 + random.below(4) as u8, random.byte()]),
        8 => code.extend([251 + random.below(4) as u8, random.byte()]),
        9 => code.extend([28, random.byte(), random.byte()]),
        10 => code.extend(fixed_code(random.word() as u32)),
        _ => code.extend(fixed_code((random.word() as u32) >> random.below(32))),
    }
}

/// An operator byte, stems and masks more often than the others; 28 begins a number and is none.
fn operator(random: &mut Generator) -> u8 {
    match random.below(4) {
        0 => random.one_of(&[1, 3, 18, 23]),
        1 => random.one_of(&[19, 20]),
        2 => random.one_of(&[10, 29, 14, 11, 12]),
        _ => match random.below(32) as u8 {
            28 => 0,
            op => op,
        },
    }
}

/// A mask's bytes, of the own count or of a length that a pair gives.
fn put_mask(
    random: &mut Generator,
    at: usize,
    stems: usize,
    pairs: &mut Vec<Pair>,
    code: &mut Vec<u8>,
) {
    let own = stems.div_ceil(8);
    let length = match random.below(8) {
        0..=3 => own,
        4 => 0,
        _ => random.below(6),
    };
    code.extend(random.bytes(length));
    let at = at as u16;
    if length != own || random.once_in(3) {
        pairs.push((at, length as u16));
    }
    if random.once_in(8) {
        pairs.push((at, random.below(8) as u16));
    }
    if random.once_in(20) {
        pairs.insert(0, (at, random.one_of(&[61, 256, 32768, 65535])));
    }
}

/// Pairs at any place of a code, mask or not.
fn stray_pairs(random: &mut Generator, length: usize) -> Vec<Pair> {
    let count = random.below(4);
    (0..count)
        .map(|_| (random.below(length + 4) as u16, random.below(6) as u16))
        .collect()
}
