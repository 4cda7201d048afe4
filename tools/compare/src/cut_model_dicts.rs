//! DICTs, INDEXes and FDSelect as the model of subsetting writes them. Document 01, 'Corners in write.rs', and TN5176.

use crate::decimal::Decimal;
use crate::model::Entries;

const SUBRS: u16 = 19;

/// A number without its fraction, held between two others.
pub fn clamped(n: &Decimal, low: i64, high: i64) -> i64 {
    let size = Decimal {
        negative: false,
        ..*n
    }
    .whole_part()
    .unwrap_or(0)
    .min(1 << 40) as i64;
    (if n.negative { -size } else { size }).clamp(low, high)
}

/// A Private with its entries but Subrs, and, where it has subroutines, Subrs and them: the DICT's length, and all.
pub fn private(entries: &Entries, locals: &[Vec<u8>]) -> (usize, Vec<u8>) {
    let mut out = Vec::new();
    for (entry, operands) in entries.iter().filter(|e| e.0 != SUBRS) {
        operands.iter().for_each(|n| decimal(n, &mut out));
        operator(*entry, &mut out);
    }
    if locals.is_empty() {
        return (out.len(), out);
    }
    out.extend(five(out.len() + 6));
    operator(SUBRS, &mut out);
    (out.len(), [out, index(locals)].concat())
}

pub fn five(n: usize) -> Vec<u8> {
    [&[29], &(n as u32).to_be_bytes()[..]].concat()
}

pub fn operator(operator: u16, out: &mut Vec<u8>) {
    if operator >= 12 << 8 {
        out.push(12);
    }
    out.push(operator as u8);
}

/// An integer in its shortest form: the same in DICTs and charstrings, but for four bytes.
pub fn integer(n: i64, out: &mut Vec<u8>) {
    let size = n.abs();
    match size {
        0..=107 => out.push((n + 139) as u8),
        108..=1131 => {
            let first = if n < 0 { 251 } else { 247 };
            out.push(first + ((size - 108) >> 8) as u8);
            out.push((size - 108) as u8);
        }
        _ if (-32_768..32_768).contains(&n) => {
            out.push(28);
            out.extend_from_slice(&(n as i16).to_be_bytes());
        }
        _ => {
            out.push(29);
            out.extend_from_slice(&(n as i32).to_be_bytes());
        }
    }
}

/// A number of a DICT: an integer, or a real without an exponent.
pub fn decimal(n: &Decimal, out: &mut Vec<u8>) {
    let limit = i64::from(i32::MAX);
    let whole = clamped(n, -limit, limit);
    if whole.abs() < limit && n.is(whole) {
        integer(whole, out);
        return;
    }
    let mut digits: Vec<u8> = n.digits.to_string().bytes().map(|c| c - b'0').collect();
    if n.power >= 0 {
        digits.extend(vec![0; n.power as usize]);
    } else {
        let behind = n.power.unsigned_abs() as usize;
        while digits.len() <= behind {
            digits.insert(0, 0);
        }
        digits.insert(digits.len() - behind, 10);
    }
    if n.negative {
        digits.insert(0, 14);
    }
    digits.push(15);
    if digits.len() % 2 == 1 {
        digits.push(15);
    }
    out.push(30);
    out.extend(digits.chunks(2).map(|pair| pair[0] << 4 | pair[1]));
}

pub fn offset_size(n: usize) -> u8 {
    match n {
        0..256 => 1,
        256..65_536 => 2,
        65_536..16_777_216 => 3,
        _ => 4,
    }
}

pub fn index(items: &[Vec<u8>]) -> Vec<u8> {
    let mut out = (items.len() as u16).to_be_bytes().to_vec();
    if items.is_empty() {
        return out;
    }
    let size = offset_size(1 + items.iter().map(Vec::len).sum::<usize>());
    out.push(size);
    let mut offset = 1;
    for length in [0].into_iter().chain(items.iter().map(Vec::len)) {
        offset += length;
        out.extend_from_slice(&(offset as u32).to_be_bytes()[4 - usize::from(size)..]);
    }
    items.iter().for_each(|item| out.extend(item));
    out
}

/// FDSelect format 3.
pub fn fd_select(select: &[u8]) -> Vec<u8> {
    let starts: Vec<usize> = (0..select.len())
        .filter(|&k| k == 0 || select[k] != select[k - 1])
        .collect();
    let mut out = vec![3];
    out.extend_from_slice(&(starts.len() as u16).to_be_bytes());
    for k in starts {
        out.extend_from_slice(&(k as u16).to_be_bytes());
        out.push(select[k]);
    }
    out.extend_from_slice(&(select.len() as u16).to_be_bytes());
    out
}
