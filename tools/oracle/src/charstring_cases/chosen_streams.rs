//! Chosen charstrings: document 01's, every operator, masks and the lengths that are given for them.

use super::{Pair, encoded, tokens};
use crate::cases::Cases;

fn both(cases: &mut Cases, pairs: &[Pair], code: &[u8]) {
    tokens(cases, pairs, code);
    encoded(cases, pairs, code);
}

pub(super) fn chosen_streams(cases: &mut Cases) {
    both(cases, &[], &[]);
    both(cases, &[(0, 3)], &[]);
    // Document 01, 'Corners in charstring.rs' and 'Corners in write.rs'.
    for code in [
        &[0x1c, 0x80, 0x00][..],
        &[0xff, 0x00, 0x05, 0x00, 0x00],
        &[0xff, 0x01, 0x00, 0x00, 0x01],
        &[0xff, 0x7f, 0xff, 0xff, 0xff],
        &[0x22, 0x0a, 0x0e],
    ] {
        both(cases, &[], code);
    }
    // Every operator and escape alone; 12 at the very end; calls; what stands after endchar.
    for op in 0..=31 {
        both(cases, &[], &[op]);
        both(cases, &[], &[140, op, 139, 14]);
    }
    for escape in (0..=38).chain([127, 128, 255]) {
        both(cases, &[], &[140, 12, escape, 14]);
    }
    both(cases, &[], &[139, 12]);
    both(cases, &[], &[139, 10, 140, 29, 10, 29]);
    both(cases, &[], &[139, 14, 140, 141, 5, 14, 12, 35]);
    // Each number form cut short behind a whole token.
    for code in [
        &[28u8][..],
        &[28, 1],
        &[247],
        &[254],
        &[255],
        &[255, 1],
        &[255, 1, 2],
        &[255, 1, 2, 3],
    ] {
        let mut cut = vec![139];
        cut.extend_from_slice(code);
        both(cases, &[], &cut);
    }
    masks(cases);
}

/// Masks behind a known number of operands: none to 40, by each stem operator and by the mask itself.
fn masks(cases: &mut Cases) {
    for operands in [0usize, 1, 2, 3, 14, 15, 16, 17, 18, 31, 32, 33, 34, 40] {
        let own = (operands / 2).div_ceil(8);
        for stem in [None, Some(1), Some(3), Some(18), Some(23)] {
            let mut code = vec![139; operands];
            code.extend(stem);
            let at = code.len() as u16;
            code.push(if operands % 2 == 0 { 19 } else { 20 });
            code.extend((0..own).map(|k| 0xa0 + k as u8));
            // At the end of the code, one byte short, and with a token behind.
            both(cases, &[], &code);
            if own > 0 {
                both(cases, &[], &code[..code.len() - 1]);
            }
            code.push(14);
            both(cases, &[], &code);
            if stem.is_none() {
                pairs_at(cases, at, own as u16, &code);
            }
        }
    }
    // Stems of two operators add up; a call, an escape and an unknown operator drop the operands
    // that wait.
    for between in [
        &[1u8][..],
        &[10],
        &[29],
        &[12, 34],
        &[2],
        &[11],
        &[14],
        &[21],
    ] {
        let mut code = vec![139; 15];
        code.extend_from_slice(between);
        code.extend([139, 139, 3, 139, 139, 19, 0xff, 0x0f, 14]);
        both(cases, &[], &code);
    }
    // Operands of odd count are halved at each operator by itself; a second mask counts what stands
    // before it.
    both(
        cases,
        &[],
        &[
            139, 139, 139, 1, 139, 139, 139, 3, 139, 139, 139, 19, 0x80, 139, 20, 0x40, 14,
        ],
    );
    // A mask before a call, and a mask of no bytes before a call.
    both(cases, &[], &[139, 139, 19, 0x80, 10]);
    both(cases, &[], &[19, 10]);
    // A mask whose bytes look like tokens.
    both(cases, &[(0, 4)], &[20, 19, 12, 255, 28, 14]);
    both(cases, &[(1, 2)], &[139, 19, 19, 20, 14]);
}

/// Given lengths for the mask operator at a place: the own one, others, none, one too long; pairs
/// where no mask stands; two pairs with one offset.
fn pairs_at(cases: &mut Cases, at: u16, own: u16, code: &[u8]) {
    let rest = (code.len() - usize::from(at) - 1) as u16;
    for length in [
        own,
        own + 1,
        own.saturating_sub(1),
        0,
        rest,
        rest + 1,
        60,
        65535,
    ] {
        both(cases, &[(at, length)], code);
    }
    both(cases, &[(at + 1, 0)], code);
    both(cases, &[(at + 1, 2), (at, own)], code);
    both(cases, &[(at, own), (at, 0)], code);
    both(cases, &[(at, 0), (at, own)], code);
    both(cases, &[(at, 65535), (at, own)], code);
    if let Some(before) = at.checked_sub(1) {
        both(cases, &[(before, 0)], code);
    }
}
