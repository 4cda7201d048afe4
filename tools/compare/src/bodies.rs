//! Charstrings and subroutines with sense, for fonts to cut.

use crate::cff::charstring::bias;
use crate::generator::Generator;

/// What the bodies of a font have in common.
#[derive(Clone, Copy, Debug)]
pub struct Plan {
    pub globals: usize,
    /// How many global subroutines there must be.
    pub wanted: Option<usize>,
    pub locals: usize,
    /// Stems that each glyph declares at its start; subroutines have masks of so many.
    pub stems: usize,
    pub care: Care,
}

/// How bodies go wrong.
#[derive(Clone, Copy, Debug, PartialEq, Eq)]
pub enum Care {
    /// Every call can be followed and rewritten.
    Sound,
    /// Some calls can be followed and not rewritten.
    Unwritable,
    /// Some can not be followed, or the body ends early.
    Careless,
}

#[derive(Clone, Copy, Debug, PartialEq, Eq)]
pub enum Role {
    Glyph,
    Local,
    Global,
}

impl Plan {
    pub fn new(g: &mut Generator) -> Plan {
        let locals = match g.below(120) {
            0 => 1238 + g.below(4),
            1..=12 => 0,
            _ => 1 + g.below(6),
        };
        Plan {
            globals: 0,
            wanted: None,
            locals,
            stems: match g.below(6) {
                0 | 1 => 0,
                2 => 7 + g.below(4),
                3 => 16 + g.below(2),
                _ => 1 + g.below(8),
            },
            care: match g.below(10) {
                0..=4 => Care::Sound,
                5..=7 => Care::Unwritable,
                _ => Care::Careless,
            },
        }
    }

    /// The body of a glyph or of the `number`-th subroutine.
    pub fn body(&self, g: &mut Generator, role: Role, number: usize) -> Vec<u8> {
        let mut out = Vec::new();
        if role == Role::Glyph {
            if g.once_in(12) {
                return out;
            }
            self.open(g, &mut out);
        } else if g.once_in(15) {
            // An operand for a call in the caller.
            operand(g, number, number + 1, &mut out);
            out.push(11);
            return out;
        }
        for _ in 0..g.below(4) {
            self.step(g, role, number, &mut out);
        }
        match role {
            Role::Glyph => out.push(14),
            _ => match g.below(12) {
                0 => out.push(14),
                1 => {}
                _ => out.push(11),
            },
        }
        if self.care == Care::Careless && g.once_in(6) {
            match g.below(3) {
                0 => out.truncate(out.len().saturating_sub(1)),
                1 => out.push(g.one_of(&[28, 12, 255, 0, 247])),
                _ => {
                    let at = g.below(out.len() + 1);
                    out.insert(at, g.byte());
                }
            }
        }
        out
    }

    /// The stems of a glyph, and a mask as often as not.
    fn open(&self, g: &mut Generator, out: &mut Vec<u8>) {
        if self.stems == 0 {
            return;
        }
        let mut stems = self.stems;
        if self.care != Care::Sound && g.once_in(6) {
            // Another length for the masks of subroutines.
            stems = 1 + g.below(20);
        }
        if g.once_in(4) {
            number(g, out);
        }
        for _ in 0..2 * stems {
            number(g, out);
        }
        match g.below(3) {
            0 => {
                out.push(g.one_of(&[19, 20]));
                out.extend(g.bytes(stems.div_ceil(8)));
            }
            1 => {
                out.push(g.one_of(&[1, 3, 18, 23]));
                out.push(19);
                out.extend(g.bytes(stems.div_ceil(8)));
            }
            _ => out.push(g.one_of(&[1, 3, 18, 23])),
        }
    }

    fn step(&self, g: &mut Generator, role: Role, own: usize, out: &mut Vec<u8>) {
        let unwritable = self.care != Care::Sound && g.once_in(4);
        match g.below(9) {
            0..=2 => path(g, out),
            3 if self.stems > 0 => {
                out.push(g.one_of(&[19, 20]));
                out.extend(g.bytes(self.stems.div_ceil(8)));
            }
            // A subroutine calls those before it, a global one no local one but for lack of care.
            3..=5 if role != Role::Global || unwritable => {
                let below = if role == Role::Local {
                    own
                } else {
                    self.locals
                };
                self.call(g, (below, self.locals), 10, unwritable, out);
            }
            _ => {
                let below = if role == Role::Global {
                    own
                } else {
                    self.globals
                };
                self.call(g, (below, self.globals), 29, unwritable, out);
            }
        }
    }

    /// A call of one of the first `below` subroutines.
    fn call(
        &self,
        g: &mut Generator,
        (below, count): (usize, usize),
        operator: u8,
        unwritable: bool,
        out: &mut Vec<u8>,
    ) {
        if self.care == Care::Careless && g.once_in(12) {
            // Of one that there is not, or of itself.
            let target = g.one_of(&[below, count, count + 1]);
            operand(g, target, count, out);
            out.push(operator);
            return;
        }
        if below == 0 {
            path(g, out);
            return;
        }
        let target = g.below(below);
        if !unwritable {
            operand(g, target, count, out);
            out.push(operator);
            return;
        }
        match g.below(4) {
            0 => {
                // A sum.
                operand(g, target, count, out);
                out.extend_from_slice(&[139, 12, 10, operator]);
            }
            1 => {
                // A fraction, which the call drops.
                let whole = target as i32 - bias(count);
                out.push(255);
                out.extend_from_slice(&(whole * 65536 - 1 - g.below(60_000) as i32).to_be_bytes());
                out.push(operator);
            }
            2 => {
                // The operand of a second call stands before that of the first.
                operand(g, target, count, out);
                operand(g, target, count, out);
                out.extend_from_slice(&[operator, operator]);
            }
            _ => {
                operand(g, target, count, out);
                out.extend_from_slice(&[12, g.one_of(&[9, 27, 14]), operator]);
            }
        }
    }
}

/// The operand that calls a subroutine, in any form.
fn operand(g: &mut Generator, target: usize, count: usize, out: &mut Vec<u8>) {
    let value = target as i32 - bias(count);
    write(g, value, out);
}

/// A whole number in the shortest form, as two bytes or as a 16.16.
fn write(g: &mut Generator, value: i32, out: &mut Vec<u8>) {
    match g.below(8) {
        0 => {
            out.push(28);
            out.extend_from_slice(&(value as i16).to_be_bytes());
        }
        1 => {
            out.push(255);
            out.extend_from_slice(&(value as i16).to_be_bytes());
            out.extend_from_slice(&[0, 0]);
        }
        _ => match value {
            -107..=107 => out.push((value + 139) as u8),
            108..=1131 => out.extend_from_slice(&[
                247 + ((value - 108) / 256) as u8,
                ((value - 108) % 256) as u8,
            ]),
            -1131..=-108 => out.extend_from_slice(&[
                251 + ((-value - 108) / 256) as u8,
                ((-value - 108) % 256) as u8,
            ]),
            _ => {
                out.push(28);
                out.extend_from_slice(&(value as i16).to_be_bytes());
            }
        },
    }
}

/// A number of a path.
fn number(g: &mut Generator, out: &mut Vec<u8>) {
    match g.below(12) {
        0 => {
            out.push(255);
            out.extend(g.bytes(4));
        }
        1 => {
            out.push(28);
            out.extend(g.bytes(2));
        }
        2 | 3 => {
            let value = g.below(2263) as i32 - 1131;
            write(g, value, out);
        }
        _ => out.push(32 + g.below(215) as u8),
    }
}

/// An operator of a path with its operands.
fn path(g: &mut Generator, out: &mut Vec<u8>) {
    let (operands, operator): (usize, &[u8]) = g.one_of(&[
        (2, &[21][..]),
        (1, &[22]),
        (1, &[4]),
        (2, &[5]),
        (4, &[5]),
        (1, &[6]),
        (2, &[7]),
        (6, &[8]),
        (8, &[24]),
        (8, &[25]),
        (4, &[30]),
        (4, &[31]),
        (13, &[12, 35]),
        (7, &[12, 34]),
    ]);
    for _ in 0..operands {
        number(g, out);
    }
    out.extend_from_slice(operator);
}
