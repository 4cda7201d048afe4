//! A font as parts that name each other's places, and its bytes.

use crate::generator::Generator;
use crate::numbers::{self, Form};

/// A number of a DICT.
#[derive(Clone, Debug)]
pub enum Num {
    Bytes(Vec<u8>),
    /// Where a part stands, plus a number.
    Place(usize, i64, Form),
    /// How long a part is, plus a number.
    Length(usize, i64, Form),
    /// How far the second part stands behind the first.
    Distance(usize, usize, Form),
}

/// Operands and the bytes of an operator; no operator leaves the operands over.
#[derive(Clone, Debug)]
pub struct Entry {
    pub operands: Vec<Num>,
    pub operator: Vec<u8>,
}

pub fn entry(operands: Vec<Num>, operator: &[u8]) -> Entry {
    Entry {
        operands,
        operator: operator.to_vec(),
    }
}

/// The place of a part.
pub fn place(part: usize) -> Num {
    Num::Place(part, 0, Form::Shortest)
}

/// How an INDEX is written.
#[derive(Clone, Copy, Debug)]
pub struct Shape {
    /// At least this offset size.
    pub offset_size: u8,
    /// Bytes between the offsets and the first item.
    pub gap: usize,
    pub fault: Fault,
}

/// An INDEX as the notes want it.
pub const SOUND: Shape = Shape {
    offset_size: 1,
    gap: 0,
    fault: Fault::None,
};

/// What is wrong with an INDEX.
#[derive(Clone, Copy, Debug, PartialEq, Eq)]
pub enum Fault {
    None,
    /// The offset size is this one.
    OffsetSize(u8),
    /// The first offset is this one.
    First(usize),
    /// Two offsets change places.
    Fall(usize),
    /// The last offset is too large by so much.
    Past(usize),
    /// The count is larger by so much.
    Count(u16),
}

#[derive(Clone, Debug)]
pub enum Part {
    Bytes(Vec<u8>),
    Dict(Vec<Entry>),
    Index(Shape, Vec<Part>),
}

/// Parts in any order, and the order in which they stand.
#[derive(Default)]
pub struct Layout {
    pub parts: Vec<Part>,
    pub order: Vec<usize>,
}

impl Layout {
    /// The number of a new part, which stands after the others.
    pub fn add(&mut self, part: Part) -> usize {
        self.parts.push(part);
        self.order.push(self.parts.len() - 1);
        self.parts.len() - 1
    }

    pub fn bytes(&self) -> Vec<u8> {
        // Places depend on the lengths of numbers, and these on places: repeat until all stands
        // still; where it does not, every number takes a form of one length.
        for fixed in [false, true] {
            let mut known = Known {
                places: vec![0; self.parts.len()],
                lengths: vec![0; self.parts.len()],
                fixed,
            };
            for _ in 0..12 {
                let mut out = Vec::new();
                let before = (known.places.clone(), known.lengths.clone());
                let mut next = known.clone();
                for &k in &self.order {
                    let bytes = known.part(&self.parts[k]);
                    next.places[k] = out.len() as i64;
                    next.lengths[k] = bytes.len() as i64;
                    out.extend(bytes);
                }
                known = next;
                if before == (known.places.clone(), known.lengths.clone()) {
                    return out;
                }
            }
        }
        unreachable!("numbers of one length settle")
    }
}

/// One font from its top DICT, its strings and other parts, the first of which is part 5.
pub fn one_font(top: Vec<Entry>, strings: Vec<Part>, parts: Vec<Part>) -> Vec<u8> {
    let mut layout = Layout::default();
    layout.add(Part::Bytes(vec![1, 0, 4, 1]));
    layout.add(Part::Index(SOUND, vec![Part::Bytes(vec![b'A'])]));
    layout.add(Part::Index(SOUND, vec![Part::Dict(top)]));
    layout.add(Part::Index(SOUND, strings));
    layout.add(Part::Index(SOUND, Vec::new()));
    for part in parts {
        layout.add(part);
    }
    layout.bytes()
}

#[derive(Clone)]
struct Known {
    places: Vec<i64>,
    lengths: Vec<i64>,
    fixed: bool,
}

impl Known {
    fn part(&self, part: &Part) -> Vec<u8> {
        match part {
            Part::Bytes(bytes) => bytes.clone(),
            Part::Dict(entries) => self.dict(entries),
            Part::Index(shape, items) => {
                let items: Vec<Vec<u8>> = items.iter().map(|item| self.part(item)).collect();
                index(shape, &items)
            }
        }
    }

    fn dict(&self, entries: &[Entry]) -> Vec<u8> {
        let mut out = Vec::new();
        for entry in entries {
            for operand in &entry.operands {
                out.extend(self.number(operand));
            }
            out.extend_from_slice(&entry.operator);
        }
        out
    }

    fn number(&self, n: &Num) -> Vec<u8> {
        let (value, form) = match *n {
            Num::Bytes(ref bytes) => return bytes.clone(),
            Num::Place(k, plus, form) => (self.places[k] + plus, form),
            Num::Length(k, plus, form) => (self.lengths[k] + plus, form),
            Num::Distance(k, l, form) => (self.places[l] - self.places[k], form),
        };
        let form = if self.fixed { Form::Four } else { form };
        numbers::write(value, form)
    }
}

/// An INDEX over items.
fn index(shape: &Shape, items: &[Vec<u8>]) -> Vec<u8> {
    let mut count = items.len() as u16;
    if let Fault::Count(more) = shape.fault {
        count = count.wrapping_add(more);
    }
    let mut out = count.to_be_bytes().to_vec();
    if items.is_empty() {
        return out;
    }
    let mut offsets = vec![1 + shape.gap];
    for item in items {
        offsets.push(offsets[offsets.len() - 1] + item.len());
    }
    let last = offsets.len() - 1;
    match shape.fault {
        Fault::First(first) => offsets[0] = first,
        Fault::Fall(k) => offsets.swap(k % last, k % last + 1),
        Fault::Past(more) => offsets[last] += more,
        _ => {}
    }
    let needed = (1..=4u8)
        .find(|&n| offsets.iter().all(|&o| o >> (8 * n) == 0))
        .expect("four bytes hold an offset");
    let size = usize::from(needed.max(shape.offset_size));
    out.push(match shape.fault {
        Fault::OffsetSize(size) => size,
        _ => size as u8,
    });
    for offset in offsets {
        out.extend_from_slice(&(offset as u32).to_be_bytes()[4 - size..]);
    }
    // Bytes that no item holds.
    out.extend((0..shape.gap).map(|k| k as u8));
    out.extend(items.concat());
    out
}

/// A shape by chance, with a fault, and with a gap now and then.
pub fn shape(g: &mut Generator, faulty: bool, gaps: bool) -> Shape {
    let fault = if !faulty {
        Fault::None
    } else {
        match g.below(7) {
            0 => Fault::OffsetSize(g.one_of(&[0, 5, 6, 255])),
            1 => Fault::First(g.one_of(&[0, 0, 2, 3, 200])),
            2 | 3 => Fault::Fall(g.below(64)),
            4 => Fault::Past(g.one_of(&[1, 2, 40, 200, 60_000])),
            5 => Fault::Past(1 << 24),
            _ => Fault::Count(g.one_of(&[1, 2, 200, 65535])),
        }
    };
    Shape {
        offset_size: if g.once_in(3) {
            1 + g.below(4) as u8
        } else {
            1
        },
        gap: if gaps && g.once_in(4) {
            1 + g.below(4)
        } else {
            0
        },
        fault,
    }
}
