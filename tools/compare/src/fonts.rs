//! Small fonts of every kind that document 01 names, made by chance. Here is the file as a whole; its parts are in the files
//! below fonts/.

mod dicts;
mod glyph_tables;
mod privates;
mod top_dict;

use crate::bodies::{Care, Plan, Role};
use crate::cff::STANDARD_STRINGS;
use crate::generator::Generator;
use crate::layout::{Entry, Layout, Part, SOUND, Shape, entry, one_font, place, shape};

pub const NAME_KEYED: &str = "name-keyed";
pub const CID_KEYED: &str = "CID-keyed";
pub const SET: &str = "set of fonts";
pub const NO_FONT: &str = "set of none";

/// The string id of `A`.
const LETTERS: usize = 34;

/// A font and its kind.
pub struct Made {
    pub kind: &'static str,
    pub bytes: Vec<u8>,
}

/// Builds one font file.
struct Maker<'a> {
    g: &'a mut Generator,
    layout: Layout,
    /// A wrong choice is made once in so many times; 0: never.
    odds: usize,
    /// How many strings the font has.
    strings: usize,
    /// What charstrings and subroutines have in common; none: they are noise.
    plan: Option<Plan>,
    /// Whether an INDEX may begin after a gap, and whether top DICTs may have PaintType and StrokeWidth: few fonts, which are
    /// outside the domain of the comparison with the original.
    gaps: bool,
    stroked: bool,
    /// Whether the font is made for its encoding.
    coded: bool,
    /// The string ids or CIDs of the glyphs, as the last charset says them.
    ids: Vec<u16>,
}

pub fn make(g: &mut Generator) -> Made {
    let odds = match g.below(20) {
        0..=6 => 0,
        7..=11 => 120,
        12..=16 => 40,
        _ => 12,
    };
    made(g, odds, None, false)
}

/// A font to cut: its charstrings and subroutines have sense, and it is seldom faulty.
pub fn make_to_cut(g: &mut Generator) -> Made {
    let odds = match g.below(20) {
        0..=14 => 0,
        15 | 16 => 120,
        17 | 18 => 40,
        _ => 12,
    };
    let plan = Plan::new(g);
    made(g, odds, Some(plan), false)
}

/// A font to cut that is name-keyed as a rule and has an encoding of its own, or the Expert one.
pub fn make_coded(g: &mut Generator) -> Made {
    let odds = [0, 0, 0, 0, 120, 30][g.below(6)];
    let plan = Plan::new(g);
    made(g, odds, Some(plan), true)
}

/// A font to cut that has so many global subroutines, and so many local ones as a rule; every call can be rewritten.
pub fn make_biased(g: &mut Generator, globals: usize, locals: usize) -> Vec<u8> {
    let plan = Plan {
        globals: 0,
        wanted: Some(globals),
        locals,
        stems: 3,
        care: Care::Sound,
    };
    made(g, 0, Some(plan), false).bytes
}

fn made(g: &mut Generator, odds: usize, plan: Option<Plan>, coded: bool) -> Made {
    // Those at the steps of the bias are few, and stay inside.
    let biased = plan.is_some_and(|plan| plan.wanted.is_some());
    let mut maker = Maker {
        gaps: g.once_in(10) && !biased && !coded,
        stroked: g.once_in(6) && !biased && !(coded && g.below(4) > 0),
        g,
        layout: Layout::default(),
        odds,
        strings: 0,
        plan,
        coded,
        ids: Vec::new(),
    };
    maker.file()
}

impl Maker<'_> {
    /// Whether to choose wrongly.
    fn wrong(&mut self) -> bool {
        self.odds != 0 && self.g.once_in(self.odds)
    }

    fn shape(&mut self) -> Shape {
        let faulty = self.wrong();
        shape(self.g, faulty, self.gaps)
    }

    fn file(&mut self) -> Made {
        let fonts = match self.g.below(40) {
            0 => 0,
            1..=4 => 2,
            5 | 6 => 3,
            _ => 1,
        };
        // The header, its size 4 or more. With 3 its last byte is the first of the name INDEX.
        let size = match self.g.below(24) {
            0 => 3,
            1..=4 => 4 + self.g.below(9),
            _ => 4,
        };
        let size_byte = if self.wrong() {
            self.g.below(256) as u8
        } else {
            size as u8
        };
        let major = if self.wrong() {
            self.g.one_of(&[0, 2, 255])
        } else {
            1
        };
        let mut header = vec![major, self.g.below(2) as u8, size_byte];
        header.extend(self.g.bytes(size - 3));
        self.layout.add(Part::Bytes(header));

        let names = if self.wrong() {
            fonts + 1 - self.g.below(2) * fonts.min(2)
        } else {
            fonts
        };
        let names = (0..names)
            .map(|_| {
                let n = self.g.below(5);
                Part::Bytes(self.g.bytes(n))
            })
            .collect();
        let shape = self.shape();
        self.layout.add(Part::Index(shape, names));

        // The top DICTs are filled in once the other parts are there.
        let shape = self.shape();
        let tops = self.layout.add(Part::Index(shape, Vec::new()));

        self.strings = match self.g.below(30) {
            0..=8 => 0,
            9 => 20 + self.g.below(300),
            _ => 1 + self.g.below(5),
        };
        let strings = self.string_items();
        let shape = self.shape();
        self.layout.add(Part::Index(shape, strings));

        let globals = match self.g.below(200) {
            0 => 1200 + self.g.below(100),
            1..=60 => 0,
            _ => 1 + self.g.below(5),
        };
        let globals = self.plan.and_then(|plan| plan.wanted).unwrap_or(globals);
        if let Some(plan) = &mut self.plan {
            plan.globals = globals;
        }
        let globals = self.bodies(globals, Role::Global);
        let shape = self.shape();
        self.layout.add(Part::Index(shape, globals));

        let mut kind = NO_FONT;
        let mut dicts = Vec::new();
        for k in 0..fonts {
            let cid_keyed = self.g.once_in(if self.coded { 30 } else { 2 });
            kind = match (fonts, cid_keyed) {
                (1, false) => NAME_KEYED,
                (1, true) => CID_KEYED,
                _ => SET,
            };
            // Later fonts of a set share the parts of the first as often as not.
            if k > 0 && self.g.once_in(3) {
                let mut same: Vec<Entry> = dicts[0..1].concat();
                self.disturb(&mut same);
                dicts.push(same);
            } else {
                let dict = self.font(cid_keyed);
                dicts.push(dict);
            }
        }
        if let Part::Index(_, items) = &mut self.layout.parts[tops] {
            *items = dicts.into_iter().map(Part::Dict).collect();
        }
        self.reorder();
        if self.g.once_in(8) {
            let n = self.g.below(6);
            let tail = self.g.bytes(n);
            self.layout.add(Part::Bytes(tail));
        }
        Made {
            kind,
            bytes: self.layout.bytes(),
        }
    }

    /// Parts after the first five stand in any order, some with bytes between them.
    fn reorder(&mut self) {
        if !self.g.once_in(3) {
            return;
        }
        let order = &mut self.layout.order;
        for k in (6..order.len()).rev() {
            let l = 5 + self.g.below(k - 4);
            order.swap(k, l);
        }
        if self.g.once_in(3) {
            let n = 1 + self.g.below(4);
            let gap = self.g.bytes(n);
            let k = self.layout.add(Part::Bytes(gap));
            let order = &mut self.layout.order;
            order.pop();
            let at = 5 + self.g.below(order.len() - 4);
            order.insert(at, k);
        }
    }

    /// Strings: of any bytes, empty, equal to another or to a standard one.
    fn string_items(&mut self) -> Vec<Part> {
        let mut items: Vec<Vec<u8>> = Vec::new();
        for _ in 0..self.strings {
            let item = match self.g.below(8) {
                0 => Vec::new(),
                // In a font made for its encoding names that supplements have too.
                4 if self.coded => {
                    let k = LETTERS + self.g.below(6);
                    STANDARD_STRINGS[k].as_bytes().to_vec()
                }
                1 => {
                    let k = self.g.below(STANDARD_STRINGS.len());
                    STANDARD_STRINGS[k].as_bytes().to_vec()
                }
                2 if !items.is_empty() => {
                    let k = self.g.below(items.len());
                    items[k].clone()
                }
                3 => {
                    let n = self.g.below(12);
                    self.g.bytes(n)
                }
                _ => {
                    let n = 1 + self.g.below(5);
                    (0..n).map(|_| b'a' + self.g.below(3) as u8).collect()
                }
            };
            items.push(item);
        }
        items.into_iter().map(Part::Bytes).collect()
    }

    /// Charstrings or subroutines; reading does not look into them.
    fn bodies(&mut self, count: usize, role: Role) -> Vec<Part> {
        if let Some(plan) = self.plan {
            return (0..count)
                .map(|k| Part::Bytes(plan.body(self.g, role, k)))
                .collect();
        }
        let longest = match self.g.below(40) {
            0 => 120,
            1..=4 => 40,
            _ => 6,
        };
        let longest = if count > 100 { 2 } else { longest };
        (0..count)
            .map(|_| {
                let n = self.g.below(longest);
                Part::Bytes(self.g.bytes(n))
            })
            .collect()
    }
}

/// A name-keyed font without a fault: each charstring is an endchar.
pub fn plain(glyphs: usize) -> Vec<u8> {
    let top = vec![entry(vec![place(5)], &[17])];
    let charstrings = Part::Index(SOUND, vec![Part::Bytes(vec![14]); glyphs]);
    one_font(top, Vec::new(), vec![charstrings])
}
