//! Fonts made for the calls with few work words (document 02, Wish 10): string ids and CIDs of glyphs in every order, in each form of
//! charset and FDSelect, small ones and such as have more glyphs than the library's window.

use crate::bodies::{Plan, Role};
use crate::cases::{Case, Families, copied};
use crate::cff::STANDARD_STRINGS;
use crate::cff::charstring::bias;
use crate::fonts::Made;
use crate::generator::Generator;
use crate::layout::{Entry, Layout, Num, Part, SOUND, entry, place};
use crate::numbers::{self, Form};

/// How the ids of the glyphs go.
const ORDERS: [&str; 9] = [
    "ids rise",
    "ids rise with gaps",
    "ids fall",
    "ids fall with gaps",
    "ids shuffled",
    "ids shuffled with gaps",
    "ids rise, halves swapped",
    "ids rise, two swapped",
    "ids with repeats",
];

/// How many words of the order the library holds at a time.
pub const WINDOW: usize = 4096;

/// The largest CID, and the largest string id.
const LARGEST_CID: usize = 65_535;
const LARGEST_ID: usize = 64_999;

/// From so many bodies the charstrings of a font with more glyphs are taken; one in `MASKED` has a mask.
const BODIES: usize = 80;
const MASKED: usize = 20;

/// The made fonts, and their damaged copies.
pub fn fonts(seed: u64) -> Families {
    Families::new(seed ^ 0x2b7e_1516_28ae_d2a6, |g| {
        let glyphs = match g.below(2000) {
            0 | 1 => WINDOW - 6 + g.below(60),
            2..40 => 200 + g.below(900),
            40..100 => 1,
            _ => 2 + g.below(60),
        };
        let kind = g.one_of(&ORDERS);
        let cid_keyed = g.once_in(2);
        let bytes = font(g, cid_keyed, kind, glyphs);
        copied(g, Made { kind, bytes })
    })
}

/// What the smaller ones of those with many names are called.
pub const LEAST_NAMES: &str = "5,000 names";

/// Those with more glyphs than the window has words.
pub fn large(seed: u64) -> Vec<Case> {
    let mut g = Generator::new(seed ^ 0x3243_f6a8_885a_308d);
    let mut list: Vec<(&'static str, &'static str, Vec<u8>)> = Vec::new();
    for (state, glyphs) in [
        ("5,000 glyphs", 5000),
        ("20,000 glyphs", 20_000),
        ("65,535 glyphs", 65_535),
    ] {
        for order in ORDERS {
            list.push((order, state, font(&mut g, true, order, glyphs)));
        }
    }
    for (state, glyphs) in [(LEAST_NAMES, 5000), ("20,000 names", 20_000)] {
        for order in ORDERS {
            list.push((order, state, font(&mut g, false, order, glyphs)));
        }
    }
    let case = |(number, (kind, state, font))| Case {
        number,
        kind,
        state,
        font,
        file: "many glyphs".to_string(),
    };
    list.into_iter().enumerate().map(case).collect()
}

/// Different numbers from 1 on, or the same again, for all glyphs but the first.
fn ids(g: &mut Generator, order: &str, count: usize, largest: usize) -> Vec<u16> {
    // The widest gap that leaves room for all.
    let widest = if order.contains("gaps") || order.contains("repeats") {
        (largest / count.max(1)).clamp(1, 300)
    } else {
        1
    };
    let mut next = 1 + g.below(largest + 1 - widest * count);
    let mut ids: Vec<u16> = Vec::new();
    for _ in 0..count {
        ids.push(next as u16);
        next += 1 + g.below(widest);
    }
    if count < 2 {
        return ids;
    }
    let any = |g: &mut Generator| g.below(count);
    match order {
        o if o.starts_with("ids fall") => ids.reverse(),
        o if o.starts_with("ids shuffled") => shuffle(g, &mut ids),
        "ids rise, halves swapped" => ids.rotate_left(count / 2),
        "ids rise, two swapped" => {
            let (k, l) = (any(g), any(g));
            ids.swap(k, l);
        }
        "ids with repeats" => {
            if g.once_in(2) {
                shuffle(g, &mut ids);
            }
            for _ in 0..1 + count / 20 {
                let (k, l) = (any(g), any(g));
                ids[k] = if g.once_in(8) { 0 } else { ids[l] };
            }
        }
        _ => {}
    }
    ids
}

pub fn shuffle<T>(g: &mut Generator, list: &mut [T]) {
    for k in (1..list.len()).rev() {
        let l = g.below(k + 1);
        list.swap(k, l);
    }
}

/// A charset of a format.
fn charset(format: u8, ids: &[u16]) -> Vec<u8> {
    let mut out = vec![format];
    if format == 0 {
        out.extend(ids.iter().flat_map(|id| id.to_be_bytes()));
        return out;
    }
    let most = if format == 1 { 256 } else { 65_536 };
    let mut rest = ids;
    while let Some(&first) = rest.first() {
        let follows = |k: &usize| usize::from(rest[*k]) != usize::from(first) + k;
        let longest = rest.len().min(most);
        let run = (1..longest).find(follows).unwrap_or(longest);
        rest = &rest[run..];
        out.extend(first.to_be_bytes());
        out.extend(&((run - 1) as u16).to_be_bytes()[2 - usize::from(format)..]);
    }
    out
}

/// An FDSelect of format 0 or 3.
fn select(format: u8, fds: &[u8]) -> Vec<u8> {
    if format == 0 {
        return [&[0], fds].concat();
    }
    let starts: Vec<usize> = (0..fds.len())
        .filter(|&k| k == 0 || fds[k] != fds[k - 1])
        .collect();
    let mut out = vec![3];
    out.extend((starts.len() as u16).to_be_bytes());
    for k in starts {
        out.extend((k as u16).to_be_bytes());
        out.push(fds[k]);
    }
    out.extend((fds.len() as u16).to_be_bytes());
    out
}

/// The FD of each glyph: in turn, in a row, or by chance.
fn fd_of_each(g: &mut Generator, glyphs: usize, fds: usize) -> Vec<u8> {
    let way = g.below(3);
    let of = |k: usize, any: usize| match way {
        0 => k % fds,
        1 => k * fds / glyphs,
        _ => any,
    };
    (0..glyphs).map(|k| of(k, g.below(fds)) as u8).collect()
}

/// Own strings, of which some are another's or a standard one.
fn strings(g: &mut Generator, count: usize) -> Vec<Vec<u8>> {
    let alike = g.one_of(&[0, 0, 3, 40]);
    (0..count)
        .map(|k| {
            let shared = alike > 0 && g.once_in(alike);
            match g.below(2) {
                0 if shared => STANDARD_STRINGS[g.below(STANDARD_STRINGS.len())]
                    .as_bytes()
                    .to_vec(),
                1 if shared => format!("s{}", g.below(9)).into_bytes(),
                _ => format!("n{k}").into_bytes(),
            }
        })
        .collect()
}

/// An encoding for so many glyphs but the first: codes in a list or in ranges, and supplements now and then.
fn encoding(g: &mut Generator, glyphs: usize, ids: &[u16]) -> Vec<u8> {
    let count = glyphs.min(255);
    let mut out = if g.once_in(2) {
        let mut out = vec![0, count as u8];
        let first = g.below(256);
        out.extend((0..count).map(|k| (first + k) as u8));
        out
    } else {
        vec![1, 1, g.below(2) as u8, count.saturating_sub(1) as u8]
    };
    if g.once_in(2) {
        out[0] |= 0x80;
        let supplements = g.below(5);
        out.push(supplements as u8);
        for _ in 0..supplements {
            out.push(g.byte());
            let id = if ids.is_empty() {
                0
            } else {
                ids[g.below(ids.len())]
            };
            out.extend(id.to_be_bytes());
        }
    }
    out
}

fn index(items: Vec<Vec<u8>>) -> Part {
    Part::Index(SOUND, items.into_iter().map(Part::Bytes).collect())
}

fn number(value: usize) -> Num {
    Num::Bytes(numbers::write(value as i64, Form::Shortest))
}

/// The string entries of a top DICT, in most fonts some of the own strings.
fn texts(g: &mut Generator, strings: usize) -> Vec<Entry> {
    let mut entries = Vec::new();
    for operator in 0..5 {
        if strings > 0 && g.once_in(3) {
            let id = STANDARD_STRINGS.len() + g.below(strings);
            entries.push(entry(vec![number(id)], &[operator]));
        }
    }
    entries
}

/// Where the bodies of a font come from.
#[derive(Clone, Copy)]
struct Bodies {
    plan: Plan,
    /// All are plain, so that many glyphs can be traced.
    plain: bool,
    /// Some have calls behind their end, which cost the small file.
    dead: bool,
}

impl Bodies {
    fn new(g: &mut Generator, glyphs: usize) -> Bodies {
        let mut plan = Plan::new(g);
        plan.globals = g.one_of(&[0, 1, 3, 31, 32, 33]);
        Bodies {
            plan,
            plain: glyphs > BODIES && g.below(6) > 0,
            dead: g.once_in(3),
        }
    }

    fn body(&self, g: &mut Generator, role: Role, number: usize) -> Vec<u8> {
        if !self.plain {
            return self.plan.body(g, role, number);
        }
        let (operator, below, count) = match role {
            Role::Local => (10, number, self.plan.locals),
            Role::Global => (29, number, self.plan.globals),
            Role::Glyph if g.once_in(2) => (10, self.plan.locals, self.plan.locals),
            Role::Glyph => (29, self.plan.globals, self.plan.globals),
        };
        let end = if role == Role::Glyph { 14 } else { 11 };
        let call = |g: &mut Generator| {
            let operand = g.below(below) as i32 - bias(count);
            [&[28], &(operand as i16).to_be_bytes()[..], &[operator]].concat()
        };
        match g.below(4) {
            0 | 1 if below > 0 => [call(g), vec![end]].concat(),
            2 if below > 0 && self.dead && role == Role::Glyph => [vec![end], call(g)].concat(),
            3 => vec![140, 22, end],
            _ => vec![end],
        }
    }

    /// The charstrings; those of many glyphs are taken from some.
    fn charstrings(&self, g: &mut Generator, glyphs: usize) -> Vec<Vec<u8>> {
        let count = glyphs.min(BODIES);
        let mut some: Vec<Vec<u8>> = (0..count).map(|_| self.body(g, Role::Glyph, 0)).collect();
        if glyphs <= BODIES {
            return some;
        }
        // Stems and masks.
        for k in (0..BODIES).step_by(MASKED) {
            let stems = 1 + g.below(9);
            let mask = g.bytes(stems.div_ceil(8));
            let masked = [vec![139; 2 * stems], vec![1, 19], mask, some[k].clone()];
            some[k] = masked.concat();
        }
        (0..glyphs).map(|_| some[g.below(BODIES)].clone()).collect()
    }
}

/// A font of so many glyphs without a fault.
fn font(g: &mut Generator, cid_keyed: bool, order: &str, glyphs: usize) -> Vec<u8> {
    let bodies = Bodies::new(g, glyphs);
    let named = glyphs + g.below(4);
    let own = if cid_keyed { g.below(3) } else { named };
    let strings = strings(g, own);
    let largest = match cid_keyed {
        true => LARGEST_CID,
        false => (STANDARD_STRINGS.len() - 1 + own).min(LARGEST_ID),
    };
    let ids = ids(g, order, glyphs - 1, largest);
    let fds = if cid_keyed {
        g.one_of(&[1, 2, 3, 5, 256])
    } else {
        1
    };
    let coding = (!cid_keyed && g.below(3) > 0).then(|| encoding(g, glyphs - 1, &ids));

    let mut top = texts(g, own);
    let mut layout = Layout::default();
    layout.add(Part::Bytes(vec![1, 0, 4, 1]));
    layout.add(index(vec![b"Made".to_vec()]));
    let tops = layout.add(Part::Bytes(Vec::new()));
    layout.add(index(strings));
    let globals = (0..bodies.plan.globals).map(|k| bodies.body(g, Role::Global, k));
    let globals = index(globals.collect());
    layout.add(globals);
    let at = layout.add(index(bodies.charstrings(g, glyphs)));
    top.push(entry(vec![place(at)], &[17]));
    let at = layout.add(Part::Bytes(charset(g.below(3) as u8, &ids)));
    top.push(entry(vec![place(at)], &[15]));
    if let Some(coding) = coding {
        let at = layout.add(Part::Bytes(coding));
        top.push(entry(vec![place(at)], &[16]));
    }
    let mut privates: Vec<Entry> = (0..fds).map(|_| private(g, &mut layout, bodies)).collect();
    if cid_keyed {
        let dicts = privates.into_iter().map(|p| Part::Dict(vec![p])).collect();
        let at = layout.add(Part::Index(SOUND, dicts));
        top.push(entry(vec![place(at)], &[12, 36]));
        let each = fd_of_each(g, glyphs, fds);
        let at = layout.add(Part::Bytes(select(g.one_of(&[0, 3]), &each)));
        top.push(entry(vec![place(at)], &[12, 37]));
        let text = |g: &mut Generator| number(g.below(STANDARD_STRINGS.len() + own));
        let ros = vec![text(g), text(g), number(0)];
        top.insert(0, entry(ros, &[12, 30]));
    } else {
        top.append(&mut privates);
    }
    layout.parts[tops] = Part::Index(SOUND, vec![Part::Dict(top)]);
    layout.bytes()
}

/// A Private DICT with its local subroutines; the entry that names it.
fn private(g: &mut Generator, layout: &mut Layout, bodies: Bodies) -> Entry {
    let locals = (0..bodies.plan.locals).map(|k| bodies.body(g, Role::Local, k));
    let locals = index(locals.collect());
    let dict = layout.add(Part::Bytes(Vec::new()));
    if bodies.plan.locals > 0 {
        let at = layout.add(locals);
        let distance = Num::Distance(dict, at, Form::Shortest);
        layout.parts[dict] = Part::Dict(vec![entry(vec![distance], &[19])]);
    }
    let operands = vec![Num::Length(dict, 0, Form::Shortest), place(dict)];
    entry(operands, &[18])
}
