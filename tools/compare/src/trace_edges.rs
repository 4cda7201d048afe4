//! Fonts at the edges of document 01's 'Plain glyphs': each operator, each limit and one past it, each way to call and to end.

use crate::cases::Case;
use crate::cff::charstring::bias;
use crate::fonts;
use crate::generator::Generator;
use crate::layout::{Layout, Num, Part, SOUND, entry, place};
use crate::numbers::Form;

/// Charstrings and subroutines; glyphs have the FDs in turn.
pub struct Bodies {
    pub glyphs: Vec<Vec<u8>>,
    pub globals: Vec<Vec<u8>>,
    /// Of each FD.
    pub locals: Vec<Vec<Vec<u8>>>,
}

fn index(items: &[Vec<u8>]) -> Part {
    Part::Index(SOUND, items.iter().cloned().map(Part::Bytes).collect())
}

/// The entry of a Private that is this part.
fn private(part: usize) -> crate::layout::Entry {
    entry(
        vec![Num::Length(part, 0, Form::Shortest), place(part)],
        &[18],
    )
}

impl Bodies {
    /// A name-keyed font, with the locals of FD 0, or a CID-keyed one. Glyph k has string id or CID k.
    pub fn font(&self, cid_keyed: bool) -> Vec<u8> {
        let zero = Num::Bytes(vec![139]);
        let mut top = vec![entry(vec![place(5)], &[17])];
        let first = if cid_keyed {
            top.insert(0, entry(vec![zero.clone(), zero.clone(), zero], &[12, 30]));
            top.push(entry(vec![place(6)], &[12, 36]));
            top.push(entry(vec![place(7)], &[12, 37]));
            8
        } else {
            top.push(private(6));
            6
        };
        let fds = if cid_keyed { self.locals.len() } else { 1 };
        let mut layout = Layout::default();
        layout.add(Part::Bytes(vec![1, 0, 4, 1]));
        layout.add(index(&[b"A".to_vec()]));
        layout.add(Part::Index(SOUND, vec![Part::Dict(top)]));
        layout.add(index(&[]));
        layout.add(index(&self.globals));
        layout.add(index(&self.glyphs));
        if cid_keyed {
            let dict = |k: usize| Part::Dict(vec![private(first + 2 * k)]);
            layout.add(Part::Index(SOUND, (0..fds).map(dict).collect()));
            let select = (0..self.glyphs.len()).map(|k| (k % fds) as u8);
            layout.add(Part::Bytes([0].into_iter().chain(select).collect()));
        }
        for (k, locals) in self.locals.iter().take(fds).enumerate() {
            let at = first + 2 * k;
            let distance = Num::Distance(at, at + 1, Form::Shortest);
            layout.add(Part::Dict(vec![entry(vec![distance], &[19])]));
            layout.add(index(locals));
        }
        layout.bytes()
    }
}

/// A whole number in two bytes behind 28.
fn short(value: i32) -> Vec<u8> {
    let value = value as i16;
    [&[28], &value.to_be_bytes()[..]].concat()
}

/// A call of a subroutine of so many.
fn call(operator: u8, target: usize, count: usize) -> Vec<u8> {
    [short(target as i32 - bias(count)), vec![operator]].concat()
}

/// So many operands.
fn zeros(n: usize) -> Vec<u8> {
    vec![139; n]
}

/// Subroutines of each kind, for the edges.
const COUNT: usize = 400;
/// The first of these call each other in a chain.
const CHAIN: usize = 13;

/// What subroutines do, behind the chain.
fn endings() -> Vec<Vec<u8>> {
    vec![
        vec![14],
        Vec::new(),
        zeros(1),
        vec![139, 11, 0, 0],
        vec![139, 14, 0],
        vec![139, 139, 14],
        [vec![19], vec![11; 14]].concat(),
        [vec![1, 20], vec![11; 14]].concat(),
        // A mask with one operand, which counts as none.
        [vec![139, 20], vec![11; 14]].concat(),
        // Operands of the caller's.
        vec![10, 11],
        vec![29, 11],
        [zeros(47), vec![11]].concat(),
        [zeros(48), vec![11]].concat(),
        [zeros(49), vec![11]].concat(),
        vec![12],
        vec![12, 34],
        vec![12, 35, 11],
        vec![28, 0],
        vec![139, 22, 10, 11],
        [zeros(48), vec![1, 11]].concat(),
        [zeros(48), vec![1, 11, 19, 0]].concat(),
        // Stems, a mask at the end of the body, one byte short and not.
        [zeros(34), vec![23, 19, 1, 2]].concat(),
        [zeros(34), vec![23, 19, 1, 2, 3]].concat(),
        [zeros(34), vec![23, 19, 1, 2, 3, 11]].concat(),
        [zeros(34), vec![23, 19, 1, 2, 3, 14]].concat(),
    ]
}

/// Subroutines: the chain of calls by this operator, what there is behind it, and returns.
fn subroutines(operator: u8) -> Vec<Vec<u8>> {
    let mut list = vec![vec![11]];
    for k in 1..CHAIN {
        list.push([call(operator, k - 1, COUNT), vec![11]].concat());
    }
    list.extend(endings());
    list.resize(COUNT, vec![11]);
    list
}

/// Glyphs at the edges.
fn glyphs() -> Vec<Vec<u8>> {
    let mut all: Vec<Vec<u8>> = vec![Vec::new(), vec![14], vec![11], vec![139]];
    for b in 0..=255 {
        all.push(vec![b, 14]);
        all.push(vec![139, 139, b, 14, 14, 14, 14]);
        all.push(vec![139, 12, b, 14]);
        // Before a call, in the place of its operand.
        all.push([vec![b], call(10, 0, COUNT), vec![14]].concat());
        all.push([call(10, 0, COUNT)[..3].to_vec(), vec![b, 10, 14]].concat());
    }
    for n in [0, 1, 2, 3, 4, 5, 47, 48, 49] {
        all.push([zeros(n), vec![14]].concat());
        all.push([zeros(n), vec![21, 14]].concat());
        all.push([zeros(n), vec![12, 36, 14]].concat());
        for operator in [10, 29] {
            let called = call(operator, 0, COUNT);
            all.push([zeros(n), called.clone(), vec![21, 14]].concat());
            all.push([zeros(n), called.clone(), called, vec![21, 14]].concat());
        }
    }
    for operator in [10, 29] {
        for target in 0..CHAIN + endings().len() {
            let called = call(operator, target, COUNT);
            all.push([called.clone(), vec![14]].concat());
            all.push([called.clone(), vec![14, 0]].concat());
            all.push(called.clone());
            all.push([zeros(1), called.clone(), vec![14]].concat());
            all.push([called.clone(), called.clone(), vec![14]].concat());
            // Two deep chains, one after the other.
            all.push([call(29, 9, COUNT), vec![22], called.clone(), vec![14]].concat());
            for stems in [1, 8, 9, 20, 72, 73, 95, 96] {
                all.push([stem(stems), called.clone(), vec![19], vec![5; 12], vec![14]].concat());
            }
        }
        for forms in operands() {
            all.push([forms.clone(), vec![operator, 14]].concat());
        }
    }
    for n in [0, 1, 7, 8, 9, 15, 16, 17, 24, 88, 89, 95, 96, 97, 98, 120] {
        let length = usize::div_ceil(n, 8);
        for mask in [19, 20] {
            all.push([stem(n), vec![mask], vec![255; length], vec![14]].concat());
            all.push([stem(n), zeros(2), vec![mask], vec![1; 14]].concat());
            all.push([stem(n), zeros(3), vec![mask], vec![14; 16]].concat());
            all.push([stem(n), vec![mask], vec![14; length]].concat());
            all.push([stem(n), vec![mask], vec![14; length.saturating_sub(1)]].concat());
            // Twice, and a call behind it.
            let masked = [vec![mask], vec![9; length]].concat();
            all.push([stem(n), masked.clone(), masked.clone(), vec![14]].concat());
            all.push([stem(n), masked.clone(), vec![10, 14]].concat());
            all.push([stem(n), masked, call(10, 0, COUNT), vec![14]].concat());
        }
        for operator in [1, 3, 18, 23] {
            all.push([stem(n), zeros(2), vec![operator, 14]].concat());
        }
    }
    all
}

/// So many stems, of at most 24 an operator.
fn stem(stems: usize) -> Vec<u8> {
    let mut out = Vec::new();
    let mut left = stems;
    while left > 0 {
        let n = left.min(24);
        out.extend(zeros(2 * n));
        out.push([1, 3, 18, 23][left % 4]);
        left -= n;
    }
    out
}

/// Operands of calls: at the ends of the subroutines, with fractions, and such as are whole by their reading alone.
fn operands() -> Vec<Vec<u8>> {
    let mut all = Vec::new();
    for target in [-1, 0, 1, 106, 107, 108, 399, 400, 401] {
        let value = target - bias(COUNT);
        all.push(short(value));
        all.push([vec![255], (value << 16).to_be_bytes().to_vec()].concat());
        for low in [1_i32, 0x8000, 0xffff, -1] {
            all.push([vec![255], ((value << 16) + low).to_be_bytes().to_vec()].concat());
        }
    }
    for high in [255_i32, 256, 257, 291, 292, 293] {
        for low in [0_i32, 1, 2, 0x7fff, 0x8000, 0xfffe, 0xffff] {
            let value = (high << 16) + low;
            all.push([vec![255], value.to_be_bytes().to_vec()].concat());
            all.push([vec![255], (-value).to_be_bytes().to_vec()].concat());
        }
    }
    all.extend([vec![247, 0], vec![251, 0], vec![28, 0x80, 0], vec![139, 22]]);
    all
}

/// The most glyphs of a font whose glyphs all have names.
const NAMED: usize = 390;

/// Glyphs in fonts of either keying, behind a glyph 0 of their own.
fn split(glyphs: &[Vec<u8>], globals: &[Vec<u8>], locals: &[Vec<Vec<u8>>]) -> Vec<Vec<u8>> {
    let mut all = Vec::new();
    for cid_keyed in [false, true] {
        for glyphs in glyphs.chunks(NAMED - 1) {
            let bodies = Bodies {
                glyphs: [&[vec![14]], glyphs].concat(),
                globals: globals.to_vec(),
                locals: locals.to_vec(),
            };
            all.push(bodies.font(cid_keyed));
        }
    }
    all
}

/// Glyphs around 65,536 tokens and calls together, and short ones that come to as many by their subroutines.
fn long() -> Vec<Vec<u8>> {
    let pairs = |n: usize| [139, 22].repeat(n);
    let called = call(10, 0, 3);
    let long = call(10, 1, 3);
    let ten = call(10, 2, 3);
    let subroutines = vec![
        vec![11],
        // With its call, 32,001.
        [pairs(16_000), vec![11]].concat(),
        // With its call, 11.
        [called.repeat(10), vec![11]].concat(),
    ];
    let mut glyphs = vec![vec![14]];
    for n in [65_534, 65_535, 65_536] {
        glyphs.push([vec![22; n], vec![14]].concat());
        glyphs.push([called.repeat(n), vec![14]].concat());
        glyphs.push([ten.repeat(5957), vec![22; n - 65_527], vec![14]].concat());
        let rest = n - 64_002;
        glyphs.push([long.repeat(2), vec![22; rest], vec![14]].concat());
        glyphs.push([long.repeat(2), called.repeat(rest), vec![14]].concat());
        glyphs.push([long.repeat(2), called.repeat(rest), vec![139, 14]].concat());
    }
    for n in [32_766, 32_767, 32_768] {
        glyphs.push([pairs(n), vec![14]].concat());
        glyphs.push([pairs(n), vec![139, 14]].concat());
        glyphs.push([pairs(n), called.clone(), vec![14]].concat());
    }
    let bodies = Bodies {
        glyphs,
        globals: Vec::new(),
        locals: vec![subroutines],
    };
    [false, true]
        .map(|cid_keyed| bodies.font(cid_keyed))
        .to_vec()
}

/// Calls around the ends of so many subroutines of each kind.
fn steps(globals: usize, locals: usize) -> Vec<u8> {
    let mut glyphs = vec![vec![14]];
    for (operator, count) in [(29, globals), (10, locals)] {
        let ends = [-1, 0, 1, 107, 1131, 32_768].map(|k| k - 1..=k + 1);
        let last = count as i32;
        for target in ends.into_iter().flatten().chain(last - 2..=last + 1) {
            let value = target - bias(count);
            for bytes in [
                short(value),
                [vec![255], value.wrapping_shl(16).to_be_bytes().to_vec()].concat(),
            ] {
                glyphs.push([bytes, vec![operator, 14]].concat());
            }
        }
    }
    let bodies = Bodies {
        glyphs,
        globals: vec![vec![11]; globals],
        locals: vec![vec![vec![11]; locals]],
    };
    bodies.font(false)
}

/// 256 FDs, each with a mask in its subroutine, and a global subroutine that calls the local one.
fn all_fds() -> Vec<u8> {
    let called = call(10, 0, 1);
    let local = |k: usize| vec![[vec![19], vec![11; 3 + k % 4]].concat()];
    let glyph = |k: usize| {
        let subroutine = if k % 2 == 0 {
            called.clone()
        } else {
            call(29, 0, 1)
        };
        [stem(1 + k % 20), subroutine, vec![14]].concat()
    };
    let bodies = Bodies {
        glyphs: (0..600).map(glyph).collect(),
        globals: vec![[called.clone(), vec![11]].concat()],
        locals: (0..256).map(local).collect(),
    };
    bodies.font(true)
}

/// A CID-keyed font of so many glyphs that each call a subroutine of 65,530 tokens.
pub fn tokens(glyphs: usize) -> Vec<u8> {
    let body = [[139, 22].repeat(32_765), vec![11]].concat();
    calling(glyphs, vec![body])
}

/// The same with a subroutine of 65,530 calls.
pub fn calls(glyphs: usize) -> Vec<u8> {
    let body = [[33, 10].repeat(65_530), vec![11]].concat();
    calling(glyphs, vec![body, vec![11]])
}

/// A CID-keyed font of `count` subroutines of `masks` masks each, which have no stems and no bytes; glyphs call them from the last to
/// the first, so that the rows fall.
pub fn falling(count: usize, masks: usize) -> Vec<u8> {
    masked((0..count).rev().collect(), masks)
}

/// The same from the first to the last, so that the rows rise.
pub fn rising(count: usize, masks: usize) -> Vec<u8> {
    masked((0..count).collect(), masks)
}

fn masked(numbers: Vec<usize>, masks: usize) -> Vec<u8> {
    let count = numbers.len();
    let every = (65_000 / (masks + 1)).max(1);
    let glyph = |numbers: &[usize]| {
        let calls: Vec<u8> = numbers.iter().flat_map(|&k| call(10, k, count)).collect();
        [calls, vec![14]].concat()
    };
    let bodies = Bodies {
        glyphs: numbers.chunks(every).map(glyph).collect(),
        globals: Vec::new(),
        locals: vec![vec![[vec![19; masks], vec![11]].concat(); count]],
    };
    bodies.font(true)
}

fn calling(glyphs: usize, locals: Vec<Vec<u8>>) -> Vec<u8> {
    let bodies = Bodies {
        glyphs: vec![vec![32, 10, 14]; glyphs],
        globals: Vec::new(),
        locals: vec![locals],
    };
    bodies.font(true)
}

/// The fonts.
pub fn fonts(seed: u64) -> Vec<Case> {
    let local = subroutines(10);
    let mut list: Vec<(&'static str, Vec<u8>)> = Vec::new();
    let fds = [local.clone(), subroutines(29), local[..200].to_vec()];
    let globals = [subroutines(10), subroutines(29)];
    for globals in globals {
        for font in split(&glyphs(), &globals, &fds) {
            list.push(("operators, calls, stems and masks", font));
        }
    }
    list.extend(
        long()
            .into_iter()
            .map(|font| ("65,536 tokens and calls", font)),
    );
    list.push(("256 FDs", all_fds()));
    for (globals, locals) in [
        (1239, 1240),
        (1240, 1239),
        (33_899, 33_900),
        (33_900, 33_899),
        (65_535, 0),
        (0, 65_535),
    ] {
        list.push(("steps of the bias", steps(globals, locals)));
    }
    let mut g = Generator::new(seed);
    for (globals, locals) in [(1239, 1240), (33_900, 1241), (2, 33_900)] {
        let font = fonts::make_biased(&mut g, globals, locals);
        list.push(("made at the steps of the bias", font));
    }
    list.into_iter()
        .enumerate()
        .map(|(number, (state, font))| Case {
            number,
            kind: "edges",
            state,
            font,
            file: "edges".to_string(),
        })
        .collect()
}
