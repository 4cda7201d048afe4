//! Fonts in which some glyphs cost the small file: by dead code, by a subroutine that they enter, by a mask of two lengths, by a
//! global subroutine that calls a local one where two FDs are in use.

use crate::cff::charstring::bias;
use crate::generator::Generator;
use crate::trace_edges::Bodies;

/// A font and what was made.
pub struct Made {
    pub kind: &'static str,
    pub bytes: Vec<u8>,
}

const KINDS: [&str; 8] = [
    "one culprit",
    "two culprits",
    "one in a subroutine",
    "two FDs, a global that calls a local",
    "second lengths through two glyphs",
    "dead code that calls what another glyph reached",
    "any of these",
    "any of these, some not plain",
];

/// What a glyph does.
#[derive(Clone, Copy)]
enum Does {
    Ends,
    Enters(u8, usize),
    /// Enters, and has dead code that calls.
    EntersAnd(u8, usize, u8, usize),
    Dead(u8, usize),
    /// Declares so many stems and enters the local subroutine with a mask.
    Masks(usize),
    IsNotPlain,
}

const LOCAL: u8 = 10;
const GLOBAL: u8 = 29;
/// Of local subroutines, in each FD: one that returns, one with a mask, one with dead code, one that calls the first, and one.
const LOCALS: usize = 5;
/// Of global ones: one that returns, one that calls local 0, one with dead code, and one.
const GLOBALS: usize = 4;

fn call(operator: u8, target: usize) -> Vec<u8> {
    let count = if operator == LOCAL { LOCALS } else { GLOBALS };
    let operand = (target as i32 - bias(count)) as i16;
    [&[28], &operand.to_be_bytes()[..], &[operator]].concat()
}

fn body(does: Does) -> Vec<u8> {
    match does {
        Does::Ends => vec![14],
        Does::Enters(kind, k) => [call(kind, k), vec![14]].concat(),
        Does::EntersAnd(kind, k, dead, l) => [call(kind, k), vec![14], call(dead, l)].concat(),
        Does::Dead(kind, k) => [vec![14], call(kind, k)].concat(),
        Does::Masks(stems) => [vec![139; 2 * stems], vec![1], call(LOCAL, 1), vec![14]].concat(),
        Does::IsNotPlain => vec![139],
    }
}

fn locals() -> Vec<Vec<u8>> {
    vec![
        vec![11],
        [vec![19], vec![11; 14]].concat(),
        [vec![11], call(LOCAL, 4)].concat(),
        [call(LOCAL, 0), vec![11]].concat(),
        vec![139, 22, 11],
    ]
}

fn globals() -> Vec<Vec<u8>> {
    vec![
        vec![11],
        [call(LOCAL, 0), vec![11]].concat(),
        [vec![11], call(GLOBAL, 3)].concat(),
        vec![139, 22, 11],
    ]
}

/// Any of what glyphs do.
fn any(g: &mut Generator, plain: bool) -> Does {
    match g.below(if plain { 10 } else { 11 }) {
        0..=2 => Does::Ends,
        3 => Does::Enters(LOCAL, g.below(LOCALS)),
        4 => Does::Enters(GLOBAL, g.below(GLOBALS)),
        5 => Does::Dead(LOCAL, g.below(LOCALS + 2)),
        6 => Does::Dead(GLOBAL, g.below(GLOBALS + 2)),
        7 => Does::Masks(g.one_of(&[1, 8, 9])),
        8 => Does::EntersAnd(LOCAL, g.below(LOCALS), LOCAL, g.below(LOCALS)),
        9 => Does::EntersAnd(GLOBAL, g.below(GLOBALS), LOCAL, g.below(LOCALS)),
        _ => Does::IsNotPlain,
    }
}

/// What the glyphs of a kind of font do, among others that only end.
fn glyphs(g: &mut Generator, kind: &str) -> Vec<Does> {
    let mut list = vec![Does::Ends; 1 + g.below(5)];
    let dead = |g: &mut Generator| Does::Dead(LOCAL, g.one_of(&[1, 4, 7]));
    match kind {
        "one culprit" => list.push(dead(g)),
        "two culprits" => {
            list.push(dead(g));
            list.push(dead(g));
        }
        "one in a subroutine" => {
            let (kind, k) = g.one_of(&[(LOCAL, 2), (GLOBAL, 2)]);
            for _ in 0..1 + g.below(2) {
                list.push(Does::Enters(kind, k));
            }
            list.push(Does::Enters(LOCAL, 3));
        }
        "two FDs, a global that calls a local" => {
            list.push(Does::Enters(GLOBAL, 1));
            list.push(Does::Enters(LOCAL, g.below(2) * 3));
        }
        "second lengths through two glyphs" => {
            list.push(Does::Masks(8));
            list.push(Does::Masks(9));
            if g.once_in(3) {
                list.push(Does::Masks(g.one_of(&[1, 16, 17])));
            }
        }
        "dead code that calls what another glyph reached" => {
            let k = g.one_of(&[0, 3, 4]);
            list.push(Does::Dead(LOCAL, k));
            list.push(Does::Enters(LOCAL, k));
            if g.once_in(2) {
                list.push(dead(g));
            }
        }
        _ => {
            let plain = kind == "any of these";
            list = (0..2 + g.below(7)).map(|_| any(g, plain)).collect();
        }
    }
    // In any order, now and then glyph 0 too.
    let from = usize::from(!g.once_in(6));
    for k in (from + 1..list.len()).rev() {
        let l = from + g.below(k + 1 - from);
        list.swap(k, l);
    }
    list
}

/// Fonts of each kind in turn, name-keyed, or CID-keyed with one to three FDs.
pub fn fonts(seed: u64) -> impl Iterator<Item = Made> {
    let mut g = Generator::new(seed ^ 0x6b1d_7e35_90c2_aa17);
    (0..).map(move |number: usize| {
        let kind = KINDS[number % KINDS.len()];
        let bodies = Bodies {
            glyphs: glyphs(&mut g, kind).into_iter().map(body).collect(),
            globals: globals(),
            locals: vec![locals(); 1 + g.below(3)],
        };
        let cid_keyed = kind == KINDS[3] || g.once_in(2);
        let bytes = bodies.font(cid_keyed);
        Made { kind, bytes }
    })
}

/// A CID-keyed font whose glyphs each enter a subroutine; these cost the small file.
pub fn culprits(glyphs: usize, culprits: &[usize]) -> Vec<u8> {
    let mut all = vec![body(Does::Enters(LOCAL, 3)); glyphs];
    for &k in culprits {
        all[k] = body(Does::Dead(LOCAL, 4));
    }
    let bodies = Bodies {
        glyphs: all,
        globals: globals(),
        locals: vec![locals()],
    };
    bodies.font(true)
}
