//! Large fonts to cut, a list of its own: refusals 10 and 12 at their edges, and the steps of the bias.

use crate::cases::Case;
use crate::cff::CffProgram;
use crate::cut::{self, Cut, Outcome};
use crate::cut_compare::Opened;
use crate::cut_records;
use crate::fonts;
use crate::generator::Generator;
use crate::layout::{Num, Part, SOUND, entry, one_font, place};
use crate::model::LONGEST;
use crate::names;
use crate::numbers::Form;

/// A name-keyed font of `own` glyphs with names of their own, beside glyph 0.
pub fn own_names(own: usize) -> Vec<u8> {
    // Of many lengths: the original compares each with all before it.
    let texts: Vec<Vec<u8>> = (0..own)
        .map(|k| {
            let mut text = vec![0xff; 1 + k % 61];
            text.extend_from_slice(&(k as u16).to_be_bytes());
            text
        })
        .collect();
    names::font(&texts)
}

/// Counts of subroutines at which a word of bits, or the bias, begins or ends (document 02, Wish 7).
const EDGES: [usize; 10] = [0, 1, 31, 32, 33, 1239, 1240, 33_899, 33_900, 65_535];

/// A font with so many subroutines, of a keying: those of a CID-keyed one have several FDs.
fn keyed(g: &mut Generator, globals: usize, locals: usize, cid_keyed: bool) -> Vec<u8> {
    loop {
        let font = fonts::make_biased(g, globals, locals);
        let read = CffProgram::parse(&font);
        if read.is_ok_and(|program| program.is_cid_keyed() == cid_keyed) {
            return font;
        }
    }
}

/// How many glyphs share a name or have the last one.
const SHARED: usize = 20_000;

/// How many names of one hash differ; three more stand twice.
const ALIKE: u16 = 3000;

/// A name-keyed font with names that share one hash, the last three of which are those of glyphs 1, 1,500 and 3,000.
fn alike_names() -> Vec<u8> {
    let mut texts = names::alike(usize::from(ALIKE));
    for glyph in [1, ALIKE / 2, ALIKE] {
        texts.push(texts[usize::from(glyph) - 1].clone());
    }
    names::font(&texts)
}

/// A CID-keyed font of `fds` glyphs, each with an FD of its own; the FDs share a Private with one subroutine of `length`
/// bytes, which a subset of all has once for each.
pub fn shared(fds: usize, length: usize) -> Vec<u8> {
    shared_by(fds, length, &[14])
}

/// The same with another charstring for each glyph.
pub fn shared_by(fds: usize, length: usize, charstring: &[u8]) -> Vec<u8> {
    let zero = Num::Bytes(vec![139]);
    let top = vec![
        entry(vec![zero.clone(), zero.clone(), zero], &[12, 30]),
        entry(vec![place(5)], &[17]),
        entry(vec![place(6)], &[12, 36]),
        entry(vec![place(7)], &[12, 37]),
    ];
    let private = vec![Num::Length(8, 0, Form::Shortest), place(8)];
    let fd = Part::Dict(vec![entry(private, &[18])]);
    let select: Vec<u8> = [0].into_iter().chain((0..fds).map(|k| k as u8)).collect();
    let subrs = entry(vec![Num::Distance(8, 9, Form::Shortest)], &[19]);
    one_font(
        top,
        Vec::new(),
        vec![
            Part::Index(SOUND, vec![Part::Bytes(charstring.to_vec()); fds]),
            Part::Index(SOUND, vec![fd; fds]),
            Part::Bytes(select),
            Part::Dict(vec![subrs]),
            Part::Index(SOUND, vec![Part::Bytes(vec![11; length])]),
        ],
    )
}

/// What is asked of a large font.
pub type Ask = fn(&mut Generator, &Opened<'_>) -> Vec<Cut>;

/// The fonts, each with what is asked.
pub fn fonts(seed: u64) -> Vec<(Case, Ask)> {
    let mut g = Generator::new(seed);
    let mut list: Vec<(&'static str, Vec<u8>, Ask)> = vec![
        ("64,610 own strings", own_names(64_610), all_but_last),
        ("names of one hash", alike_names(), with_repeats),
        ("one long name", names::shared(SHARED), first_and_last),
        (
            "subset of 67,108,864 bytes",
            shared(250, 268_250),
            around_longest,
        ),
    ];
    for (globals, locals) in [
        (1239, 1240),
        (1240, 1239),
        (33_899, 3),
        (33_900, 1241),
        (2, 33_900),
    ] {
        list.push((
            "steps of the bias",
            fonts::make_biased(&mut g, globals, locals),
            some,
        ));
    }
    for count in EDGES {
        for (globals, locals) in [(count, 5), (5, count), (count, count)] {
            for cid_keyed in [false, true] {
                let font = keyed(&mut g, globals, locals, cid_keyed);
                list.push(("words of bits", font, some));
            }
        }
    }
    list.into_iter()
        .enumerate()
        .map(|(number, (state, font, ask))| {
            let case = Case {
                number,
                kind: "large",
                state,
                font,
                file: "large".to_string(),
            };
            (case, ask)
        })
        .collect()
}

fn copied(cid_keyed: bool, name: Vec<u8>, keep: Vec<u16>) -> Cut {
    Cut {
        cid_keyed,
        name,
        keep,
        record: Vec::new(),
        flag: 0,
        record_kind: "flag 0",
        encoding: 0,
    }
}

/// All glyphs, 64,610 new string ids, and all but the last one, 64,609.
fn all_but_last(_: &mut Generator, _: &Opened<'_>) -> Vec<Cut> {
    [64_610, 64_609]
        .map(|last| copied(false, vec![b'B'], (1..=last).collect()))
        .to_vec()
}

/// The first and the last glyph, which are found, and one between them, which is not.
fn first_and_last(_: &mut Generator, _: &Opened<'_>) -> Vec<Cut> {
    let last = SHARED as u16;
    [vec![1, last], vec![1, 2, last], vec![last - 1]]
        .map(|keep| copied(false, vec![b'A'], keep))
        .to_vec()
}

/// All glyphs whose names differ, each of the others with them and alone, and some at random with and without one of these.
fn with_repeats(g: &mut Generator, _: &Opened<'_>) -> Vec<Cut> {
    let differ: Vec<u16> = (1..=ALIKE).collect();
    let mut keeps = vec![differ.clone()];
    for repeat in ALIKE + 1..=ALIKE + 3 {
        keeps.push([&differ[..], &[repeat]].concat());
        keeps.push(vec![repeat]);
        let some: Vec<u16> = differ.iter().copied().filter(|_| g.once_in(3)).collect();
        keeps.push([&some[..], &[repeat]].concat());
        keeps.push(some);
    }
    let cut = |keep| copied(false, vec![b'A'], keep);
    keeps.into_iter().map(cut).collect()
}

/// All glyphs, with names so long that the subset has the most bytes there may be, and one more, and some more.
fn around_longest(_: &mut Generator, opened: &Opened<'_>) -> Vec<Cut> {
    let keep: Vec<u16> = opened
        .read
        .map_or(Vec::new(), |f| (0..f.charset.len() as u16).collect());
    // From 256 bytes on a name's length is all that it adds.
    let with = |n: usize| copied(true, vec![b'C'; n], keep.clone());
    let probe = with(300);
    let Outcome::Ready(_, Ok(subset)) = cut::cut(opened.bytes, opened.read, opened.program, &probe)
    else {
        return vec![probe];
    };
    let most = LONGEST - (subset.bytes.len() - 300);
    vec![with(most), with(most + 1), with(65_535)]
}

/// Few glyphs and all, with every subroutine in the record and with the original's record.
fn some(g: &mut Generator, opened: &Opened<'_>) -> Vec<Cut> {
    let (Ok(font), Some(program)) = (opened.read, opened.program) else {
        return Vec::new();
    };
    let found: Vec<u16> = (0..font.charset.len() as u16)
        .filter(|&k| cut::found(opened.bytes, font, program, k))
        .collect();
    let mut cuts = Vec::new();
    for _ in 0..12 {
        let keep = if g.once_in(2) {
            found.clone()
        } else {
            vec![found[g.below(found.len())]]
        };
        let kept = cut::glyphs(&keep);
        let record = if g.once_in(3) {
            cut_records::own(program, &kept)
        } else {
            cut_records::many(g, program, &kept)
        };
        cuts.push(Cut {
            cid_keyed: font.cid_keyed,
            name: vec![b'D'],
            keep,
            record: record.bytes,
            flag: record.flag,
            record_kind: record.kind,
            encoding: 0,
        });
    }
    cuts
}
