//! Tests of the model of encodings: document 02, Wish 4, edge by edge, and the two tables.

use crate::cff::STANDARD_STRINGS;
use crate::cut::{self, Cut, Outcome, Subset};
use crate::cut_cases;
use crate::cut_model_codes::{self as codes, By};
use crate::cut_tally::CutTally;
use crate::domain::{NONE, WISHES, Wishes};
use crate::encoding::STANDARD_ENCODING;
use crate::encoding_compare::{self, Notes};
use crate::layout::{Num, Part, SOUND, entry, one_font, place};
use crate::library::{Library, SubsetFn};
use crate::model::{self, EXPERT, STANDARD};
use crate::{original, stub};

/// The Encoding of a font that is tried.
#[derive(Clone, Copy)]
enum Given<'a> {
    Number(u8),
    Bytes(&'a [u8]),
}

/// A font of glyphs with these string ids, after glyph 0, with these strings and encoding.
fn font(ids: &[u16], strings: &[&[u8]], encoding: Given<'_>) -> Vec<u8> {
    let mut charset = vec![0];
    charset.extend(ids.iter().flat_map(|id| id.to_be_bytes()));
    let bodies = Part::Index(SOUND, vec![Part::Bytes(vec![14]); ids.len() + 1]);
    let (operand, bytes) = match encoding {
        Given::Number(n) => (Num::Bytes(vec![139 + n]), Vec::new()),
        Given::Bytes(bytes) => (place(7), bytes.to_vec()),
    };
    let top = vec![
        entry(vec![place(5)], &[17]),
        entry(vec![place(6)], &[15]),
        entry(vec![operand], &[16]),
    ];
    let strings = strings.iter().map(|s| Part::Bytes(s.to_vec())).collect();
    one_font(
        top,
        strings,
        vec![bodies, Part::Bytes(charset), Part::Bytes(bytes)],
    )
}

fn answer(font: &[u8], keep: &[u16], encoding: u8, wishes: Wishes) -> Result<Subset, u8> {
    let reading = model::read(font, wishes);
    let program = match original::read(font) {
        original::Outcome::Program(program) => Some(program),
        _ => None,
    };
    let cut = Cut {
        cid_keyed: false,
        name: b"A".to_vec(),
        keep: keep.to_vec(),
        record: Vec::new(),
        flag: 1,
        record_kind: "no rows",
        encoding,
    };
    let read = reading.font.as_ref().map_err(|r| r.number);
    match cut::by_model(font, read, program.as_ref(), &cut, wishes) {
        Outcome::Early(number) => Err(number),
        Outcome::Ready(_, subset) => subset,
        Outcome::Panicked(message) => panic!("{message}"),
    }
}

/// The glyph of each code, the Expert encoding being read.
fn glyphs(font: &[u8], by: By) -> Vec<Option<u16>> {
    let reading = model::read(font, WISHES).font;
    codes::of(font, &reading.expect("a font"), by)
}

/// The pairs of a subset: what stands behind its charset, up to the charstrings.
fn pairs(font: &[u8], keep: &[u16]) -> Vec<u8> {
    let subset = answer(font, keep, 1, WISHES).expect("a subset").bytes;
    let read = model::read(&subset, WISHES).font.expect("a font");
    let at = read.encoding as usize;
    let count = usize::from(subset[at + 2]);
    subset[at..at + 3 + 3 * count].to_vec()
}

#[test]
fn the_tables() {
    let standard = codes::predefined(STANDARD);
    for (code, name) in STANDARD_ENCODING.iter().enumerate() {
        let id = usize::from(standard[code]);
        assert_eq!(
            name.unwrap_or(".notdef"),
            STANDARD_STRINGS[id],
            "code {code}"
        );
    }
    // TN5176: the Standard Encoding has ids 1 to 149 in the order of codes, and the Expert one those of the Expert charset.
    let given: Vec<u16> = standard.into_iter().filter(|&id| id != 0).collect();
    assert_eq!(given, (1..=149).collect::<Vec<u16>>());
    let expert: Vec<u16> = codes::predefined(EXPERT)
        .into_iter()
        .filter(|&id| id != 0)
        .collect();
    assert_eq!(expert.len(), 165);
    let charset: Vec<u16> = [1, 229, 230, 231]
        .into_iter()
        .chain(232..=238)
        .chain([13, 14, 15, 99])
        .chain(239..=248)
        .chain([27, 28])
        .chain(249..=266)
        .chain([109, 110])
        .chain(267..=318)
        .chain([158, 155, 163])
        .chain(319..=326)
        .chain([150, 164, 169])
        .chain(327..=378)
        .collect();
    assert_eq!(expert, charset);
}

#[test]
fn codes_of_each_form() {
    // Format 0: code k names glyph k + 1; a number past the font names nothing.
    let plain = font(&[34, 35], &[], Given::Bytes(&[0, 3, 65, 66, 67]));
    assert_eq!(glyphs(&plain, By::String)[65..68], [Some(1), Some(2), None]);
    assert_eq!(pairs(&plain, &[2]), [0x80, 0, 1, 66, 0, 35]);
    assert_eq!(pairs(&plain, &[1, 2]), [0x80, 0, 2, 65, 0, 34, 66, 0, 35]);
    assert_eq!(pairs(&plain, &[]), [0x80, 0, 0]);
    // Format 1: a code above 255 is passed over, and its glyph counts.
    let ranges = font(&[34, 35, 36], &[], Given::Bytes(&[1, 2, 255, 1, 65, 0]));
    let map = glyphs(&ranges, By::String);
    assert_eq!((map[255], map[65], map[0]), (Some(1), Some(3), None));
    // A code twice: the last glyph, and codes rise.
    let twice = font(&[34, 35], &[], Given::Bytes(&[0, 2, 66, 65]));
    assert_eq!(pairs(&twice, &[1, 2]), [0x80, 0, 2, 65, 0, 35, 66, 0, 34]);
    let same = font(&[34, 35], &[], Given::Bytes(&[0, 2, 65, 65]));
    assert_eq!(pairs(&same, &[1, 2]), [0x80, 0, 1, 65, 0, 35]);
    // The last glyph is not kept: the code has none, though an earlier one is.
    assert_eq!(pairs(&same, &[1]), [0x80, 0, 0]);
}

#[test]
fn supplements() {
    // By the string: own string `A` for id 34; the original finds no glyph.
    let own = font(&[391], &[b"A"], Given::Bytes(&[0x80, 0, 1, 0x41, 0, 0x22]));
    assert_eq!(glyphs(&own, By::String)[0x41], Some(1));
    assert_eq!(glyphs(&own, By::Id)[0x41], None);
    let original::Outcome::Program(program) = original::read(&own) else {
        panic!("a font");
    };
    assert_eq!(program.encoding()[0x41], None);
    // Its new id is the standard one.
    assert_eq!(pairs(&own, &[1]), [0x80, 0, 1, 0x41, 0, 34]);
    // An id past the strings is the empty string.
    let past = font(
        &[391],
        &[b""],
        Given::Bytes(&[0x80, 0, 1, 0x41, 0xff, 0xff]),
    );
    assert_eq!(pairs(&past, &[1]), [0x80, 0, 1, 0x41, 1, 0x87]);
    // After the rest; an absent name leaves the earlier glyph.
    let after = [0x80, 1, 65, 2, 65, 0, 35, 65, 0, 99];
    let after = font(&[34, 35], &[], Given::Bytes(&after));
    assert_eq!(pairs(&after, &[1, 2]), [0x80, 0, 1, 65, 0, 35]);
    // Glyph 0.
    let first = font(&[34], &[], Given::Bytes(&[0x80, 0, 1, 7, 0, 0]));
    assert_eq!(pairs(&first, &[]), [0x80, 0, 1, 7, 0, 0]);
}

#[test]
fn too_many_pairs() {
    let mut all = vec![0x80, 1, 0, 255];
    for code in 1..=255 {
        all.extend([code, 0, 34]);
    }
    let full = font(&[34], &[], Given::Bytes(&all));
    assert_eq!(answer(&full, &[1], 1, WISHES).err(), Some(13));
    assert_eq!(answer(&full, &[], 1, WISHES).err(), None);
    assert!(answer(&full, &[1], 0, WISHES).is_ok());
    all[3] = 254;
    all.truncate(4 + 3 * 254);
    let most = font(&[34], &[], Given::Bytes(&all));
    assert_eq!(pairs(&most, &[1])[2], 255);
}

#[test]
fn predefined() {
    let standard = font(&[34], &[], Given::Number(0));
    assert_eq!(
        answer(&standard, &[1], 1, WISHES),
        answer(&standard, &[1], 0, NONE)
    );
    let expert = font(&[229, 34], &[], Given::Number(1));
    assert_eq!(answer(&expert, &[1], 0, NONE).err(), Some(3));
    assert_eq!(answer(&expert, &[1], 0, WISHES).err(), Some(3));
    let subset = answer(&expert, &[1], 1, WISHES).expect("a subset").bytes;
    let entry = [0x1d, 0, 0, 0, 1, 16];
    assert!(subset.windows(6).any(|bytes| bytes == entry));
    assert_eq!(glyphs(&subset, By::String)[33], Some(1));
    // Without the request 6 bytes fewer, and no encoding.
    let bare = answer(&standard, &[1], 0, WISHES).expect("a subset").bytes;
    assert_eq!(subset.len(), bare.len() + 6);
}

/// How many cuts of 500 fonts show a difference.
fn differences(subset: SubsetFn) -> u64 {
    let library = Library {
        subset,
        ..stub::library()
    };
    let mut tally = CutTally::default();
    let mut notes = Notes::default();
    for case in cut_cases::coded(3).take(500) {
        let asks = &cut_cases::made;
        encoding_compare::compare(&library, &case, 3, &mut tally, &mut notes, asks);
    }
    tally.differences()
}

#[test]
fn a_library_that_passes_the_request_over_is_found() {
    assert_eq!(differences(stub::library().subset), 0);
    let over: SubsetFn = |font, cut, rooms| {
        let cut = Cut {
            encoding: 0,
            ..cut.clone()
        };
        (stub::library().subset)(font, &cut, rooms)
    };
    assert!(differences(over) > 0);
}
