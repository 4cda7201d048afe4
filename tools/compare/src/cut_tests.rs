//! Tests of the comparison of subsets: document 01's worked sheet, and calls that do wrong.

use crate::cut::{self, Answer, Cut, Lent, Outcome, Subset, WORDS};
use crate::cut_compare::{self, agrees};
use crate::cut_tally::CutTally;
use crate::domain::{self, Call, NONE, WISHES, Wishes};
use crate::layout::{Entry, Num, Part, SOUND, entry, one_font, place};
use crate::library::{Library, Rooms, SubsetFn};
use crate::{cut_cases, model, original, stub};

/// The font of document 01, 'One sheet, whole'.
const FONT: &str = "010004010001010102580001010103a011000000000002010102030e0e";
const SUBSET: &str = "0100040100010101024100010101181d0000002a0f1d0000002d111d000000001d0000003512000000000000010002010102030e0e";

fn bytes(text: &str) -> Vec<u8> {
    let digits = |k: usize| u8::from_str_radix(&text[k..k + 2], 16).expect("hexadecimal");
    (0..text.len()).step_by(2).map(digits).collect()
}

fn sheet() -> Cut {
    Cut {
        cid_keyed: false,
        name: b"A".to_vec(),
        keep: vec![1],
        record: Vec::new(),
        flag: 1,
        record_kind: cut::OWN,
        encoding: 0,
    }
}

fn outcome(font: &[u8], cut: &Cut) -> Outcome {
    let reading = model::read(font, WISHES);
    let original::Outcome::Program(program) = original::read(font) else {
        panic!("a font that is read");
    };
    let read = reading.font.as_ref().map_err(|r| r.number);
    cut::cut(font, read, Some(&program), cut)
}

/// What the comparison says of a library with this entry, room and record flag as given.
fn verdict(subset: SubsetFn, room: usize, flag: u8) -> Result<(), String> {
    let font = bytes(FONT);
    let cut = Cut { flag, ..sheet() };
    let lent = Lent {
        work: 6,
        room,
        words: WORDS,
    };
    let library = Library {
        subset,
        ..stub::library()
    };
    agrees(
        &library,
        &font,
        &cut,
        lent,
        &outcome(&font, &cut).answer(lent),
    )
}

#[test]
fn the_sheet_of_document_01() {
    let font = bytes(FONT);
    let Outcome::Ready(work, Ok(subset)) = outcome(&font, &sheet()) else {
        panic!("a subset");
    };
    let wanted = Subset {
        way: 0,
        bytes: bytes(SUBSET),
    };
    assert_eq!((work, subset), (4, wanted));
}

#[test]
fn refusals_in_their_order() {
    let font = bytes(FONT);
    let number = |change: &dyn Fn(&mut Cut), lent: (usize, usize)| {
        let mut cut = sheet();
        change(&mut cut);
        let (work, room) = lent;
        let lent = Lent {
            work,
            room,
            words: WORDS,
        };
        let outcome = outcome(&font, &cut);
        let Answer { subset, zeros } = outcome.answer(lent);
        (subset.err().unwrap_or(0), zeros)
    };
    assert_eq!(number(&|c| c.cid_keyed = true, (0, 0)), (3, 0));
    assert_eq!(number(&|c| c.name = vec![0; 65_536], (0, 0)), (4, 0));
    assert_eq!(
        number(&|c| (c.keep, c.flag) = (vec![1, 2], 2), (0, 0)),
        (6, 0)
    );
    assert_eq!(number(&|c| c.flag = 2, (0, 0)), (8, 0));
    assert_eq!(number(&|c| c.record = vec![0; 9], (4, 99)), (8, 0));
    assert_eq!(number(&|_| {}, (3, 0)), (9, 0));
    assert_eq!(number(&|_| {}, (4, 52)), (11, 4));
    assert_eq!(number(&|_| {}, (4, 53)), (0, 4));
}

/// Answers as the stub does.
fn as_it_is(font: &[u8], cut: &Cut, rooms: &mut Rooms<'_>) -> u8 {
    (stub::library().subset)(font, cut, rooms)
}

/// An entry that answers as the stub does, and then changes what was lent, or what stands behind it.
macro_rules! wrong {
    ($place:ident[$k:expr] = $value:expr) => {
        |font, cut, rooms| {
            let refusal = as_it_is(font, cut, rooms);
            rooms.$place.all[$k] = $value;
            refusal
        }
    };
}

#[test]
fn calls_that_do_wrong_are_found() {
    let entries: [(&str, SubsetFn); 10] = [
        ("a byte", |font, cut, rooms| {
            let refusal = as_it_is(font, cut, rooms);
            rooms.out.all[52] ^= 1;
            refusal
        }),
        ("past the length", wrong!(out[53] = 0)),
        ("past the room", |font, cut, rooms| {
            let refusal = as_it_is(font, cut, rooms);
            rooms.out.all[rooms.out.lent] = 0;
            refusal
        }),
        ("another way", wrong!(answer[0] = 1)),
        ("a shorter length", wrong!(answer[1] = 52)),
        ("a third word", wrong!(answer[2] = 0)),
        ("a word of work", wrong!(work[3] = 7)),
        ("a word too many", wrong!(work[4] = 0)),
        ("a word further on", wrong!(work[5] = 0)),
        ("another number", |font, cut, rooms| {
            as_it_is(font, cut, rooms) + 1
        }),
    ];
    assert_eq!(verdict(as_it_is, 60, 1), Ok(()));
    assert_eq!(verdict(as_it_is, 52, 1), Ok(()));
    assert_eq!(verdict(as_it_is, 60, 2), Ok(()));
    for (what, entry) in entries {
        assert!(verdict(entry, 60, 1).is_err(), "{what}, a subset");
        assert!(verdict(entry, 52, 1).is_err(), "{what}, refusal 11");
        assert!(verdict(entry, 60, 2).is_err(), "{what}, refusal 8");
    }
}

/// How many cuts of 1,000 fonts show a difference.
fn differences(subset: SubsetFn) -> u64 {
    let library = Library {
        subset,
        ..stub::library()
    };
    let mut tally = CutTally::default();
    for case in cut_cases::fonts(11).take(1000) {
        cut_compare::compare(&library, &case, 11, &mut tally, &cut_cases::made);
    }
    tally.differences()
}

#[test]
fn a_library_without_the_wishes_is_found() {
    assert_eq!(differences(as_it_is), 0);
    assert!(differences(stub::subset_before) > 0);
}

/// An entry: its operands, and the second byte of its operator.
type Given<'a> = (&'a [&'a [u8]], u8);

/// A font with these entries in its top DICT, behind a ROS of so many operands.
fn with_entries(ros: Option<usize>, entries: &[Given<'_>]) -> Vec<u8> {
    let number = |bytes: &&[u8]| Num::Bytes(bytes.to_vec());
    let mut top: Vec<Entry> = entries
        .iter()
        .map(|(operands, escape)| entry(operands.iter().map(number).collect(), &[12, *escape]))
        .collect();
    if let Some(operands) = ros {
        top.insert(0, entry(vec![Num::Bytes(vec![139]); operands], &[12, 30]));
        top.push(entry(vec![place(6)], &[12, 36]));
    }
    top.push(entry(vec![place(5)], &[17]));
    let bodies = Part::Index(SOUND, vec![Part::Bytes(vec![14]); 2]);
    let fds = Part::Index(SOUND, vec![Part::Dict(Vec::new())]);
    one_font(top, Vec::new(), vec![bodies, fds])
}

/// The answer of the model by wishes, with enough lent.
fn modelled(font: &[u8], cid_keyed: bool, wishes: Wishes) -> Result<Subset, u8> {
    let reading = model::read(font, wishes);
    let original::Outcome::Program(program) = original::read(font) else {
        panic!("a font that is read");
    };
    let read = reading.font.as_ref().map_err(|r| r.number);
    let cut = Cut {
        cid_keyed,
        ..sheet()
    };
    match cut::by_model(font, read, Some(&program), &cut, wishes) {
        Outcome::Early(number) => Err(number),
        Outcome::Ready(_, subset) => subset,
        Outcome::Panicked(message) => panic!("{message}"),
    }
}

/// Document 02, Wish 11.
#[test]
fn stroked_fonts() {
    const ON: Wishes = &[5, 11];
    const PAINT: u8 = 5;
    const STROKE: u8 = 8;
    let (zero, one, half): (&[u8], &[u8], &[u8]) = (&[139], &[140], &[30, 0xa5, 0xff]);
    let (minus_zero, zeros): (&[u8], &[u8]) = (&[30, 0xe0, 0xff], &[30, 0x0a, 0x00, 0xff]);
    for (cid_keyed, ros) in [(false, None), (true, Some(3))] {
        let bare = modelled(&with_entries(ros, &[]), cid_keyed, NONE);
        assert!(bare.is_ok());
        let dropped: [&[Given<'_>]; 8] = [
            &[],
            &[(&[zero], PAINT)],
            &[(&[minus_zero], PAINT), (&[one], STROKE)],
            &[(&[zeros], PAINT)],
            &[(&[], PAINT)],
            &[(&[one, one], PAINT)],
            &[(&[half], STROKE)],
            &[(&[one], PAINT), (&[zero], PAINT)],
        ];
        let refused: [&[Given<'_>]; 3] = [
            &[(&[one], PAINT)],
            &[(&[half], PAINT), (&[one], STROKE)],
            &[(&[zero], PAINT), (&[one], PAINT)],
        ];
        for (list, wanted) in [(&dropped[..], bare), (&refused, Err(3))] {
            for entries in list {
                let font = with_entries(ros, entries);
                assert_eq!(modelled(&font, cid_keyed, ON), wanted);
                assert_eq!(modelled(&font, !cid_keyed, ON), Err(3));
                // Off, the entries are copied.
                let before = modelled(&font, cid_keyed, &[5]);
                assert_eq!(before == wanted, entries.is_empty());
                let reading = model::read(&font, NONE);
                assert!(domain::inside(Call::Read, &reading, ON));
                let inside = domain::inside(Call::Subset, &reading, ON);
                assert_eq!(inside, entries.is_empty());
            }
        }
    }
    // Before ROS's refusal.
    let two = |entries: &[Given<'_>]| modelled(&with_entries(Some(2), entries), true, ON);
    assert_eq!(two(&[(&[one], PAINT)]), Err(3));
    assert_eq!(two(&[(&[zero], PAINT)]), Err(2));
    assert_eq!(two(&[]), Err(2));
}
