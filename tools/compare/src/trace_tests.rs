//! Tests of the comparison of traces: a small font by hand, and libraries that do wrong.

use crate::cases::Case;
use crate::cut_cases;
use crate::domain::WISHES;
use crate::library::{Library, TraceFn};
use crate::record::{self, Row};
use crate::trace::{Lent, Outcome, WORDS};
use crate::trace_compare::{self, agrees};
use crate::trace_edges::Bodies;
use crate::trace_model::{LIMITS, Limits, Tracer};
use crate::trace_tally::TraceTally;
use crate::{model, stub, trace_cases, trace_edges};

/// A global subroutine calls the second local one, which has two stems and a mask of one byte; glyph 2 is not plain.
fn bodies() -> Bodies {
    Bodies {
        glyphs: vec![
            vec![14],
            // Two stems, a mask, global 0, a mask of four stems.
            vec![139, 139, 139, 139, 18, 19, 0xc0, 32, 29, 20, 0xf0, 14],
            vec![139, 10, 14],
        ],
        globals: vec![vec![33, 10, 11]],
        locals: vec![vec![
            vec![11],
            vec![139, 139, 139, 139, 23, 20, 0xf0, 32, 10, 11],
        ]],
    }
}

fn outcome(font: &[u8], keep: &[u16]) -> Outcome {
    let reading = model::read(font, WISHES);
    let read = reading.font.expect("a font that is read");
    let tracer = Tracer::new(font, &read, LIMITS).expect("its parts");
    tracer.trace(keep)
}

#[test]
fn a_font_by_hand() {
    let font = bodies().font(false);
    let row = |kind, number, offset, length| Row {
        kind,
        fd: 0,
        number,
        offset,
        length,
    };
    let rows = [
        row(0, 0, 0, 0),
        row(0, 1, 0, 0),
        row(1, 0, 0, 0),
        row(2, 1, 5, 1),
        row(2, 1, 9, 1),
        row(3, 1, 5, 1),
    ];
    let wanted = Outcome::Record(1, record::bytes(&rows));
    assert_eq!(outcome(&font, &[1, 0, 1]), wanted);
    assert_eq!(outcome(&font, &[]), Outcome::Record(1, Vec::new()));
    assert_eq!(outcome(&font, &[1, 2]), Outcome::untraced());
    assert_eq!(outcome(&font, &[1, 3]), Outcome::Refused(6));
    let lent = |room, words| Lent { room, words };
    assert_eq!(wanted.answer(lent(59, WORDS)), Err(11));
    assert_eq!(wanted.answer(lent(60, 1)), Err(11));
    assert!(wanted.answer(lent(60, WORDS)).is_ok());
    assert_eq!(Outcome::untraced().answer(lent(0, WORDS)), Ok((0, &[][..])));
    assert_eq!(Outcome::untraced().answer(lent(9, 0)), Err(11));
}

/// The last glyph that has a name has the empty one's too.
#[test]
fn glyphs_of_one_name() {
    let font = Bodies {
        glyphs: vec![vec![14]; 393],
        ..bodies()
    }
    .font(false);
    assert_eq!(outcome(&font, &[391]), Outcome::Record(1, Vec::new()));
    assert_eq!(outcome(&font, &[392]), Outcome::Refused(7));
    assert_eq!(outcome(&font, &[392, 393]), Outcome::Refused(6));
}

/// Answers as the stub does, and then changes what was lent, or what stands behind it.
macro_rules! wrong {
    (|$record:ident, $answer:ident| $place:expr) => {
        |font, keep, $record, $answer| {
            let refusal = (stub::library().trace)(font, keep, $record, $answer);
            $place ^= 1;
            refusal
        }
    };
}

fn verdict(trace: TraceFn, keep: &[u16], lent: Lent) -> Result<(), String> {
    let font = bodies().font(false);
    let library = Library {
        trace,
        ..stub::library()
    };
    let outcome = outcome(&font, keep);
    agrees(&library, &font, keep, lent, outcome.answer(lent))
}

#[test]
fn calls_that_do_wrong_are_found() {
    let entries: [(&str, TraceFn); 7] = [
        ("a byte", wrong!(|record, answer| record.all[59])),
        ("past the length", wrong!(|record, answer| record.all[60])),
        (
            "past the room",
            wrong!(|record, answer| record.all[record.lent]),
        ),
        ("another flag", wrong!(|record, answer| answer.all[0])),
        ("another length", wrong!(|record, answer| answer.all[1])),
        ("a third word", wrong!(|record, answer| answer.all[2])),
        ("another number", |font, keep, record, answer| {
            (stub::library().trace)(font, keep, record, answer) + 1
        }),
    ];
    let asks: [(&[u16], usize, usize); 6] = [
        (&[1], 60, 2),
        (&[1], 64, 3),
        (&[1], 59, 2),
        (&[1, 2], 60, 2),
        (&[1, 3], 60, 2),
        (&[1], 60, 1),
    ];
    for (keep, room, words) in asks {
        let lent = Lent { room, words };
        assert_eq!(verdict(stub::library().trace, keep, lent), Ok(()));
        for (what, entry) in entries {
            assert!(
                verdict(entry, keep, lent).is_err(),
                "{what}, {keep:?}, {lent:?}"
            );
        }
    }
}

/// Whether a library shows a difference on one of these fonts.
fn differs(trace: TraceFn, mut fonts: impl Iterator<Item = Case>) -> bool {
    let library = Library {
        trace,
        ..stub::library()
    };
    fonts.any(|case| {
        let mut tally = TraceTally::default();
        trace_compare::compare(&library, &case, 5, &mut tally, &trace_cases::each);
        tally.differences() > 0
    })
}

#[test]
fn the_stub_is_right() {
    let trace = stub::library().trace;
    assert!(!differs(trace, cut_cases::fonts(5).take(1000)));
}

#[test]
fn edges_are_read() {
    for case in trace_edges::fonts(5) {
        let read = model::read(&case.font, WISHES).font;
        let made = case.state.starts_with("made");
        assert!(made || read.is_ok(), "{} {}", case.number, case.state);
    }
}

/// Limits that are one too low or too high show at the edges.
#[test]
fn other_limits_are_found() {
    const DEPTH: [Limits; 2] = [
        Limits { depth: 9, ..LIMITS },
        Limits {
            depth: 11,
            ..LIMITS
        },
    ];
    const OPERANDS: [Limits; 2] = [
        Limits {
            operands: 47,
            ..LIMITS
        },
        Limits {
            operands: 49,
            ..LIMITS
        },
    ];
    const STEMS: [Limits; 2] = [
        Limits {
            stems: 95,
            ..LIMITS
        },
        Limits {
            stems: 97,
            ..LIMITS
        },
    ];
    const SPENT: [Limits; 2] = [
        Limits {
            spent: 65_535,
            ..LIMITS
        },
        Limits {
            spent: 65_537,
            ..LIMITS
        },
    ];
    macro_rules! within {
        ($limits:expr) => {
            |font, keep, record, answer| stub::trace_within($limits, font, keep, record, answer)
        };
    }
    let entries: [TraceFn; 8] = [
        within!(DEPTH[0]),
        within!(DEPTH[1]),
        within!(OPERANDS[0]),
        within!(OPERANDS[1]),
        within!(STEMS[0]),
        within!(STEMS[1]),
        within!(SPENT[0]),
        within!(SPENT[1]),
    ];
    for (k, entry) in entries.into_iter().enumerate() {
        let state = if k < 6 {
            "operators, calls, stems and masks"
        } else {
            "65,536 tokens and calls"
        };
        let fonts = trace_edges::fonts(5);
        let fonts = fonts.into_iter().filter(|case| case.state == state);
        assert!(differs(entry, fonts), "entry {k}");
    }
}
