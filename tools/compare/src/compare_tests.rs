//! Tests of the comparison of reading: the stub shows no difference, a library with a fault does.

use crate::cases;
use crate::compare::compare;
use crate::domain::{self, Call, NONE, WISHES};
use crate::library::{ABSENT, COUNTS, Library, NO_ROOM, Room};
use crate::tally::Tally;
use crate::{model, stub};

/// How many of 4,000 fonts show a difference.
fn differences(library: &Library) -> u64 {
    let mut tally = Tally::default();
    for case in cases::made(11)
        .take(4000)
        .filter(|case| case.font.len() < 2000)
    {
        compare(library, &case, 11, &mut tally);
    }
    tally.differences()
}

#[test]
fn the_stub_shows_none() {
    assert_eq!(differences(&stub::library()), 0);
}

/// An odd W is one less.
fn read_wrong_work(font: &[u8], answer: &mut Room<'_, u64>) -> u8 {
    let refusal = (stub::library().read)(font, answer);
    if refusal == 0 {
        answer.all[4] = answer.all[4] / 2 * 2;
    }
    refusal
}

/// Refusal 5 writes a word.
fn read_writes_when_refused(font: &[u8], answer: &mut Room<'_, u64>) -> u8 {
    let refusal = (stub::library().read)(font, answer);
    if refusal == 5 && answer.lent == COUNTS {
        answer.all[4] = 0;
    }
    refusal
}

/// Too few words are found before the font is read.
fn read_room_first(font: &[u8], answer: &mut Room<'_, u64>) -> u8 {
    if answer.lent < COUNTS {
        return NO_ROOM;
    }
    (stub::library().read)(font, answer)
}

/// A name that is absent is glyph 0.
fn name_absent_is_0(font: &[u8], name: &[u8], answer: &mut Room<'_, u64>) -> u8 {
    let refusal = (stub::library().find_name)(font, name, answer);
    if refusal == 0 {
        answer.all[0] %= ABSENT;
    }
    refusal
}

/// Outside the domain the refusal is document 01's.
fn refused_as_before(font: &[u8], answer: &mut Room<'_, u64>) -> u8 {
    let before = model::read(font, NONE);
    match &before.font {
        Err(refused) if !domain::inside(Call::Read, &before, WISHES) => refused.number,
        _ => (stub::library().read)(font, answer),
    }
}

#[test]
fn a_fault_shows() {
    let good = stub::library();
    let faulty = [
        Library {
            read: read_wrong_work,
            ..good
        },
        Library {
            read: read_writes_when_refused,
            ..good
        },
        Library {
            read: read_room_first,
            ..good
        },
        Library {
            read: refused_as_before,
            ..good
        },
        Library {
            find_name: name_absent_is_0,
            ..good
        },
        // A CID above 32767 is taken as another.
        Library {
            find_cid: |font, cid, glyph| (stub::library().find_cid)(font, cid & 0x7fff, glyph),
            ..good
        },
        // Only 32 bits of the number count.
        Library {
            item: |font, (kind, number), out, size| {
                (stub::library().item)(font, (kind, number & 0xffff_ffff), out, size)
            },
            ..good
        },
        // Refusal 1 where it is 2.
        Library {
            item_refusal: |font, item| match (stub::library().item_refusal)(font, item) {
                2 => 1,
                refusal => refusal,
            },
            ..good
        },
    ];
    for (k, library) in faulty.iter().enumerate() {
        assert!(differences(library) > 0, "fault {k}");
    }
}
