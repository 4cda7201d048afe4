//! Tests of the comparison of calls with few work words and with many: the library shows no difference, wrong calls do.

use crate::cut::Cut;
use crate::cut_cases;
use crate::library::{Library, Rooms, SubsetFn, library, small};
use crate::small::{Both, Tally};
use crate::small_fonts;

const CUTS: usize = 600;

fn differences(small: Library) -> u64 {
    let both = Both {
        large: library(),
        small,
    };
    let mut tally = Tally::default();
    for case in small_fonts::fonts(1) {
        let most = CUTS - tally.cuts as usize;
        if most == 0 {
            break;
        }
        tally.font(&both, &case, 1, most, &cut_cases::made);
    }
    tally.differences()
}

fn wrong(subset: SubsetFn) -> u64 {
    differences(Library { subset, ..small() })
}

/// The small call, and then something that it must not do to what is lent, where it is not refused.
fn and_then(font: &[u8], cut: &Cut, rooms: &mut Rooms<'_>, harm: fn(&mut Rooms<'_>)) -> u8 {
    let number = (small().subset)(font, cut, rooms);
    if number == 0 {
        harm(rooms);
    }
    number
}

#[test]
fn no_difference() {
    assert_eq!(differences(small()), 0);
}

#[test]
fn wrong_calls() {
    let calls: [(&str, SubsetFn); 5] = [
        ("another byte", |f, c, r| {
            and_then(f, c, r, |r| r.out.all[1] ^= 1)
        }),
        ("another way", |f, c, r| {
            and_then(f, c, r, |r| r.answer.all[0] += 1)
        }),
        ("a word that is not 0", |f, c, r| {
            and_then(f, c, r, |r| r.work.all[0] = 1)
        }),
        ("a word past those asked for", |f, c, r| {
            and_then(f, c, r, |r| r.work.all[r.work.lent] = 0)
        }),
        ("one word more is asked for", |f, c, r| {
            r.work.lent = r.work.lent.saturating_sub(1);
            let number = (small().subset)(f, c, r);
            r.work.lent += 1;
            number
        }),
    ];
    for (what, subset) in calls {
        assert!(wrong(subset) > 0, "{what}");
    }
}

/// The call with many words in the place of that with few.
#[test]
fn the_other_call() {
    assert!(wrong(library().subset) > 0);
}
