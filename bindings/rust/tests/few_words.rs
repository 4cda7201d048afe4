//! Subsets with few work words: document 02, Wish 10.

mod small_font;

use mogdivash::{Font, Record, Refusal, Row};
use small_font::{cid_keyed, coded, font, rows};

/// Keep lists of a font with so many glyphs, some with a number past it.
fn lists(glyphs: u16) -> Vec<Vec<u16>> {
    let mut lists: Vec<Vec<u16>> = (0..=glyphs).map(|k| vec![k]).collect();
    lists.push(Vec::new());
    lists.push((0..glyphs).rev().collect());
    lists.push((0..glyphs).step_by(2).chain([0, 2]).collect());
    lists
}

/// What the calls of one keep list and record give, with few words and with many.
fn same(bytes: &[u8], record: &Record) -> (usize, usize) {
    let font = Font::read(bytes).expect("a font");
    let (mut given, mut refused) = (0, 0);
    for keep in lists(font.glyphs() as u16) {
        let cuts = [
            font.subset(b"A", &keep, record),
            font.subset_with_encoding(b"A", &keep, record),
        ];
        let small = [
            font.subset_small(b"A", &keep, record),
            font.subset_small_with_encoding(b"A", &keep, record),
        ];
        assert_eq!(small, cuts, "{keep:?}");
        given += cuts.iter().filter(|cut| cut.is_ok()).count();
        refused += cuts.iter().filter(|cut| cut.is_err()).count();
    }
    (given, refused)
}

#[test]
fn subsets_are_the_same() {
    let traced = Record::traced(rows());
    let stray = Record::traced([Row::Global { number: 9 }]);
    let malformed = Record::from_bytes(vec![9; 10]);
    let (expert, own) = (
        coded(&[34, 35], Ok(1)),
        coded(&[34, 35, 1], Err(&[0, 2, 7, 3])),
    );
    for bytes in [font(), expert, own, cid_keyed(&[9, 7, 8, 1])] {
        for record in [&traced, &Record::untraced(), &stray] {
            let (given, refused) = same(&bytes, record);
            assert!(given > 4 && refused > 1, "{given} given, {refused} refused");
        }
        assert_eq!(same(&bytes, &malformed).0, 0);
    }
}

/// Small fonts ask for a word in the place of many.
#[test]
fn words_asked_for() {
    let bytes = font();
    let name_keyed = Font::read(&bytes).expect("a font");
    // Five glyphs, one word of bits for the globals and one for the locals.
    assert_eq!(name_keyed.work_words(), 12);
    assert_eq!(name_keyed.small_work_words(), 3);
    let bytes = cid_keyed(&(1..65_535).rev().collect::<Vec<u16>>());
    let font = Font::read(&bytes).expect("a font");
    assert_eq!(font.work_words(), 2 * 65_535 + 2);
    assert_eq!(font.small_work_words(), 2048 + 2);
}

/// Lent words: those behind the ones asked for stay, one fewer is refused, and a refusal before it leaves all.
#[test]
fn lent_words() {
    for bytes in [font(), cid_keyed(&[9, 7, 8, 1])] {
        let font = Font::read(&bytes).expect("a font");
        let asked = font.small_work_words() as usize;
        let record = Record::untraced();
        let whole = font.subset(b"A", &[1, 2], &record).expect("a subset").bytes;
        let mut out = vec![9; whole.len() + 5];
        let mut work = vec![7; asked + 3];
        let into = font.subset_small_into(b"A", &[1, 2], &record, &mut work, &mut out);
        assert_eq!(into.map(|(_, length)| length), Ok(whole.len()));
        assert_eq!(out[..whole.len()], whole);
        assert_eq!(out[whole.len()..], [9; 5]);
        assert!(work[..asked].iter().all(|&word| word == 0));
        assert_eq!(work[asked..], [7; 3]);
        // Too little room is refused behind 9.
        let mut work = vec![7; asked + 3];
        let into = font.subset_small_into(b"A", &[1], &record, &mut work, &mut []);
        assert_eq!(into, Err(Refusal::Output));
        assert!(work[..asked].iter().all(|&word| word == 0));
        assert_eq!(work[asked..], [7; 3]);
        let mut work = vec![7; asked - 1];
        let into = font.subset_small_into(b"A", &[1], &record, &mut work, &mut out);
        assert_eq!(into, Err(Refusal::Work));
        let into = font.subset_small_into(b"A", &[5], &record, &mut work, &mut out);
        assert_eq!(into, Err(Refusal::NoSuchNumber));
        assert!(work.iter().all(|&word| word == 7));
        assert_eq!(out[whole.len()..], [9; 5]);
    }
}

/// The stack that subsetting takes at most, as include/mogdivash.h says.
const STACK: usize = 1 << 19;

/// What `cut` gives, run by a thread with that stack.
fn on_little_stack<T: Send>(cut: impl FnOnce() -> T + Send) -> T {
    std::thread::scope(|scope| {
        let thread = std::thread::Builder::new().stack_size(STACK);
        let run = thread.spawn_scoped(scope, cut).expect("a thread");
        run.join().expect("no panic")
    })
}

/// More glyphs than a window of the library has, in each order of CIDs.
#[test]
fn many_glyphs() {
    let rising: Vec<u16> = (1..20_000).map(|k| 3 * k).collect();
    let falling: Vec<u16> = rising.iter().rev().copied().collect();
    // 11 has no divisor in common with 19,999.
    let mixed: Vec<u16> = (0..19_999).map(|k| rising[k * 11 % 19_999]).collect();
    for cids in [rising, falling, mixed] {
        let bytes = cid_keyed(&cids);
        let font = Font::read(&bytes).expect("a font");
        for step in [1, 4] {
            let keep: Vec<u16> = (0..20_000).step_by(step).collect();
            let record = font.trace(&keep).expect("a record");
            let [large, small] = on_little_stack(|| {
                [
                    font.subset(b"A", &keep, &record),
                    font.subset_small(b"A", &keep, &record),
                ]
            });
            assert_eq!(large, small);
            let bytes = small.expect("a subset").bytes;
            let cut = Font::read(&bytes).expect("a font");
            // Their CIDs rise.
            let mut kept: Vec<u16> = keep[1..].iter().map(|&k| cids[k as usize - 1]).collect();
            kept.sort_unstable();
            let found = cut.find_cids(&kept);
            assert!(found.iter().zip(1..).all(|(&glyph, k)| glyph == Some(k)));
        }
    }
}
