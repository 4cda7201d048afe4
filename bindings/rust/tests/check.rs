//! Records of another tracer, checked: accepted ones, one row dropped, further rows, a second length, and numbers past the INDEX.

use mogdivash::{Font, Record, Refusal, Row, Way};

mod small_font;
use small_font::{font, rows};

#[test]
fn what_is_traced_is_accepted() {
    let bytes = font();
    let font = Font::read(&bytes).expect("a font that is read");
    for keep in [&[][..], &[1], &[3, 1, 1]] {
        let record = font.trace(keep).expect("a record");
        assert_eq!(font.check_record(keep, &record), Ok(()));
    }
}

#[test]
fn each_row_is_needed() {
    let bytes = font();
    let font = Font::read(&bytes).expect("a font that is read");
    for k in 0..rows().len() {
        let mut left = rows().to_vec();
        left.remove(k);
        assert_eq!(
            font.check_record(&[1], &Record::traced(left)),
            Err(Refusal::NotAccepted)
        );
    }
    // Glyph 3 is empty, and glyph 0 meets nothing.
    assert_eq!(font.check_record(&[3], &Record::traced([])), Ok(()));
}

#[test]
fn further_rows() {
    let bytes = font();
    let font = Font::read(&bytes).expect("a font that is read");
    let with = |row| Record::traced(rows().into_iter().chain([row]));
    let further = with(Row::Local { fd: 0, number: 0 });
    assert_eq!(font.check_record(&[1], &further), Ok(()));
    // A subroutine that there is not; a mask of one may stand.
    let past = with(Row::Local { fd: 0, number: 2 });
    assert_eq!(font.check_record(&[1], &past), Err(Refusal::NotAccepted));
    let past = with(Row::Global { number: 1 });
    assert_eq!(font.check_record(&[1], &past), Err(Refusal::NotAccepted));
    let mask = with(Row::GlobalMask {
        number: 7,
        offset: 0,
        length: 1,
    });
    assert_eq!(font.check_record(&[1], &mask), Ok(()));
}

#[test]
fn a_second_length_gives_stubs() {
    let bytes = font();
    let font = Font::read(&bytes).expect("a font that is read");
    let second = Row::GlyphMask {
        glyph: 1,
        offset: 3,
        length: 2,
    };
    let twice = Record::traced(rows().into_iter().chain([second]));
    assert_eq!(font.check_record(&[1], &twice), Ok(()));
    let subset = font.subset(b"B", &[1], &twice).expect("a subset");
    assert_eq!(subset.way, Way::Stubbed);
    // In place of the first it does not list the mask.
    let other = rows().map(|row| match row {
        Row::GlyphMask { .. } => second,
        row => row,
    });
    assert_eq!(
        font.check_record(&[1], &Record::traced(other)),
        Err(Refusal::NotAccepted)
    );
}

#[test]
fn refusals_in_order() {
    let bytes = font();
    let font = Font::read(&bytes).expect("a font that is read");
    let broken = Record::from_bytes(vec![5]);
    assert_eq!(
        font.check_record(&[4, 5], &broken),
        Err(Refusal::NoSuchNumber)
    );
    assert_eq!(font.check_record(&[4], &broken), Err(Refusal::NotFound));
    assert_eq!(font.check_record(&[2], &broken), Err(Refusal::Record));
    // Glyph 2 is not plain, whatever the record is.
    let all = Record::traced(rows());
    assert_eq!(font.check_record(&[1, 2], &all), Err(Refusal::NotAccepted));
    assert_eq!(Refusal::from_number(14), Some(Refusal::NotAccepted));
}
