//! Short charstrings: the first, the last, what is refused, and all of them counted.

use mogdivash::{Refusal, ShortCharstrings, ffi, next_charstring};

const ENDCHAR: u8 = 14;
const RLINETO: u8 = 5;

#[test]
fn first_and_last() {
    assert_eq!(next_charstring(&[]), Ok(Some(vec![ENDCHAR])));
    assert_eq!(next_charstring(&[ENDCHAR]), Ok(Some(vec![1, ENDCHAR])));
    // behind one operand and endchar come those of three bytes
    assert_eq!(
        next_charstring(&[246, ENDCHAR]),
        Ok(Some(vec![1, 1, ENDCHAR]))
    );
    // the last: -1131, hvcurveto, endchar
    assert_eq!(next_charstring(&[254, 255, 31, ENDCHAR]), Ok(None));
}

#[test]
fn refused() {
    let others: [&[u8]; 8] = [
        &[0, ENDCHAR],
        &[139, 139, ENDCHAR],
        &[ENDCHAR, ENDCHAR],
        &[32, 10, ENDCHAR],
        &[139, RLINETO],
        &[139, 139, 19, 14, ENDCHAR],
        &[247, ENDCHAR],
        &[255, 0, 0, ENDCHAR],
    ];
    for code in others {
        assert_eq!(next_charstring(code), Err(Refusal::Malformed), "{code:?}");
    }
    // a byte of a number is no endchar
    assert!(next_charstring(&[247, 14, ENDCHAR]).is_ok());
    assert!(ShortCharstrings::behind(&[0]).is_err());
}

/// A call of the C function with so many bytes and words: its number, and what it left.
fn call(code: &[u8], bytes: usize, words: usize) -> (u8, Vec<u8>, Vec<u64>) {
    let (mut out, mut size) = (vec![0xaa; bytes], vec![77; words]);
    // SAFETY: each pointer comes with the number of its elements.
    let returned = unsafe {
        ffi::cff_next_charstring(
            code.as_ptr(),
            code.len(),
            out.as_mut_ptr(),
            bytes,
            size.as_mut_ptr(),
            words,
        )
    };
    (returned, out, size)
}

#[test]
fn room() {
    // fewer bytes than the next one has, and no word, are 11, after 2; what is lent stays
    assert_eq!(call(&[ENDCHAR], 1, 1), (11, vec![0xaa], vec![77]));
    assert_eq!(call(&[ENDCHAR], 2, 0), (11, vec![0xaa; 2], vec![]));
    assert_eq!(call(&[0], 0, 0), (2, vec![], vec![]));
    assert_eq!(
        call(&[ENDCHAR], 3, 2),
        (0, vec![1, ENDCHAR, 0xaa], vec![2, 77])
    );
    // none left: the bytes stay
    let last = [254, 255, 31, ENDCHAR];
    assert_eq!(call(&last, 0, 1), (0, vec![], vec![0]));
    assert_eq!(call(&last, 4, 1), (0, vec![0xaa; 4], vec![0]));
    assert_eq!(call(&last, 4, 0), (11, vec![0xaa; 4], vec![]));
}

#[test]
fn all() {
    let (mut counts, mut hash, mut last) = ([0u32; 5], 2166136261u32, Vec::new());
    for code in ShortCharstrings::new() {
        assert!((last.len(), &last) < (code.len(), &code));
        counts[code.len()] += 1;
        for &b in &code {
            hash = (hash ^ u32::from(b)).wrapping_mul(16777619);
        }
        last = code;
    }
    // as tools/short_charstrings.py counts them
    assert_eq!(counts, [0, 1, 234, 10_583, 2_049_036]);
    assert_eq!(hash, 0x9a8c2d32);
    let mut behind = ShortCharstrings::behind(&last).unwrap();
    assert_eq!((behind.next(), behind.next()), (None, None));
}
