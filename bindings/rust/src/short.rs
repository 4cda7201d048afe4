//! Short charstrings: document 02, Wish 13.

use crate::ffi;
use crate::refusal::Refusal;

/// The bytes of a short charstring: at most so many.
const LONGEST: usize = 4;

/// The next short charstring behind one of them, or behind nothing, or `None` where none is left. Short are the plain charstrings of 1
/// to 4 bytes that make no call and whose last byte is their only endchar. Other bytes are refused as `Malformed`.
pub fn next_charstring(code: &[u8]) -> Result<Option<Vec<u8>>, Refusal> {
    let mut out = [0; LONGEST];
    let mut size = [0];
    // SAFETY: each pointer comes with the number of its elements, and the three do not overlap.
    let returned = unsafe {
        ffi::cff_next_charstring(
            code.as_ptr(),
            code.len(),
            out.as_mut_ptr(),
            out.len(),
            size.as_mut_ptr(),
            size.len(),
        )
    };
    Refusal::check(returned)?;
    Ok(match size[0] as usize {
        0 => None,
        n => Some(out[..n].to_vec()),
    })
}

/// All 2,059,854 short charstrings, shorter ones first, those of one length rising byte by byte.
#[derive(Clone, Debug, Default)]
pub struct ShortCharstrings {
    /// The one that came last, nothing at the start; none once all have come.
    last: Option<Vec<u8>>,
    /// Whether the walk has begun.
    begun: bool,
}

impl ShortCharstrings {
    /// From the first on.
    pub fn new() -> ShortCharstrings {
        ShortCharstrings::default()
    }

    /// From the one behind `code` on, a short charstring itself; else refused as `Malformed`.
    pub fn behind(code: &[u8]) -> Result<ShortCharstrings, Refusal> {
        next_charstring(code)?;
        Ok(ShortCharstrings {
            last: Some(code.to_vec()),
            begun: true,
        })
    }
}

impl Iterator for ShortCharstrings {
    type Item = Vec<u8>;

    fn next(&mut self) -> Option<Vec<u8>> {
        let next = match (&self.last, self.begun) {
            (Some(last), _) => next_charstring(last),
            (None, false) => next_charstring(&[]),
            (None, true) => Ok(None),
        };
        self.begun = true;
        // what is given is nothing, or an answer
        self.last = next.unwrap_or(None);
        self.last.clone()
    }
}
