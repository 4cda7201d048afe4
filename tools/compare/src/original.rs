//! The original's answers: `CffProgram::parse` with panics caught.

use crate::cff::{CffProgram, Privates};
use crate::program::FontError;
use std::cell::{Cell, RefCell};
use std::panic::{self, AssertUnwindSafe};

pub enum Outcome {
    Program(CffProgram),
    Refused(FontError),
    Panicked(String),
}

thread_local! {
    static CATCHING: Cell<bool> = const { Cell::new(false) };
    static MESSAGE: RefCell<String> = const { RefCell::new(String::new()) };
}

/// From here on a panic inside `caught` is kept and not printed.
pub fn keep_panics_silent() {
    let printed = panic::take_hook();
    panic::set_hook(Box::new(move |info| {
        if CATCHING.get() {
            MESSAGE.set(info.to_string());
        } else {
            printed(info);
        }
    }));
}

/// A result of the original, or the message of its panic.
pub fn caught<T>(run: impl FnOnce() -> T) -> Result<T, String> {
    CATCHING.set(true);
    let result = panic::catch_unwind(AssertUnwindSafe(run));
    CATCHING.set(false);
    result.map_err(|_| MESSAGE.take())
}

pub fn read(font: &[u8]) -> Outcome {
    match caught(|| CffProgram::parse(font)) {
        Ok(Ok(program)) => Outcome::Program(program),
        Ok(Err(error)) => Outcome::Refused(error),
        Err(message) => Outcome::Panicked(message),
    }
}

/// Document 01's number of an error of reading; 255 for one that reading does not give.
pub fn number(error: &FontError) -> u8 {
    match error {
        FontError::Truncated(_) => 1,
        FontError::Malformed(_) => 2,
        FontError::Unsupported(_) => 3,
        _ => 255,
    }
}

/// Locals of all FDs, or of the one Private.
pub fn locals(program: &CffProgram) -> u64 {
    match program.privates() {
        Privates::Single(private) => private.subrs.len() as u64,
        Privates::Cid { dicts, .. } => dicts.iter().map(|d| d.subrs.len() as u64).sum(),
    }
}

/// The items of a kind: 0 charstrings, 1 global subroutines, 2 strings.
pub fn item(program: &CffProgram, kind: u8, number: u64) -> Option<&[u8]> {
    match kind {
        0 => program.charstring(u16::try_from(number).ok()?).ok(),
        1 => program
            .global_subrs()
            .get(usize::try_from(number).ok()?)
            .map(Vec::as_slice),
        _ => program
            .strings()
            .get(usize::try_from(number).ok()?)
            .map(Vec::as_slice),
    }
}
