//! What the reports of reading and of subsets have in common: rows of counts, and the differences with their fonts.

use crate::hex;
use std::collections::BTreeMap;
use std::fmt::{Display, Write};
use std::path::Path;

/// Differences printed.
pub const PRINTED: usize = 20;

/// Fonts up to this length are printed, longer ones are written to a file.
const LONGEST_PRINTED: usize = 4000;

/// The first differences of a run, and how many there are.
pub struct Differences<D> {
    pub first: Vec<D>,
    pub count: u64,
}

impl<D> Default for Differences<D> {
    fn default() -> Self {
        Differences {
            first: Vec::new(),
            count: 0,
        }
    }
}

impl<D> Differences<D> {
    pub fn push(&mut self, difference: D) {
        self.count += 1;
        if self.first.len() < PRINTED {
            self.first.push(difference);
        }
    }
}

/// A row of cells of one width behind its label.
pub fn row<C: Display>(
    out: &mut String,
    label: &str,
    width: usize,
    cells: impl IntoIterator<Item = C>,
) {
    let _ = write!(out, "{label:<46}");
    for cell in cells {
        let _ = write!(out, " {cell:>width$}");
    }
    let _ = writeln!(out);
}

/// Counts and their sum.
pub fn counts(out: &mut String, label: &str, width: usize, counts: &[u64]) {
    let sum: u64 = counts.iter().sum();
    row(out, label, width, counts.iter().chain([&sum]));
}

/// How many fonts have what.
pub fn notes(out: &mut String, notes: &BTreeMap<&str, u64>) {
    for (note, n) in notes {
        let _ = writeln!(out, "  {note:<54}{n:>9}");
    }
}

/// The font of a difference; a long one goes to a file of that name in the folder.
pub fn font(out: &mut String, font: &[u8], folder: &Path, name: &str) {
    if font.len() <= LONGEST_PRINTED {
        let _ = writeln!(out, "  {}", hex(font));
        return;
    }
    let path = folder.join(name);
    let written = std::fs::create_dir_all(folder).and_then(|()| std::fs::write(&path, font));
    let said = written.map_or_else(|e| e.to_string(), |()| "written".to_string());
    let _ = writeln!(out, "  {} bytes, {}: {said}", font.len(), path.display());
}
