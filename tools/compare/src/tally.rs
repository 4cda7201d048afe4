//! What a run met, and its report.

use crate::cases::Case;
use crate::library::{ABSENT, Answer};
use crate::model::Reading;
use crate::report::{self, Differences, PRINTED};
use std::collections::BTreeMap;
use std::fmt::Write;
use std::path::Path;

/// The width of a count in the report.
const WIDTH: usize = 8;

pub struct Difference {
    /// Its place in the run: made fonts, then files by name.
    pub place: (String, usize),
    pub case: String,
    pub messages: Vec<String>,
    pub font: Vec<u8>,
}

/// By refusal: 0 none, then 1 to 6.
type ByRefusal = [u64; 7];

#[derive(Default)]
pub struct Tally {
    pub fonts: BTreeMap<(&'static str, &'static str), ByRefusal>,
    calls: BTreeMap<&'static str, ByRefusal>,
    found: BTreeMap<&'static str, u64>,
    steps: BTreeMap<(u8, &'static str, &'static str), u64>,
    /// What fonts that are read have.
    notes: BTreeMap<&'static str, u64>,
    /// Refused in a font of a set that is not the first.
    later: u64,
    /// Fonts for which the original would take too much memory.
    pub heavy: u64,
    pub panics: u64,
    /// Fonts outside the domain of the comparison with the original, and those of them that it reads.
    outside: u64,
    pub outside_read: u64,
    /// Calls with too little room, or of a kind of items that there is not.
    pub roomless: u64,
    /// Reals past the limits at a place that the original comes by, and other cases.
    pub confirmed: u64,
    pub unconfirmed: Vec<String>,
    differences: Differences<Difference>,
}

impl Tally {
    /// A font with the reading that is wanted of the library.
    pub fn font(&mut self, case: &Case, reading: &Reading, inside: bool) {
        self.outside += u64::from(!inside);
        let refusal = reading.font.as_ref().err().map_or(0, |r| r.number);
        self.fonts.entry((case.kind, case.state)).or_default()[usize::from(refusal)] += 1;
        if let Err(r) = &reading.font {
            *self.steps.entry((r.number, r.part, r.fault)).or_default() += 1;
            if reading.fonts > 1 {
                self.later += 1;
            }
        } else {
            for note in &reading.notes {
                *self.notes.entry(note).or_default() += 1;
            }
        }
    }

    pub fn call<T>(&mut self, entry: &'static str, answer: &Answer<T>) {
        let refusal = answer.as_ref().err().map_or(0, |&r| r);
        self.calls.entry(entry).or_default()[usize::from(refusal)] += 1;
    }

    pub fn found(&mut self, entry: &'static str, answer: &Answer<u64>) {
        self.call(entry, answer);
        if answer.is_ok_and(|glyph| glyph != ABSENT) {
            *self.found.entry(entry).or_default() += 1;
        }
    }

    pub fn difference(&mut self, difference: Difference) {
        self.differences.push(difference);
    }

    pub fn differences(&self) -> u64 {
        self.differences.count
    }

    pub fn merge(&mut self, other: Tally) {
        for (key, counts) in other.fonts {
            add(self.fonts.entry(key).or_default(), counts);
        }
        for (key, counts) in other.calls {
            add(self.calls.entry(key).or_default(), counts);
        }
        for (key, n) in other.found {
            *self.found.entry(key).or_default() += n;
        }
        for (key, n) in other.steps {
            *self.steps.entry(key).or_default() += n;
        }
        for (key, n) in other.notes {
            *self.notes.entry(key).or_default() += n;
        }
        self.later += other.later;
        self.heavy += other.heavy;
        self.panics += other.panics;
        self.outside += other.outside;
        self.outside_read += other.outside_read;
        self.roomless += other.roomless;
        self.confirmed += other.confirmed;
        self.unconfirmed.extend(other.unconfirmed);
        self.differences.count += other.differences.count;
        self.differences.first.extend(other.differences.first);
    }

    /// The report; long fonts of differences go to the folder.
    pub fn report(&mut self, folder: &Path) -> String {
        let mut out = String::new();
        let mut total = ByRefusal::default();
        let _ = writeln!(
            out,
            "Fonts by kind, state and reading's answer (0 read, else the refusal)"
        );
        header(&mut out, &["all"]);
        for ((kind, state), counts) in &self.fonts {
            row(&mut out, &format!("{kind}, {state}"), counts);
            add(&mut total, *counts);
        }
        row(&mut out, "all", &total);
        let _ = writeln!(out, "\nCalls by entry and answer");
        header(&mut out, &["all", "found"]);
        let mut all = ByRefusal::default();
        for (entry, counts) in &self.calls {
            row(&mut out, entry, counts);
            if let Some(n) = self.found.get(entry) {
                out.pop();
                let _ = writeln!(out, " {n:>8}");
            }
            add(&mut all, *counts);
        }
        row(&mut out, "all", &all);
        let _ = writeln!(
            out,
            "and with too little room, or of a kind of items that there is not: {}",
            self.roomless
        );
        let _ = writeln!(out, "\nRefusals by the step that gives them");
        for ((number, part, fault), n) in &self.steps {
            let _ = writeln!(out, "{number} {:<54}{n:>9}", format!("{part}: {fault}"));
        }
        let _ = writeln!(
            out,
            "  {:<54}{:>9}",
            "of these in a later font of a set", self.later
        );
        let _ = writeln!(out, "\nFonts that are read, by what they have");
        report::notes(&mut out, &self.notes);
        let _ = writeln!(out);
        let _ = writeln!(out, "original not asked, for its memory: {}", self.heavy);
        let _ = writeln!(out, "original panicked: {}", self.panics);
        let _ = writeln!(
            out,
            "outside the domain of the comparison with the original: {}, of which it reads {}",
            self.outside, self.outside_read
        );
        let _ = writeln!(
            out,
            "refusal 5 where the original, given a reserved nibble there, stops: {}, elsewhere: {}",
            self.confirmed,
            self.unconfirmed.len()
        );
        for case in self.unconfirmed.iter().take(PRINTED) {
            let _ = writeln!(out, "  {case}");
        }
        let Differences { first, count } = &mut self.differences;
        let _ = writeln!(out, "differences: {count}");
        first.sort_by(|a, b| a.place.cmp(&b.place));
        for (k, difference) in first.iter().take(PRINTED).enumerate() {
            let _ = writeln!(out, "\n{}", difference.case);
            for message in &difference.messages {
                let _ = writeln!(out, "  {message}");
            }
            let name = format!("difference-{k}.cff");
            report::font(&mut out, &difference.font, folder, &name);
        }
        out
    }
}

fn add(sum: &mut ByRefusal, more: ByRefusal) {
    for (n, m) in sum.iter_mut().zip(more) {
        *n += m;
    }
}

fn header(out: &mut String, last: &[&str]) {
    let numbers = (0..7).map(|k| k.to_string());
    let last = last.iter().map(|word| word.to_string());
    report::row(out, "", WIDTH, numbers.chain(last));
}

fn row(out: &mut String, label: &str, counts: &ByRefusal) {
    report::counts(out, label, WIDTH, counts);
}
