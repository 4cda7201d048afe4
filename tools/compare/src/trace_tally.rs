//! What a run of traces met, and its report.

use crate::hex;
use crate::report::{self, Differences};
use std::collections::BTreeMap;
use std::fmt::Write;
use std::path::Path;

/// The width of a count in the report.
const WIDTH: usize = 8;

pub struct Difference {
    pub case: String,
    pub message: String,
    pub font: Vec<u8>,
    pub keep: Vec<u16>,
    pub lent: String,
}

/// Flags 1 and 0, then refusals 1 to 7, then 11.
const COLUMNS: [&str; 10] = ["flag 1", "flag 0", "1", "2", "3", "4", "5", "6", "7", "11"];
type ByAnswer = [u64; COLUMNS.len()];

fn column(answer: Result<(u8, &[u8]), u8>) -> usize {
    match answer {
        Ok((1, _)) => 0,
        Ok(_) => 1,
        Err(number @ 1..=7) => 1 + usize::from(number),
        Err(_) => COLUMNS.len() - 1,
    }
}

#[derive(Default)]
pub struct TraceTally {
    pub fonts: u64,
    kinds: BTreeMap<(&'static str, &'static str), ByAnswer>,
    lists: BTreeMap<&'static str, ByAnswer>,
    /// Rows of the records wanted.
    pub rows: u64,
    /// Calls of the library for one glyph and glyph 0, beside those counted by answer.
    pub alone: u64,
    notes: BTreeMap<&'static str, u64>,
    differences: Differences<Difference>,
}

impl TraceTally {
    pub fn call(
        &mut self,
        kind: (&'static str, &'static str),
        list: &'static str,
        answer: Result<(u8, &[u8]), u8>,
    ) {
        let k = column(answer);
        self.kinds.entry(kind).or_default()[k] += 1;
        self.lists.entry(list).or_default()[k] += 1;
        if let Ok((_, bytes)) = answer {
            self.rows += bytes.len() as u64 / 10;
        }
    }

    pub fn note(&mut self, note: &'static str) {
        *self.notes.entry(note).or_default() += 1;
    }

    pub fn difference(&mut self, difference: Difference) {
        self.differences.push(difference);
    }

    pub fn differences(&self) -> u64 {
        self.differences.count
    }

    pub fn report(&self, folder: &Path) -> String {
        let mut out = String::new();
        let calls: u64 = self.kinds.values().flatten().sum();
        let _ = writeln!(
            out,
            "{} fonts, {calls} calls, {} rows compared, and {} calls for one glyph each",
            self.fonts, self.rows, self.alone
        );
        let _ = writeln!(out, "\nCalls by font and answer (the flag, or the refusal)");
        header(&mut out);
        let mut total = ByAnswer::default();
        for ((kind, state), counts) in &self.kinds {
            row(&mut out, &format!("{kind}, {state}"), counts);
            total.iter_mut().zip(counts).for_each(|(sum, n)| *sum += n);
        }
        row(&mut out, "all", &total);
        let _ = writeln!(out, "\nCalls by keep list");
        header(&mut out);
        for (list, counts) in &self.lists {
            row(&mut out, list, counts);
        }
        let _ = writeln!(out);
        report::notes(&mut out, &self.notes);
        let _ = writeln!(out, "\ndifferences: {}", self.differences.count);
        for (k, difference) in self.differences.first.iter().enumerate() {
            difference.tell(&mut out);
            let name = format!("trace-difference-{k}.cff");
            report::font(&mut out, &difference.font, folder, &name);
        }
        out
    }
}

impl Difference {
    /// All but the font.
    fn tell(&self, out: &mut String) {
        let Difference {
            case,
            message,
            keep,
            lent,
            ..
        } = self;
        let keep: Vec<u8> = keep.iter().flat_map(|k| k.to_be_bytes()).collect();
        let keep = hex(&keep[..keep.len().min(2000)]);
        let _ = writeln!(out, "\n{case}\n  {message}\n  lent: {lent}\n  keep {keep}");
    }
}

fn header(out: &mut String) {
    report::row(out, "", WIDTH, COLUMNS.iter().chain([&"all"]));
}

fn row(out: &mut String, label: &str, counts: &ByAnswer) {
    report::counts(out, label, WIDTH, counts);
}
