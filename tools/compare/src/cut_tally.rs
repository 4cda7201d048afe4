//! What a run of cuts met, and its report.

use crate::cut::{Answer, Cut};
use crate::hex;
use crate::report::{self, Differences};
use std::collections::BTreeMap;
use std::fmt::Write;
use std::path::Path;

/// The width of a count in the report.
const WIDTH: usize = 7;

pub struct Difference {
    pub case: String,
    pub message: String,
    pub font: Vec<u8>,
    pub cut: Cut,
    pub lent: String,
}

/// Ways 0 to 2, then refusals 1 to 13.
const COLUMNS: usize = 16;
type ByAnswer = [u64; COLUMNS];

fn column(answer: &Answer<'_>) -> usize {
    match answer.subset {
        Ok(subset) => usize::from(subset.way),
        Err(number) => 2 + usize::from(number),
    }
}

#[derive(Default)]
pub struct CutTally {
    pub fonts: u64,
    keyings: BTreeMap<&'static str, ByAnswer>,
    kinds: BTreeMap<(&'static str, &'static str), ByAnswer>,
    records: BTreeMap<&'static str, ByAnswer>,
    /// What the fonts have of which a subset was given.
    notes: BTreeMap<&'static str, u64>,
    /// Fonts for which the original would take too much memory.
    pub heavy: u64,
    pub panics: u64,
    /// Fonts outside the domain of the comparison with the original, their cuts, and those too large for the model.
    pub outside: u64,
    pub outside_cuts: u64,
    pub outside_large: u64,
    /// Bytes of the subsets wanted.
    pub bytes: u64,
    /// Cuts that the model made too.
    pub modelled: u64,
    differences: Differences<Difference>,
}

impl CutTally {
    pub fn call(
        &mut self,
        (kind, state): (&'static str, &'static str),
        cut: &Cut,
        answer: &Answer<'_>,
    ) {
        let k = column(answer);
        let keying = if cut.cid_keyed {
            "cff_subset_cid"
        } else {
            "cff_subset"
        };
        self.keyings.entry(keying).or_default()[k] += 1;
        self.kinds.entry((kind, state)).or_default()[k] += 1;
        self.records.entry(cut.record_kind).or_default()[k] += 1;
        if let Ok(subset) = answer.subset {
            self.bytes += subset.bytes.len() as u64;
        }
    }

    pub fn note(&mut self, note: &'static str) {
        *self.notes.entry(note).or_default() += 1;
    }

    pub fn difference(&mut self, difference: Difference) {
        self.differences.push(difference);
    }

    pub fn differences(&self) -> u64 {
        self.differences.count
    }

    pub fn report(&self, folder: &Path) -> String {
        let mut out = String::new();
        let calls: u64 = self.keyings.values().flatten().sum();
        let _ = writeln!(
            out,
            "{} fonts, {calls} calls, {} bytes of subsets compared",
            self.fonts, self.bytes
        );
        let _ = writeln!(
            out,
            "\nCalls by entry and answer (w0 to w2: a subset of that way; else the refusal)"
        );
        header(&mut out);
        let mut total = ByAnswer::default();
        for (keying, counts) in &self.keyings {
            row(&mut out, keying, counts);
            total.iter_mut().zip(counts).for_each(|(sum, n)| *sum += n);
        }
        row(&mut out, "all", &total);
        let share = |n: u64| format!("{:.2}", 100.0 * n as f64 / calls.max(1) as f64);
        report::row(&mut out, "share in 100", WIDTH, total.map(share));
        let _ = writeln!(out, "\nCalls by font");
        header(&mut out);
        for ((kind, state), counts) in &self.kinds {
            row(&mut out, &format!("{kind}, {state}"), counts);
        }
        let _ = writeln!(out, "\nCalls by record");
        header(&mut out);
        for (kind, counts) in &self.records {
            row(&mut out, kind, counts);
        }
        let _ = writeln!(
            out,
            "\nFonts of which a subset was given, by what they have"
        );
        report::notes(&mut out, &self.notes);
        let _ = writeln!(out, "\noriginal not asked, for its memory: {}", self.heavy);
        let _ = writeln!(out, "original panicked: {}", self.panics);
        let _ = writeln!(
            out,
            "outside the domain of the comparison with the original: {} fonts, {} cuts, of which {} not asked, for their size",
            self.outside, self.outside_cuts, self.outside_large
        );
        let _ = writeln!(out, "subsets that the model made too: {}", self.modelled);
        let _ = writeln!(out, "differences: {}", self.differences.count);
        for (k, difference) in self.differences.first.iter().enumerate() {
            difference.tell(&mut out);
            let name = format!("subset-difference-{k}.cff");
            report::font(&mut out, &difference.font, folder, &name);
        }
        out
    }
}

impl Difference {
    /// All but the font.
    pub fn tell(&self, out: &mut String) {
        let Difference {
            case,
            message,
            cut,
            lent,
            ..
        } = self;
        let _ = writeln!(out, "\n{case}\n  {message}\n  lent: {lent}");
        let keep: Vec<u8> = cut.keep.iter().flat_map(|k| k.to_be_bytes()).collect();
        let short = |bytes: &[u8]| hex(&bytes[..bytes.len().min(2000)]);
        let _ = writeln!(
            out,
            "  CID entry {}, encoding {}, name {}, keep {}, flag {}, record {}",
            cut.cid_keyed,
            cut.encoding,
            short(&cut.name[..cut.name.len().min(20)]),
            short(&keep),
            cut.flag,
            short(&cut.record)
        );
    }
}

fn header(out: &mut String) {
    let ways = (0..3).map(|way| format!("w{way}"));
    let refusals = (1..=13).map(|number| number.to_string());
    let last = ["all".to_string()];
    report::row(out, "", WIDTH, ways.chain(refusals).chain(last));
}

fn row(out: &mut String, label: &str, counts: &ByAnswer) {
    report::counts(out, label, WIDTH, counts);
}
