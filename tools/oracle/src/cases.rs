//! The list of cases: a line `KIND INPUT ANSWER` each, no line twice.

use std::collections::{BTreeMap, BTreeSet};
use std::fmt::Write;

pub struct Cases {
    lines: Vec<String>,
    seen: BTreeSet<String>,
    counts: BTreeMap<char, usize>,
}

impl Cases {
    pub fn new() -> Self {
        Cases {
            lines: Vec::new(),
            seen: BTreeSet::new(),
            counts: BTreeMap::new(),
        }
    }

    pub fn add(&mut self, kind: char, input: &[u8], answer: &[u8]) {
        let line = format!("{kind} {} {}", hex(input), hex(answer));
        if self.seen.insert(line.clone()) {
            self.lines.push(line);
            *self.counts.entry(kind).or_default() += 1;
        }
    }

    /// The lines to standard output, the number of each kind to standard error.
    pub fn print(&self) {
        let mut text = self.lines.join("\n");
        text.push('\n');
        print!("{text}");
        for (kind, count) in &self.counts {
            eprintln!("{kind} {count}");
        }
        eprintln!("{} cases, {} bytes", self.lines.len(), text.len());
    }
}

fn hex(bytes: &[u8]) -> String {
    if bytes.is_empty() {
        return "-".to_string();
    }
    let mut text = String::new();
    for b in bytes {
        write!(text, "{b:02x}").expect("writing to a string");
    }
    text
}
