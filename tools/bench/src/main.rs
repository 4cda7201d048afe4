//! Times reading and subsetting, ours against the original Rust and HarfBuzz, on the same fonts in one run. See README.md.

#[cfg(feature = "counted")]
mod counted;
mod growth;
mod harfbuzz;
mod inputs;
mod made;
mod measure;
#[cfg(feature = "counted")]
mod memory;
mod original;
mod ours;
#[cfg(feature = "counted")]
mod painted;
mod reading;
mod sheet;
mod small;
mod stack;
mod table;
mod wide;

// `rustfmt::skip` keeps cargo fmt out of docs/src.
#[rustfmt::skip]
#[allow(dead_code)]
#[path = "../../../docs/src/crates/efterscript-fonts/src/cff/mod.rs"]
mod cff;
include!("../../oracle/src/siblings.rs");

// The original's writers with a record of ours in the place of its trace.
#[allow(dead_code)]
#[path = "../../compare/src/hooked.rs"]
mod hooked;
#[path = "../../compare/src/names.rs"]
mod names;
#[allow(dead_code)]
#[path = "../../compare/src/record.rs"]
mod record;

use std::process::ExitCode;
use std::{env, fs};

const USAGE: &str = "usage: tools/bench/run all|fonts|growth|read|wide|small|memory [FILE...]
       tools/bench/run stack|made
       tools/bench/run commands [WORD...]";

/// The files of a folder that `run` names by a variable.
fn folder(variable: &str) -> Vec<String> {
    let folder = env::var(variable).expect("run sets it");
    fs::read_dir(folder)
        .expect("target/fonts, target/wide: tools/compare/fonts makes them")
        .map(|entry| entry.expect("an entry").path().display().to_string())
        .collect()
}

/// The files that are named, or all of target/fonts.
fn fonts(named: &[String]) -> Vec<(String, Vec<u8>)> {
    if named.is_empty() {
        return read(folder("BENCH_FONTS"));
    }
    read(named.to_vec())
}

/// The same with those of target/wide.
fn wide_fonts(named: &[String]) -> Vec<(String, Vec<u8>)> {
    if named.is_empty() {
        return read([folder("BENCH_FONTS"), folder("BENCH_WIDE")].concat());
    }
    read(named.to_vec())
}

/// Their names and bytes.
fn read(mut files: Vec<String>) -> Vec<(String, Vec<u8>)> {
    files.sort();
    files
        .into_iter()
        .map(|file| {
            let bytes = fs::read(&file).expect("a font");
            let name = file.rsplit('/').next().unwrap_or(&file).to_owned();
            (name, bytes)
        })
        .collect()
}

fn main() -> ExitCode {
    let words: Vec<String> = env::args().skip(1).collect();
    match words.split_first() {
        Some((what, named)) if what == "all" => {
            let fonts = fonts(named);
            table::print(&fonts);
            growth::print(&fonts);
        }
        Some((what, named)) if what == "fonts" => table::print(&fonts(named)),
        Some((what, named)) if what == "growth" => growth::print(&fonts(named)),
        Some((what, named)) if what == "read" => reading::print(&fonts(named)),
        Some((what, named)) if what == "wide" => wide::print(&wide_fonts(named)),
        Some((what, named)) if what == "small" => small::print(&fonts(named)),
        #[cfg(feature = "counted")]
        Some((what, named)) if what == "memory" => memory::print(&fonts(named)),
        Some((what, [])) if what == "stack" => stack::print(),
        Some((what, [])) if what == "made" => inputs::print(),
        // A process of `made`'s own.
        Some((what, [side, call, kind, order])) if what == "made-try" => {
            inputs::attempt(side, call, kind, order);
        }
        // A process of `stack`'s own.
        Some((what, [call, font, rows, kib])) if what == "stack-try" => {
            return stack::attempt(call, font, rows, kib.parse().expect("a number"));
        }
        _ => {
            eprintln!("{USAGE}");
            return ExitCode::from(2);
        }
    }
    ExitCode::SUCCESS
}
