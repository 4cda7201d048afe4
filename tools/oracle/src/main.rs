//! Prints answers of the original Rust, one case a line, for the replay programs of crates/.
//! The sources under docs/src are compiled here as they are; of cff/ build.rs makes a copy, so that src/opened.rs reaches
//! its private functions.

mod cases;
mod charstring_cases;
mod decimals;
mod format_cases;
mod format_dicts;
mod generator;

// `mod cff`, of the copy.
include!(concat!(env!("OUT_DIR"), "/cff.rs"));
include!("siblings.rs");

use cases::Cases;
use generator::Generator;
use std::process::ExitCode;

fn main() -> ExitCode {
    let mut words = std::env::args().skip(1);
    let part = words.next().unwrap_or_default();
    let seed = words.next().unwrap_or_else(|| "1".to_string());
    let Ok(seed) = seed.parse() else {
        eprintln!("the seed is a decimal number, not {seed}");
        return ExitCode::FAILURE;
    };
    if part == "decimals" {
        let count = words
            .next()
            .and_then(|w| w.parse().ok())
            .unwrap_or(1_000_000);
        let same = decimals::run(&mut Generator::new(seed), count);
        return if same {
            ExitCode::SUCCESS
        } else {
            ExitCode::FAILURE
        };
    }
    let mut cases = Cases::new();
    let mut random = Generator::new(seed);
    match part.as_str() {
        "charstring" => charstring_cases::all(&mut cases, &mut random),
        "format" => {
            format_cases::all(&mut cases, &mut random);
            format_dicts::all(&mut cases, &mut random);
        }
        _ => {
            eprintln!(
                "usage: tools/oracle/run charstring [SEED] | format [SEED] | decimals [SEED] [COUNT]"
            );
            return ExitCode::FAILURE;
        }
    }
    cases.print();
    ExitCode::SUCCESS
}
