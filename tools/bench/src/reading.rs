//! Reading alone, of the files that are named: ours, and the original's.

use crate::cff::CffProgram;
use crate::measure;
use mogdivash::Font;
use std::io::Write;

/// A row for each font. Ours is printed first: the original may run out of memory, which ends the program.
pub fn print(fonts: &[(String, Vec<u8>)]) {
    println!("| font | bytes | ours, µs | Rust, µs |\n|---|---|---|---|");
    for (name, bytes) in fonts {
        let (ours, read) = measure::least(|| Font::read(bytes).is_ok());
        print!("| {name} | {} | {ours:.0} |", bytes.len());
        std::io::stdout().flush().expect("standard output");
        let (theirs, parsed) = measure::least(|| CffProgram::parse(bytes).is_ok());
        println!(" {theirs:.0} |");
        assert_eq!(read, parsed, "{name}: read by one alone");
    }
}
