//! Fuzzing of the seams that no proof covers: the C functions as they are called, the binding, the command, the example in C and the Python
//! module. See README.md.

mod allocator;
mod checks;
mod corpus;
mod desk;
mod inputs;
mod lent;
mod otf;
mod programs;
mod seams;
mod threads;

use std::env;
use std::process::ExitCode;

#[global_allocator]
static ALLOCATOR: allocator::Guarding = allocator::Guarding;

const USAGE: &str = "usage: tools/fuzz/run [SEED] [COUNT]
of the program itself:
       fuzz seams SEED COUNT
       fuzz case SEED NUMBER
       fuzz threads SEED SECONDS
       fuzz command SEED COUNT PROGRAM FOLDER
       fuzz example SEED COUNT PROGRAM FOLDER
       fuzz corpus SEED COUNT FILE";

fn number(word: &str) -> Result<u64, String> {
    word.parse().map_err(|_| USAGE.to_string())
}

fn run(words: &[&str]) -> Result<(), String> {
    match *words {
        ["seams", seed, count] => seams::run(number(seed)?, number(count)?),
        ["case", seed, at] => seams::case(number(seed)?, number(at)?),
        ["threads", seed, seconds] => threads::run(number(seed)?, number(seconds)?),
        ["command", seed, count, program, folder] => {
            programs::command(number(seed)?, number(count)?, program, folder)
        }
        ["example", seed, count, program, folder] => {
            programs::example(number(seed)?, number(count)?, program, folder)
        }
        ["corpus", seed, count, file] => corpus::write(number(seed)?, number(count)?, file),
        _ => Err(USAGE.to_string()),
    }
}

fn main() -> ExitCode {
    let words: Vec<String> = env::args().skip(1).collect();
    let words: Vec<&str> = words.iter().map(String::as_str).collect();
    match run(&words) {
        Ok(()) => ExitCode::SUCCESS,
        Err(message) => {
            eprintln!("fuzz: {message}");
            ExitCode::from(1)
        }
    }
}

/// Bytes in hexadecimal, `-` for none.
fn hex(bytes: &[u8]) -> String {
    if bytes.is_empty() {
        return "-".to_string();
    }
    bytes.iter().map(|byte| format!("{byte:02x}")).collect()
}
