//! The command `mogdivash`: cuts a font file, an OpenType file (.otf) as it is or a bare CFF font, down to the letters in use.
//!
//! The cutting is the proved library's. What stands here is what a proof does not cover: words of the command line, the characters
//! of a file, and files.

mod args;
mod blocking;
mod check;
mod cmap;
mod composed;
mod failure;
mod help;
mod info;
mod odd;
mod output;
mod selection;
mod standard;
mod subset;

use args::Action;
use failure::Failure;
use std::env;
use std::io::{self, Write};
use std::process::ExitCode;

/// A line on standard output. Where that is closed, as behind `| head`, the work is not to end in a fault.
fn say(line: &str) {
    let _ = writeln!(io::stdout(), "{line}");
}

/// A line on standard error.
fn warn(line: &str) {
    let _ = writeln!(io::stderr(), "mogdivash: {line}");
}

fn run() -> Result<(), Failure> {
    match args::parse(env::args_os().skip(1))? {
        Action::Help => say(help::TEXT.trim_end()),
        Action::Version => say(&format!("mogdivash {}", mogdivash::VERSION)),
        Action::Info(font) => info::run(&font)?,
        Action::Subset(wanted) => subset::run(&wanted)?,
        Action::Blocking(wanted) => blocking::run(&wanted)?,
        Action::Check(checked) => check::run(&checked)?,
    }
    Ok(())
}

fn main() -> ExitCode {
    match run() {
        Ok(()) => ExitCode::SUCCESS,
        Err(failure) => {
            warn(&failure.to_string());
            ExitCode::from(failure.status())
        }
    }
}
