//! Cuts an OpenType file with CFF outlines, as it comes, down to the letters of a text, and writes the subset as a bare CFF font. The letters are
//! traced: where all are plain, the subset has only the subroutines that they reach.
//!
//!     cargo run --release --example subset_text -- FONT TEXT OUTPUT

mod sfnt;

use mogdivash::{Font, Way};
use std::error::Error;
use std::process::ExitCode;
use std::{env, fs};

/// The tag that a subset's name begins with in a PDF: six letters, by the glyphs that are kept.
fn tag(keep: &[u16]) -> String {
    let mut sum = keep.iter().fold(5381_u64, |sum, &glyph| {
        sum.wrapping_mul(33).wrapping_add(u64::from(glyph))
    });
    let mut letters = String::new();
    for _ in 0..6 {
        letters.push(char::from(b'A' + (sum % 26) as u8));
        sum /= 26;
    }
    letters
}

fn run(font_file: &str, text: &str, output: &str) -> Result<(), Box<dyn Error>> {
    let file = fs::read(font_file)?;
    let font = Font::read(&file)?;
    let cmap = sfnt::table(&file, *b"cmap").ok_or("the file has no table of characters")?;
    let mut keep = Vec::new();
    for letter in text.chars() {
        match sfnt::glyph(cmap, letter) {
            Some(glyph) => keep.push(glyph),
            None => eprintln!("the font has no glyph for {letter:?}"),
        }
    }
    keep.sort_unstable();
    keep.dedup();
    let name = format!("{}+Subset", tag(&keep));
    let subset = font.subset_traced(name.as_bytes(), &keep)?;
    fs::write(output, &subset.bytes)?;
    let way = match subset.way {
        Way::Renumbered => "subroutines renumbered",
        Way::Stubbed => "subroutines that are not reached stubbed",
        Way::Copied => "all subroutines copied",
    };
    println!(
        "{} of {} glyphs, {} of {} bytes, {way}",
        keep.len(),
        font.glyphs(),
        subset.bytes.len(),
        file.len()
    );
    Ok(())
}

fn main() -> ExitCode {
    let args: Vec<String> = env::args().skip(1).collect();
    let [font_file, text, output] = args.as_slice() else {
        eprintln!("usage: subset_text FONT TEXT OUTPUT");
        return ExitCode::from(2);
    };
    match run(font_file, text, output) {
        Ok(()) => ExitCode::SUCCESS,
        Err(error) => {
            eprintln!("subset_text: {error}");
            ExitCode::FAILURE
        }
    }
}
