//! `mogdivash info`: what reading a font answers.

use crate::cmap::Cmap;
use crate::failure::Failure;
use crate::output;
use crate::say;
use mogdivash::Font;
use std::path::Path;

pub fn run(path: &Path) -> Result<(), Failure> {
    let file = output::font_bytes(path)?;
    let font = Font::read(&file).map_err(|refusal| Failure::refused(path, refusal))?;
    let form = match file.starts_with(b"OTTO") {
        true => "OpenType file",
        false => "bare CFF font",
    };
    let keying = match font.is_cid_keyed() {
        true => "by CIDs",
        false => "by names",
    };
    let characters = match Cmap::of_file(&file) {
        Some(_) => "by the table cmap (--text)",
        None => "no table cmap: --text cannot be used",
    };
    say(&format!("file                {form}, {} bytes", file.len()));
    say(&format!("glyphs              {}, {keying}", font.glyphs()));
    say(&format!("characters          {characters}"));
    say(&format!("global subroutines  {}", font.globals()));
    say(&format!("strings             {}", font.strings()));
    say(&format!("work words          {}", font.work_words()));
    Ok(())
}
