//! Makes the copy of docs/src's cff/write.rs whose `trace` can be told what to answer.

use std::path::Path;
use std::{env, fs};

/// The line that the copy changes: the name alone.
const TRACE: &str = "fn trace(program: &CffProgram, gids: &BTreeSet<u16>) -> Option<Reached> {";
const TRACED: &str = "fn traced(program: &CffProgram, gids: &BTreeSet<u16>) -> Option<Reached> {";

/// What the copy has besides.
const ADDED: &str = "
/// What src/hooked.rs says, which may ask the original.
fn trace(program: &CffProgram, gids: &BTreeSet<u16>) -> Option<Reached> {
    super::trace(program, gids, traced)
}

/// The way in which the subset of these glyphs is pruned: 0 renumbered, 1 stubbed, 2 copied.
pub fn way(program: &CffProgram, gids: &BTreeSet<u16>) -> u8 {
    match program.privates() {
        Privates::Single(private) => match trace(program, gids) {
            None => 2,
            Some(reached) => u8::from(renumber(program, private, gids, &reached).is_none()),
        },
        Privates::Cid { dicts, select } => {
            let groups = glyphs_by_fd(select, gids);
            let traces: Option<Vec<Reached>> =
                groups.iter().map(|(_, gids)| trace(program, gids)).collect();
            match traces {
                None => 2,
                Some(traces) => u8::from(renumber_cid(program, dicts, &groups, &traces).is_none()),
            }
        }
    }
}
";

/// Writes the copy, and a file that names it as a module. tools/bench does it too.
pub fn main() {
    let here = env::var("CARGO_MANIFEST_DIR").expect("cargo sets it");
    let out = env::var("OUT_DIR").expect("cargo sets it");
    let source = Path::new(&here).join("../../docs/src/crates/efterscript-fonts/src/cff/write.rs");
    println!("cargo:rerun-if-changed=build.rs");
    println!("cargo:rerun-if-changed={}", source.display());
    let text = fs::read_to_string(&source).expect("a source of docs/src");
    assert_eq!(text.matches(TRACE).count(), 1, "trace of write.rs");
    let copy = Path::new(&out).join("write.rs");
    fs::write(&copy, text.replace(TRACE, TRACED) + ADDED).expect("a copy below OUT_DIR");
    let module =
        format!("#[rustfmt::skip]\n#[allow(dead_code)]\n#[path = {copy:?}]\npub mod write;\n");
    fs::write(Path::new(&out).join("hooked.rs"), module).expect("a file below OUT_DIR");
}
