//! Copies docs/src's cff/ below OUT_DIR and appends one line to the copy of mod.rs: the module src/opened.rs, which, as a
//! child, reaches the private functions. Their text stays as it is.

use std::path::Path;
use std::{env, fs};

fn main() {
    let here = env::var("CARGO_MANIFEST_DIR").expect("cargo sets it");
    let out = env::var("OUT_DIR").expect("cargo sets it");
    let from = Path::new(&here).join("../../docs/src/crates/efterscript-fonts/src/cff");
    let to = Path::new(&out).join("cff");
    fs::create_dir_all(&to).expect("a directory below OUT_DIR");
    for name in ["mod.rs", "charstring.rs", "write.rs"] {
        let source = from.join(name);
        println!("cargo::rerun-if-changed={}", source.display());
        let mut text = fs::read_to_string(&source).expect("a source of docs/src");
        if name == "mod.rs" {
            let opened = Path::new(&here).join("src/opened.rs");
            text.push_str(&format!("\n#[path = {opened:?}]\npub mod opened;\n"));
        }
        fs::write(to.join(name), text).expect("a copy below OUT_DIR");
    }
    let module = format!(
        "#[rustfmt::skip]\n#[allow(dead_code)]\n#[path = {:?}]\nmod cff;\n",
        to.join("mod.rs")
    );
    fs::write(Path::new(&out).join("cff.rs"), module).expect("a file below OUT_DIR");
}
