//! Links the proved library: libmogdivash.a of the folder that MOGDIVASH_LIB names, or libcapi.a, which `rt lib` makes in crates/capi, of that
//! folder or of crates/capi/out of the repository, or else what tools/library has put into build/. Holds the version to the file VERSION.

use std::path::{Path, PathBuf};
use std::{env, fs};

/// The names of the library: as it is installed, and as `rt` writes it.
const NAMES: [&str; 2] = ["mogdivash", "capi"];

fn archive(dir: &Path, name: &str) -> PathBuf {
    dir.join(format!("lib{name}.a"))
}

/// The folders that are looked into.
fn folders(root: &Path) -> Vec<PathBuf> {
    match env::var_os("MOGDIVASH_LIB") {
        Some(dir) => vec![dir.into()],
        None => vec![root.join("crates/capi/out"), root.join("build")],
    }
}

fn link(root: &Path) {
    let folders = folders(root);
    let places = folders
        .iter()
        .flat_map(|dir| NAMES.map(|name| (dir.clone(), name)));
    let found = places
        .into_iter()
        .find(|(dir, name)| archive(dir, name).exists());
    let Some((dir, name)) = found else {
        panic!(
            "no library in {folders:?}: run tools/library or `rt lib` in crates/capi, or set MOGDIVASH_LIB"
        );
    };
    println!("cargo:rerun-if-changed={}", archive(&dir, name).display());
    println!("cargo:rustc-link-search=native={}", dir.display());
    println!("cargo:rustc-link-lib=static={name}");
}

/// The version stands in the file VERSION; cargo wants it once more. Away from the repository there is no such file.
fn check_version(root: &Path) {
    let file = root.join("VERSION");
    let Ok(version) = fs::read_to_string(&file) else {
        return;
    };
    println!("cargo:rerun-if-changed={}", file.display());
    let cargo = env::var("CARGO_PKG_VERSION").expect("cargo sets it");
    assert_eq!(
        version.trim(),
        cargo,
        "the version of Cargo.toml is not that of VERSION"
    );
}

fn main() {
    println!("cargo:rerun-if-env-changed=MOGDIVASH_LIB");
    let here = env::var_os("CARGO_MANIFEST_DIR").expect("cargo sets it");
    let root = PathBuf::from(here).join("../..");
    check_version(&root);
    link(&root);
}
