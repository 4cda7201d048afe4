//! Links HarfBuzz's subsetter where its development package is there (cfg harfbuzz). `run` sets HARFBUZZ to its version, so that an
//! installation is noticed. Makes the copy of the original's writers that tools/compare makes.

#[path = "../compare/build.rs"]
mod hooked;

use std::process::Command;

fn main() {
    hooked::main();
    println!("cargo:rustc-check-cfg=cfg(harfbuzz)");
    println!("cargo:rerun-if-changed=build.rs");
    println!("cargo:rerun-if-env-changed=HARFBUZZ");
    let there = Command::new("pkg-config")
        .args(["--exists", "harfbuzz-subset"])
        .status()
        .is_ok_and(|status| status.success());
    if there {
        println!("cargo:rustc-cfg=harfbuzz");
        println!("cargo:rustc-link-lib=harfbuzz-subset");
        println!("cargo:rustc-link-lib=harfbuzz");
    }
}
