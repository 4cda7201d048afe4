// What docs/src's cff/ names beside itself. Each tool includes this at its root, where `crate::` of these files leads:
// three files of docs/src as they are, and stubs for those that docs/src does not hold.

#[allow(dead_code)]
#[path = "../../../docs/src/crates/efterscript-fonts/src/encoding.rs"]
mod encoding;
#[allow(dead_code)]
#[path = "../../../docs/src/crates/efterscript-fonts/src/outline.rs"]
mod outline;
#[allow(dead_code)]
#[path = "../../../docs/src/crates/efterscript-fonts/src/program.rs"]
mod program;
#[allow(dead_code)]
mod stubs;
use stubs::{cidfont, truetype, type1};
