//! Cuts a CFF font, bare or in an OpenType file, down to the glyphs in use, as a document embeds it.
//!
//! The work is done by the static library of the crate `capi`, every function of which is proved: whatever the bytes are, a call
//! ends without a fault, answers as its definition says, and a refusal writes nothing. This crate allocates what a call is
//! lent and gives its answer a type.
//!
//! ```no_run
//! use mogdivash::Font;
//!
//! let bytes = std::fs::read("font.otf")?;
//! let font = Font::read(&bytes)?;
//! let found = font.find_names(&["R", "i", "d", "e", "r"]);
//! let keep: Vec<u16> = found.into_iter().flatten().collect();
//! let subset = font.subset_traced(b"ABCDEF+Font", &keep)?;
//! std::fs::write("subset.cff", &subset.bytes)?;
//! # Ok::<(), Box<dyn std::error::Error>>(())
//! ```

#![warn(missing_docs)]

pub mod ffi;
mod font;
mod glyphs;
mod record;
mod refusal;
mod short;
mod subset;

/// The version of the library and of this binding: that of the file VERSION.
pub const VERSION: &str = env!("CARGO_PKG_VERSION");

pub use font::{Font, Item};
pub use record::{Record, Row};
pub use refusal::Refusal;
pub use short::{ShortCharstrings, next_charstring};
pub use subset::{Subset, Way};
