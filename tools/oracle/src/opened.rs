//! The private functions of cff/mod.rs that `format` asks. build.rs appends this module to the copy of mod.rs.

use crate::program::FontError;

pub fn read_index(bytes: &[u8], pos: usize) -> Result<(Vec<&[u8]>, usize), FontError> {
    super::read_index(bytes, pos, "index")
}

pub fn parse_charset(bytes: &[u8], at: usize, n_glyphs: u16) -> Result<Vec<u16>, FontError> {
    super::parse_charset(bytes, at, n_glyphs)
}

pub fn parse_fd_select(bytes: &[u8], at: usize, n_glyphs: u16) -> Result<Vec<u8>, FontError> {
    super::parse_fd_select(bytes, at, n_glyphs)
}
