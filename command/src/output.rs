//! Files, written whole or not at all: beside their place, and then renamed.

use crate::failure::Failure;
use std::fs::{self, File, OpenOptions};
use std::io::{self, Read, Write};
use std::path::{Path, PathBuf};
use std::process;

/// The longest font, and the longest text and record that are taken: what has no end, as a device, is not read on and on.
const LONGEST: usize = 67_108_864;

/// The bytes of a font's file, of which one more than the longest font are enough to be refused by 4.
pub fn font_bytes(path: &Path) -> Result<Vec<u8>, Failure> {
    read_some(path).map_err(|error| Failure::file(path, &error))
}

/// A file that says its length is read at once, what may have no end, as a device, until there are enough.
fn read_some(path: &Path) -> io::Result<Vec<u8>> {
    let mut file = File::open(path)?;
    let mut bytes = Vec::new();
    let there = file.metadata()?;
    if there.is_file() && (1..=LONGEST as u64).contains(&there.len()) {
        file.read_to_end(&mut bytes)?;
    } else {
        file.take(LONGEST as u64 + 1).read_to_end(&mut bytes)?;
    }
    Ok(bytes)
}

/// The bytes of another file.
pub fn file_bytes(path: &Path) -> Result<Vec<u8>, Failure> {
    let bytes = font_bytes(path)?;
    if bytes.len() > LONGEST {
        let name = path.display();
        return Err(Failure::work(format!("{name}: more than {LONGEST} bytes")));
    }
    Ok(bytes)
}

/// Writes to standard output where the path is a dash, else the whole file.
pub fn put(path: &Path, bytes: &[u8]) -> Result<(), Failure> {
    let done = match path.as_os_str().to_str() {
        Some("-") => standard_output(bytes),
        _ => whole_file(path, bytes),
    };
    done.map_err(|error| Failure::file(path, &error))
}

fn standard_output(bytes: &[u8]) -> io::Result<()> {
    let mut out = io::stdout();
    out.write_all(bytes)?;
    out.flush()
}

/// What is there and is no plain file, as a device or a pipe, is written to and not replaced. A link is followed, so that it stays one.
fn whole_file(path: &Path, bytes: &[u8]) -> io::Result<()> {
    match fs::metadata(path) {
        Ok(there) if there.is_file() => {
            let place = fs::canonicalize(path)?;
            replace(&place, bytes, Some(there.permissions()))
        }
        Ok(there) if there.is_dir() => Err(io::Error::other("is a folder")),
        Ok(_) => OpenOptions::new().write(true).open(path)?.write_all(bytes),
        Err(_) => replace(path, bytes, None),
    }
}

fn replace(place: &Path, bytes: &[u8], permissions: Option<fs::Permissions>) -> io::Result<()> {
    let beside = beside(place)?;
    let mut file = OpenOptions::new()
        .write(true)
        .create_new(true)
        .open(&beside)?;
    let written = file
        .write_all(bytes)
        .and_then(|()| file.sync_all())
        .and_then(|()| permissions.map_or(Ok(()), |bits| file.set_permissions(bits)))
        .and_then(|()| fs::rename(&beside, place));
    if written.is_err() {
        let _ = fs::remove_file(&beside);
    }
    written
}

/// A name in the same folder that no other process takes.
fn beside(place: &Path) -> io::Result<PathBuf> {
    let name = place
        .file_name()
        .ok_or_else(|| io::Error::other("is no name of a file"))?;
    let mut hidden = std::ffi::OsString::from(".");
    hidden.push(name);
    hidden.push(format!(".{}", process::id()));
    Ok(place.with_file_name(hidden))
}

#[cfg(test)]
#[path = "output_tests.rs"]
mod tests;
