use super::*;
use std::os::unix::fs::{PermissionsExt, symlink};

/// A folder of its own for a test.
fn folder(name: &str) -> PathBuf {
    let folder = std::env::temp_dir().join(format!("mogdivash-{}-{name}", process::id()));
    fs::create_dir_all(&folder).unwrap();
    folder
}

fn names(folder: &Path) -> Vec<String> {
    let entries = fs::read_dir(folder).unwrap();
    let mut names: Vec<String> = entries
        .map(|entry| entry.unwrap().file_name().into_string().unwrap())
        .collect();
    names.sort();
    names
}

#[test]
fn nothing_else_is_left() {
    let folder = folder("new");
    let place = folder.join("a.cff");
    put(&place, b"one").unwrap();
    put(&place, b"second").unwrap();
    assert_eq!(fs::read(&place).unwrap(), b"second");
    assert_eq!(names(&folder), ["a.cff"]);
    fs::remove_dir_all(folder).unwrap();
}

/// The rename fails where the file beside cannot take the place: what was written beside is removed.
#[test]
fn a_failure_leaves_nothing() {
    let folder = folder("fails");
    let place = folder.join("taken");
    fs::create_dir(&place).unwrap();
    assert!(replace(&place, b"bytes", None).is_err());
    assert_eq!(put(&place, b"bytes").unwrap_err().status(), 1);
    assert!(put(&folder.join("none/a.cff"), b"bytes").is_err());
    assert_eq!(names(&folder), ["taken"]);
    fs::remove_dir_all(folder).unwrap();
}

/// Another program reads the old bytes or the new ones: the file it has opened stays as it was.
#[test]
fn a_reader_sees_one_of_them() {
    let folder = folder("reader");
    let place = folder.join("a.cff");
    put(&place, b"old").unwrap();
    let mut opened = File::open(&place).unwrap();
    put(&place, b"newer").unwrap();
    let mut seen = String::new();
    opened.read_to_string(&mut seen).unwrap();
    assert_eq!(seen, "old");
    fs::remove_dir_all(folder).unwrap();
}

#[test]
fn links_permissions_and_devices_stay() {
    let folder = folder("kinds");
    let (place, link) = (folder.join("a.cff"), folder.join("link"));
    put(&place, b"old").unwrap();
    fs::set_permissions(&place, fs::Permissions::from_mode(0o640)).unwrap();
    symlink(&place, &link).unwrap();
    put(&link, b"new").unwrap();
    assert!(fs::symlink_metadata(&link).unwrap().is_symlink());
    assert_eq!(fs::read(&place).unwrap(), b"new");
    let mode = fs::metadata(&place).unwrap().permissions().mode();
    assert_eq!(mode & 0o777, 0o640);
    put(Path::new("/dev/null"), b"gone").unwrap();
    assert!(!fs::metadata("/dev/null").unwrap().is_file());
    fs::remove_dir_all(folder).unwrap();
}
