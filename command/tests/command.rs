//! The command as it is called: what it prints, its exit statuses, and the files that it leaves.

mod made;

use mogdivash::Font;
use std::fs;
use std::path::PathBuf;
use std::process::{self, Command};

/// A folder of a test's own, in which the command is called.
struct Place(PathBuf);

/// What a call printed, and its exit status.
struct Told {
    status: i32,
    out: String,
    err: String,
}

impl Place {
    fn new(name: &str) -> Place {
        let place = std::env::temp_dir().join(format!("mogdivash-call-{}-{name}", process::id()));
        fs::create_dir_all(&place).unwrap();
        fs::write(place.join("made.otf"), made::otf()).unwrap();
        fs::write(place.join("made.cff"), made::font()).unwrap();
        Place(place)
    }

    fn call(&self, words: &[&str]) -> Told {
        let mut command = Command::new(env!("CARGO_BIN_EXE_mogdivash"));
        let output = command.args(words).current_dir(&self.0).output().unwrap();
        Told {
            status: output.status.code().unwrap(),
            out: String::from_utf8_lossy(&output.stdout).into_owned(),
            err: String::from_utf8_lossy(&output.stderr).into_owned(),
        }
    }

    /// The files beside the two fonts.
    fn files(&self) -> Vec<String> {
        let entries = fs::read_dir(&self.0).unwrap();
        let mut names: Vec<String> = entries
            .map(|entry| entry.unwrap().file_name().into_string().unwrap())
            .filter(|name| name != "made.otf" && name != "made.cff")
            .collect();
        names.sort();
        names
    }

    fn glyphs_of(&self, name: &str) -> u64 {
        let bytes = fs::read(self.0.join(name)).unwrap();
        Font::read(&bytes).unwrap().glyphs()
    }
}

impl Drop for Place {
    fn drop(&mut self) {
        let _ = fs::remove_dir_all(&self.0);
    }
}

/// Ends with that status, says this, and leaves no file.
fn fails(place: &Place, words: &[&str], status: i32, says: &str) {
    let told = place.call(words);
    assert_eq!(told.status, status, "{words:?}: {}", told.err);
    assert!(told.err.contains(says), "{words:?}: {}", told.err);
    assert_eq!(told.out, "");
    assert!(place.files().is_empty(), "{:?}", place.files());
}

#[test]
fn help_and_version() {
    let place = Place::new("help");
    let told = place.call(&["--help"]);
    assert_eq!((told.status, told.err.as_str()), (0, ""));
    assert!(told.out.contains("mogdivash subset FONT"));
    let version = include_str!("../../VERSION").trim();
    assert_eq!(
        place.call(&["--version"]).out,
        format!("mogdivash {version}\n")
    );
    // this crate has it from its own Cargo.toml
    assert_eq!(env!("CARGO_PKG_VERSION"), version);
}

#[test]
fn wrong_usage() {
    let place = Place::new("usage");
    fails(&place, &[], 2, "no command");
    fails(&place, &["subset", "made.otf"], 2, "what is to be kept?");
    fails(&place, &["subset", "made.otf", "--glyphs", "x"], 2, "\"x\"");
    fails(&place, &["info"], 2, "one font");
}

#[test]
fn refused_fonts() {
    let place = Place::new("refused");
    let other = made::file(&[(b"glyf", vec![0; 9])]);
    fs::write(place.0.join("made.otf"), other).unwrap();
    let words = ["subset", "made.otf", "--text", "e", "-o", "out.cff"];
    fails(
        &place,
        &words,
        1,
        "refused by 15: the OpenType file has no table",
    );
    fs::write(place.0.join("made.otf"), &made::otf()[..80]).unwrap();
    fails(&place, &words, 1, "refused by 1: the font is truncated");
    fails(&place, &["info", "made.otf"], 1, "refused by 1");
    fails(&place, &["info", "none.otf"], 1, "none.otf: ");
}

/// Two glyphs of one name: the later one cannot be kept, and is named.
#[test]
fn a_name_that_stands_twice() {
    let place = Place::new("twice");
    fs::write(place.0.join("made.cff"), made::named([70, 70, 1])).unwrap();
    let words = ["subset", "made.cff", "--glyphs", "1-2", "-o", "out.cff"];
    let says =
        "an earlier glyph has the name or CID of: glyph 2\nmogdivash: made.cff: refused by 7: ";
    fails(&place, &words, 1, says);
    let told = place.call(&["subset", "made.cff", "--glyphs", "1", "-o", "out.cff"]);
    assert_eq!((told.status, told.err.as_str()), (0, ""));
}

#[test]
fn glyphs_that_are_not_there() {
    let place = Place::new("absent");
    fails(
        &place,
        &["subset", "made.otf", "--text", "xyz"],
        1,
        "'x' (U+0078)",
    );
    fails(
        &place,
        &["subset", "made.otf", "--glyphs", "4"],
        1,
        "no glyph 4: there are 4",
    );
    fails(
        &place,
        &["subset", "made.otf", "--names", "e,A"],
        1,
        "no glyph A",
    );
    fails(
        &place,
        &["subset", "made.otf", "--cids", "1"],
        1,
        "has no CIDs",
    );
    fails(
        &place,
        &["subset", "made.cff", "--text", "e"],
        1,
        "needs an OpenType file",
    );
}

#[test]
fn a_text() {
    let place = Place::new("text");
    let told = place.call(&["subset", "made.otf", "--text", "eex", "-o", "out.cff"]);
    assert_eq!(told.status, 0);
    assert_eq!(
        told.err,
        "mogdivash: made.otf has no glyph for 'x' (U+0078)\n"
    );
    let bytes = fs::read(place.0.join("out.cff")).unwrap().len();
    let before = made::otf().len();
    let says = [
        "made.otf: kept 2 of 4 glyphs, all plain; only the subroutines in use, renumbered"
            .to_owned(),
        format!("out.cff: {bytes} bytes of {before}"),
    ];
    assert_eq!(told.out.lines().collect::<Vec<_>>(), says);
    assert_eq!(place.files(), ["out.cff"]);
    assert_eq!(place.glyphs_of("out.cff"), 2);
}

/// A text file with a mark at its start and ends of lines; the output's own name.
#[test]
fn a_text_file() {
    let place = Place::new("file");
    fs::write(place.0.join("text"), "\u{feff}e\r\ne\n").unwrap();
    let told = place.call(&["subset", "made.otf", "--text-file", "text"]);
    assert_eq!((told.status, told.err.as_str()), (0, ""));
    assert_eq!(place.files(), ["made.subset.cff", "text"]);
    fs::write(place.0.join("text"), b"\xff").unwrap();
    let told = place.call(&["subset", "made.otf", "--text-file", "text"]);
    assert_eq!(
        (told.status, told.err.as_str()),
        (1, "mogdivash: text: not UTF-8\n")
    );
}

/// Other ways to keep the same glyph give the same subset, a bare font too.
#[test]
fn ways_to_keep() {
    let place = Place::new("ways");
    for (out, words) in [
        ("a", ["made.otf", "--text", "e"]),
        ("b", ["made.otf", "--names", "e"]),
        ("c", ["made.otf", "--glyphs", "0-1"]),
        ("d", ["made.cff", "--names", "e"]),
    ] {
        let [font, option, value] = words;
        let told = place.call(&["subset", font, option, value, "--name", "N", "-o", out]);
        assert_eq!((told.status, told.err.as_str()), (0, ""), "{words:?}");
    }
    let subset = |name: &str| fs::read(place.0.join(name)).unwrap();
    assert!(
        ["b", "c", "d"]
            .iter()
            .all(|name| subset(name) == subset("a"))
    );
}

#[test]
fn composed_glyphs_are_named() {
    let place = Place::new("composed");
    let told = place.call(&["subset", "made.otf", "--text", "é", "-o", "out.cff"]);
    assert_eq!(told.status, 0);
    let says = "mogdivash: 'é' (U+00E9) is composed of e and acute; keep too: --names e,acute";
    assert!(
        told.err
            .contains("not plain: 'é' (U+00E9): nothing is promised of these")
    );
    assert!(told.err.contains(says), "{}", told.err);
    assert!(told.out.contains("not all plain; all subroutines copied"));
    let words = [
        "subset", "made.otf", "--text", "eé", "--names", "acute", "-o", "out.cff",
    ];
    let told = place.call(&words);
    assert!(told.err.contains("composed of e and acute; both are kept"));
    assert_eq!(place.glyphs_of("out.cff"), 4);
}

/// A device without an end is not read on and on.
#[test]
fn files_without_an_end() {
    let place = Place::new("endless");
    let zero = "/dev/zero";
    let says = "/dev/zero: more than 67108864 bytes";
    fails(
        &place,
        &["check", "made.otf", zero, "--glyphs", "1"],
        1,
        says,
    );
    fails(
        &place,
        &["subset", "made.otf", "--text-file", zero],
        1,
        says,
    );
    fails(&place, &["info", zero], 1, "/dev/zero: refused by 4");
}

#[test]
fn files_that_cannot_be_written() {
    let place = Place::new("written");
    let words = ["subset", "made.otf", "--text", "e", "-o"];
    fails(
        &place,
        &[&words[..], &["none/out.cff"]].concat(),
        1,
        "none/out.cff: ",
    );
    fails(&place, &[&words[..], &["."]].concat(), 1, "is a folder");
    fails(
        &place,
        &[&words[..], &["./made.otf"]].concat(),
        1,
        "the font itself",
    );
    assert_eq!(fs::read(place.0.join("made.otf")).unwrap(), made::otf());
}

/// A file that was there stays as it was where the call is refused.
#[test]
fn an_older_file_stays() {
    let place = Place::new("older");
    fs::write(place.0.join("out.cff"), "older").unwrap();
    let told = place.call(&["subset", "made.otf", "--names", "none", "-o", "out.cff"]);
    assert_eq!(told.status, 1);
    assert_eq!(fs::read(place.0.join("out.cff")).unwrap(), b"older");
    assert_eq!(place.files(), ["out.cff"]);
}

/// With a dash the subset stands on standard output, and what was done beside it.
#[test]
fn standard_output() {
    let place = Place::new("dash");
    let mut command = Command::new(env!("CARGO_BIN_EXE_mogdivash"));
    let words = ["subset", "made.otf", "--text", "e", "--encoding", "-o", "-"];
    let output = command.args(words).current_dir(&place.0).output().unwrap();
    assert_eq!(Font::read(&output.stdout).unwrap().glyphs(), 2);
    assert!(String::from_utf8_lossy(&output.stderr).contains("kept 2 of 4 glyphs"));
    assert!(place.files().is_empty());
}

#[test]
fn info() {
    let place = Place::new("info");
    let told = place.call(&["info", "made.otf"]);
    assert_eq!((told.status, told.err.as_str()), (0, ""));
    assert!(told.out.contains("glyphs              4, by names\n"));
    assert!(told.out.contains("OpenType file"));
    assert!(
        place
            .call(&["info", "made.cff"])
            .out
            .contains("bare CFF font")
    );
}

/// Records of another tracer: document 02, Wish 6.
#[test]
fn records() {
    let place = Place::new("records");
    let record = |bytes: &[u8]| fs::write(place.0.join("record"), bytes).unwrap();
    let words = ["check", "made.otf", "record", "--text", "e"];
    record(&[]);
    let told = place.call(&words);
    assert_eq!((told.status, told.err.as_str()), (0, ""));
    assert_eq!(
        told.out,
        "record: accepted: its 0 rows list all that 2 glyphs of made.otf meet\n"
    );
    record(&[1]);
    let told = place.call(&words);
    assert_eq!(told.status, 1);
    assert!(told.err.contains("record: refused by 8: "), "{}", told.err);
    // a global subroutine that does not exist
    record(&[1, 0, 0, 0, 0, 0, 0, 0, 0, 0]);
    let told = place.call(&words);
    assert_eq!(told.status, 1);
    assert!(told.err.contains("record: refused by 14: "), "{}", told.err);
    // a glyph that is not plain
    record(&[]);
    let told = place.call(&["check", "made.otf", "record", "--text", "é"]);
    assert_eq!(told.status, 1);
    assert!(told.err.contains("not plain: 'é'"), "{}", told.err);
    assert!(told.err.contains("record: refused by 14: "), "{}", told.err);
    assert_eq!(place.files(), ["record"]);
}

/// Which glyph costs the small file: document 02, Wish 12.
#[test]
fn blocking() {
    let place = Place::new("blocking");
    let told = place.call(&["blocking", "made.otf", "--text", "e"]);
    assert_eq!((told.status, told.err.as_str()), (0, ""));
    assert!(told.out.starts_with("made.otf: none: the subset is small"));
    let told = place.call(&["blocking", "made.otf", "--text", "é"]);
    assert_eq!(told.status, 0);
    assert!(
        told.out
            .starts_with("made.otf: none: a kept glyph is not plain")
    );
    assert!(place.files().is_empty());
}
