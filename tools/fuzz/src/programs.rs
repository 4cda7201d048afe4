//! Programs over generated files and words: the command, and the example in C. Each is run in a folder of its own.

use crate::inputs::{self, Family};
use crate::otf::LETTERS;
use crate::seams::chance;
use made_fonts::generator::Generator;
use mogdivash::{Font, Record, Refusal, Subset};
use std::collections::BTreeMap;
use std::ffi::{OsStr, OsString};
use std::fs;
use std::os::unix::ffi::OsStringExt;
use std::path::{Path, PathBuf};
use std::process::{Command, Output, Stdio};
use std::time::Instant;

/// The exit status that the address sanitizer ends a program with: none of the program's own.
const SANITIZER: &str = "exitcode=86";

/// What a call asks for, where it is known what the answer is.
struct Known {
    name: Vec<u8>,
    keep: Vec<u16>,
    encoding: bool,
}

/// The words of a call.
struct Words {
    words: Vec<OsString>,
    known: Option<Known>,
}

/// The files of a folder and of the one below it, with their bytes.
type Files = BTreeMap<PathBuf, Vec<u8>>;

fn files(folder: &Path) -> Files {
    let mut all = Files::new();
    for entry in fs::read_dir(folder).expect("a folder") {
        let path = entry.expect("an entry").path();
        if path.is_dir() {
            all.extend(files(&path));
        } else {
            let bytes = fs::read(&path).unwrap_or_default();
            all.insert(path, bytes);
        }
    }
    all
}

/// The folder as it is before a call: a font, a text, a record, an older file, and a folder.
fn prepare(g: &mut Generator, folder: &Path, font_name: &OsStr, font: &[u8]) {
    let _ = fs::remove_dir_all(folder);
    fs::create_dir_all(folder.join("below")).expect("a folder");
    let put = |name: &OsStr, bytes: &[u8]| {
        fs::write(folder.join(name), bytes).expect("a file");
    };
    put(font_name, font);
    put("old".as_ref(), b"older");
    let mut words = text(g).into_bytes();
    if g.once_in(8) {
        words.extend(g.bytes(3));
    }
    put("text".as_ref(), &words);
    let traced = Font::read(font).and_then(|font| {
        let keep = inputs::keep(g, font.glyphs());
        font.trace(&keep)
    });
    let rows = traced.map_or(Vec::new(), |record| record.bytes().to_vec());
    put("record".as_ref(), &inputs::record(g, &rows, 1).0);
}

fn text(g: &mut Generator) -> String {
    let n = g.below(6);
    (0..n)
        .map(|_| match g.below(12) {
            0 => '\n',
            1 => '\u{feff}',
            2 => 'ß',
            _ => g.one_of(&LETTERS),
        })
        .collect()
}

/// Numbers and ranges of them, or no such list.
fn numbers(g: &mut Generator, glyphs: u64) -> (String, Option<Vec<u16>>) {
    if g.once_in(8) {
        let odd = [
            "",
            ",",
            "-",
            "1-",
            "-1",
            "3-1",
            "65536",
            "1,,2",
            "+1",
            "0x1",
            " 1",
            "1-2-3",
            "0-65535",
            "99999999999999999999",
        ];
        return (g.one_of(&odd).to_string(), None);
    }
    let mut all = Vec::new();
    let mut parts = Vec::new();
    for _ in 0..1 + g.below(4) {
        let past = usize::from(g.once_in(10));
        let first = g.below(glyphs.clamp(1, 65_000) as usize + past) as u16;
        let last = if g.once_in(3) {
            first + g.below(3) as u16
        } else {
            first
        };
        all.extend(first..=last);
        parts.push(if first == last {
            first.to_string()
        } else {
            format!("{first}-{last}")
        });
    }
    (parts.join(","), Some(all))
}

/// One option of what is kept, and the glyphs where they are known.
fn kept(g: &mut Generator, glyphs: u64) -> (Vec<OsString>, Option<Vec<u16>>) {
    let two = |option: &str, value: String| vec![option.into(), value.into()];
    match g.below(10) {
        0..=3 => {
            let (value, glyphs) = numbers(g, glyphs);
            (two("--glyphs", value), glyphs)
        }
        4 | 5 => (two("--text", text(g)), None),
        6 => {
            let mut file = g.one_of(&["text", "record", "none", "below", "/dev/null"]);
            if g.once_in(40) {
                file = "/dev/zero";
            }
            (two("--text-file", file.to_string()), None)
        }
        7 => (two("--cids", numbers(g, glyphs).0), None),
        _ => {
            let some = [
                "A", ".notdef", "B", "a,b", "space", "", "é", "A,,B", "aa", "b",
            ];
            (two("--names", g.one_of(&some).to_string()), None)
        }
    }
}

/// Words with something wrong.
fn disturbed(g: &mut Generator, words: &mut Vec<OsString>) {
    let odd: [&[u8]; 9] = [
        b"--",
        b"-",
        b"",
        b"--nothing",
        b"-o",
        b"\xff\xfe",
        b"--glyphs",
        b"a\xc3",
        b"--encoding",
    ];
    let word = OsString::from_vec(g.one_of(&odd).to_vec());
    let at = g.below(words.len() + 1);
    match g.below(4) {
        0 => words.insert(at, word),
        1 if at < words.len() => words[at] = word,
        2 if at < words.len() => {
            words.remove(at);
        }
        _ if at < words.len() => {
            let again = words[at].clone();
            words.insert(at, again);
        }
        _ => words.push(word),
    }
}

fn command_words(g: &mut Generator, font: &OsStr, glyphs: u64) -> Words {
    let which = g.one_of(&[
        "subset", "subset", "subset", "check", "blocking", "info", "none",
    ]);
    let mut words = match which {
        "none" => {
            let some = ["--help", "--version", "-h", "-V", "cut", ""];
            let words = (0..g.below(3)).map(|_| g.one_of(&some).into()).collect();
            Words { words, known: None }
        }
        "info" => Words {
            words: vec!["info".into(), font.to_os_string()],
            known: None,
        },
        _ => keeping_words(g, which, font, glyphs),
    };
    if g.once_in(6) {
        words.known = None;
        disturbed(g, &mut words.words);
    }
    words
}

/// The words of `subset`, `check` and `blocking`.
fn keeping_words(g: &mut Generator, which: &str, font: &OsStr, glyphs: u64) -> Words {
    let (mut words, mut known) = (vec![which.into(), font.to_os_string()], None);
    if which == "check" {
        let files = ["record", "record", "record", "text", "none", "below"];
        let file = if g.once_in(40) {
            "/dev/zero"
        } else {
            g.one_of(&files)
        };
        words.push(file.into());
    }
    let parts: Vec<_> = (0..1 + g.below(2)).map(|_| kept(g, glyphs)).collect();
    words.extend(parts.iter().flat_map(|(words, _)| words.clone()));
    if g.once_in(2) && which != "check" {
        let name = g.one_of(&["ABCDEF+Made", "", "é", "("]);
        words.extend(["--name".into(), name.into()]);
        let lists: Option<Vec<_>> = parts.into_iter().map(|(_, list)| list).collect();
        known = lists.map(|lists| Known {
            name: name.into(),
            keep: lists.concat(),
            encoding: false,
        });
    }
    if which == "subset" {
        output_words(g, font, &mut words, &mut known);
    } else {
        known = None;
    }
    Words { words, known }
}

/// `--encoding` and `-o` of a subset.
fn output_words(
    g: &mut Generator,
    font: &OsStr,
    words: &mut Vec<OsString>,
    known: &mut Option<Known>,
) {
    if g.once_in(4) {
        words.push("--encoding".into());
        if let Some(known) = known {
            known.encoding = true;
        }
    }
    if g.below(4) > 0 {
        let some = [
            "out.cff",
            "out.cff",
            "old",
            "-",
            "below/out",
            "below",
            ".",
            "none/out",
            "",
            "..",
            "/dev/null",
            "/dev/full",
            "old/out",
        ];
        let mut out = OsString::from(g.one_of(&some));
        if g.once_in(20) {
            out = font.to_os_string();
        }
        words.extend(["-o".into(), out]);
    }
}

fn output(program: &str, folder: &Path, words: &[OsString]) -> Output {
    let mut command = Command::new(program);
    command
        .args(words)
        .current_dir(folder)
        .env("ASAN_OPTIONS", SANITIZER)
        .env("UBSAN_OPTIONS", "print_stacktrace=1")
        .stdin(Stdio::null());
    command.output().expect("the program starts")
}

/// Ended by itself, with one of these statuses and without a sanitizer's word.
fn ended(output: &Output, statuses: &[i32]) -> Result<i32, String> {
    let said = String::from_utf8_lossy(&output.stderr);
    let status = output
        .status
        .code()
        .filter(|status| statuses.contains(status));
    let status = status.ok_or_else(|| format!("{}: {said}", output.status))?;
    for word in ["panicked", "Sanitizer", "runtime error"] {
        if said.contains(word) {
            return Err(format!("status {status}: {said}"));
        }
    }
    Ok(status)
}

/// What the binding gives for a call that is known.
fn answer(file: &[u8], known: &Known) -> Result<Subset, Refusal> {
    let font = Font::read(file)?;
    let mut keep = known.keep.clone();
    keep.sort_unstable();
    keep.dedup();
    let record: Record = font.trace(&keep)?;
    match known.encoding {
        true => font.subset_with_encoding(&known.name, &keep, &record),
        false => font.subset(&known.name, &keep, &record),
    }
}

/// The files after a call, by its status: as before, but for the subset of a call that was done.
fn left(before: &Files, after: &Files, done: bool) -> Result<Option<Vec<u8>>, String> {
    let gone = before.keys().find(|path| !after.contains_key(*path));
    if let Some(path) = gone {
        return Err(format!("{} is gone", path.display()));
    }
    let new: Vec<_> = after
        .iter()
        .filter(|(path, bytes)| before.get(*path) != Some(bytes))
        .collect();
    match new.as_slice() {
        [] => Ok(None),
        [(_, bytes)] if done => Ok(Some(bytes.to_vec())),
        _ => Err(format!(
            "files are left: {:?}",
            new.iter().map(|(path, _)| path).collect::<Vec<_>>()
        )),
    }
}

/// One call of the command: its exit status.
fn command_call(program: &str, folder: &Path, words: &Words, file: &[u8]) -> Result<i32, String> {
    let before = files(folder);
    let output = output(program, folder, &words.words);
    let status = ended(&output, &[0, 1, 2])?;
    if status != 0 && !output.stdout.is_empty() {
        return Err(format!("status {status} with words on standard output"));
    }
    if status != 0 && output.stderr.is_empty() {
        return Err(format!("status {status} without a word"));
    }
    let subset = words.words.first().is_some_and(|word| word == "subset");
    let mut written = left(&before, &files(folder), status == 0 && subset)?;
    let dash = words
        .words
        .windows(2)
        .any(|pair| pair[0] == "-o" && pair[1] == "-");
    if status == 0 && subset && dash && !output.stdout.starts_with(b"Cuts a font") {
        written = Some(output.stdout);
    }
    if let Some(bytes) = &written {
        Font::read(bytes).map_err(|refusal| format!("what was written is refused: {refusal}"))?;
    }
    match (
        words.known.as_ref().map(|known| answer(file, known)),
        written,
    ) {
        (Some(Ok(subset)), Some(bytes)) if bytes != subset.bytes => {
            Err("another subset than the binding's".to_string())
        }
        (Some(Err(refusal)), Some(_)) => Err(format!("written, though {refusal}")),
        _ => Ok(status),
    }
}

/// Many calls, and what is said of them.
fn calls(
    what: &str,
    count: u64,
    mut call: impl FnMut(u64) -> Result<i32, (String, String)>,
) -> Result<(), String> {
    let started = Instant::now();
    let mut statuses = [0_u64; 3];
    let mut failed = Vec::new();
    for number in 0..count {
        match call(number) {
            Ok(status) => statuses[status as usize] += 1,
            Err((words, message)) => failed.push(format!("call {number}: {words}: {message}")),
        }
        if failed.len() >= 10 {
            break;
        }
    }
    println!(
        "{what}: {count} runs, ended with status 0: {}, 1: {}, 2: {}; {:.0} seconds",
        statuses[0],
        statuses[1],
        statuses[2],
        started.elapsed().as_secs_f64()
    );
    match failed.len() {
        0 => Ok(()),
        n => Err(format!(
            "{n} runs of the {what} fail\n{}",
            failed.join("\n")
        )),
    }
}

fn glyphs_of(file: &[u8]) -> u64 {
    Font::read(file).map_or(3, |font| font.glyphs())
}

pub fn command(seed: u64, count: u64, program: &str, folder: &str) -> Result<(), String> {
    let seed = seed ^ 0x00c0_ffee;
    let folder = Path::new(folder);
    let names: [&[u8]; 4] = [b"made.otf", b"m d.cff", b"m\xff.otf", b"made"];
    calls("command", count, |number| {
        let mut g = chance(seed, number);
        let mut file = Family::of_input(None, seed, number).file(&mut g);
        // Text is looked up in an OpenType file alone.
        if g.once_in(2) && !file.starts_with(b"OTTO") {
            file = crate::otf::file(&mut g, &file);
        }
        let font_name = OsString::from_vec(g.one_of(&names).to_vec());
        prepare(&mut g, folder, &font_name, &file);
        let words = command_words(&mut g, &font_name, glyphs_of(&file));
        let done = command_call(program, folder, &words, &file);
        done.map_err(|message| {
            (
                format!("{:?}, the font {}", words.words, crate::hex(&file)),
                message,
            )
        })
    })
}

/// The words of the example in C: `[-e] FONT NAME OUTPUT GLYPH...`.
fn example_words(g: &mut Generator, glyphs: u64) -> Words {
    let encoding = g.once_in(3);
    let name = g.one_of(&["ABCDEF+Made", "", "A"]);
    let keep = inputs::keep(g, glyphs);
    let mut words: Vec<OsString> = Vec::new();
    if encoding {
        words.push("-e".into());
    }
    words.extend(["made.otf", name, "out.cff"].map(OsString::from));
    words.extend(keep.iter().map(|glyph| OsString::from(glyph.to_string())));
    let mut known = Some(Known {
        name: name.into(),
        keep,
        encoding,
    });
    match g.below(12) {
        0 => {
            known = None;
            let odd = [
                "-1",
                "x",
                "",
                "65536",
                "99999999999999999999999",
                "1x",
                "4294967296",
            ];
            words.push(g.one_of(&odd).into());
        }
        1 => {
            known = None;
            words.truncate(g.below(5));
        }
        _ => {}
    }
    Words { words, known }
}

pub fn example(seed: u64, count: u64, program: &str, folder: &str) -> Result<(), String> {
    let seed = seed ^ 0x0000_ce1e;
    let folder = Path::new(folder);
    calls("example in C", count, |number| {
        let mut g = chance(seed, number);
        let file = Family::of_input(None, seed, number).file(&mut g);
        prepare(&mut g, folder, "made.otf".as_ref(), &file);
        let words = example_words(&mut g, glyphs_of(&file));
        let done = example_call(program, folder, &words, &file);
        done.map_err(|message| {
            (
                format!("{:?}, the font {}", words.words, crate::hex(&file)),
                message,
            )
        })
    })
}

fn example_call(program: &str, folder: &Path, words: &Words, file: &[u8]) -> Result<i32, String> {
    let before = files(folder);
    let status = ended(&output(program, folder, &words.words), &[0, 1])?;
    let written = left(&before, &files(folder), status == 0)?;
    if let Some(known) = &words.known {
        let expected = answer(file, known).map(|subset| subset.bytes);
        if written.as_ref() != expected.as_ref().ok() {
            return Err(format!(
                "status {status}: another answer than the binding's, {:?}",
                expected.map(|bytes| bytes.len())
            ));
        }
    }
    Ok(status)
}
