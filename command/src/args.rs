//! The words of the command line.

use crate::failure::Failure;
use std::ffi::{OsStr, OsString};
use std::path::PathBuf;

/// What is asked for.
#[derive(Debug, PartialEq)]
pub enum Action {
    Help,
    Version,
    Info(PathBuf),
    Subset(Wanted),
    Check(Checked),
    Blocking(Wanted),
}

/// What is to be kept: one option of the command line.
#[derive(Debug, PartialEq)]
pub enum Keep {
    Text(String),
    TextFile(PathBuf),
    Glyphs(Vec<u16>),
    Names(Vec<String>),
    Cids(Vec<u16>),
}

/// The words of `subset`.
#[derive(Debug, PartialEq)]
pub struct Wanted {
    pub font: PathBuf,
    pub keep: Vec<Keep>,
    pub name: Option<String>,
    pub encoding: bool,
    pub output: Option<PathBuf>,
}

/// The words of `check`.
#[derive(Debug, PartialEq)]
pub struct Checked {
    pub font: PathBuf,
    pub record: PathBuf,
    pub keep: Vec<Keep>,
}

pub fn parse(words: impl Iterator<Item = OsString>) -> Result<Action, Failure> {
    let words: Vec<OsString> = words.collect();
    if words.iter().any(|word| word == "--help" || word == "-h") {
        return Ok(Action::Help);
    }
    let (first, rest) = words
        .split_first()
        .ok_or_else(|| Failure::usage("no command"))?;
    match first.to_str() {
        Some("--version" | "-V") if rest.is_empty() => Ok(Action::Version),
        Some("info") => match rest {
            [font] if !is_option(font) => Ok(Action::Info(font.into())),
            _ => Err(Failure::usage("info takes one font")),
        },
        Some("subset") => subset(rest).map(Action::Subset),
        Some("blocking") => blocking(rest).map(Action::Blocking),
        Some("check") => check(rest).map(Action::Check),
        _ => Err(Failure::usage(format!("no such command: {}", shown(first)))),
    }
}

/// A word that begins with a dash, but not the dash alone, which stands for standard output.
fn is_option(word: &OsStr) -> bool {
    word.as_encoded_bytes().starts_with(b"-") && word != "-"
}

fn shown(word: &OsStr) -> String {
    word.to_string_lossy().into_owned()
}

/// The files and the options of a command that keeps glyphs.
#[derive(Default)]
struct Words {
    files: Vec<PathBuf>,
    keep: Vec<Keep>,
    name: Option<String>,
    encoding: bool,
    output: Option<PathBuf>,
}

fn taken(words: &[OsString]) -> Result<Words, Failure> {
    let mut taken = Words::default();
    let mut words = words.iter();
    while let Some(word) = words.next() {
        if word == "--encoding" {
            taken.encoding = true;
        } else if is_option(word) {
            let value = words
                .next()
                .ok_or_else(|| Failure::usage(format!("{} takes a word", shown(word))))?;
            match word.to_str() {
                Some("-o") => once(&mut taken.output, "-o", value.into())?,
                Some("--name") => once(&mut taken.name, "--name", text(word, value)?)?,
                _ => taken.keep.push(kept(word, value)?),
            }
        } else {
            taken.files.push(word.into());
        }
    }
    if taken.keep.is_empty() {
        return Err(Failure::usage(
            "what is to be kept? --text, --text-file, --glyphs, --names or --cids",
        ));
    }
    Ok(taken)
}

fn subset(words: &[OsString]) -> Result<Wanted, Failure> {
    let words = taken(words)?;
    let [font] = words.files.as_slice() else {
        return Err(Failure::usage("one font is taken"));
    };
    Ok(Wanted {
        font: font.clone(),
        keep: words.keep,
        name: words.name,
        encoding: words.encoding,
        output: words.output,
    })
}

fn check(words: &[OsString]) -> Result<Checked, Failure> {
    let words = taken(words)?;
    if words.name.is_some() || words.encoding || words.output.is_some() {
        return Err(Failure::usage(
            "check writes nothing: no --name, --encoding or -o",
        ));
    }
    let [font, record] = words.files.as_slice() else {
        return Err(Failure::usage("check takes a font and a record"));
    };
    Ok(Checked {
        font: font.clone(),
        record: record.clone(),
        keep: words.keep,
    })
}

/// The words of `subset`, but for those of what it writes.
fn blocking(words: &[OsString]) -> Result<Wanted, Failure> {
    let wanted = subset(words)?;
    if wanted.encoding || wanted.output.is_some() {
        return Err(Failure::usage(
            "blocking writes nothing: no --encoding or -o",
        ));
    }
    Ok(wanted)
}

/// Sets what may stand once.
fn once<T>(place: &mut Option<T>, what: &str, value: T) -> Result<(), Failure> {
    match place.replace(value) {
        None => Ok(()),
        Some(_) => Err(Failure::usage(format!("{what} stands twice"))),
    }
}

/// A word that must be text.
fn text(option: &OsStr, value: &OsStr) -> Result<String, Failure> {
    let found = value.to_str().map(str::to_owned);
    found.ok_or_else(|| Failure::usage(format!("the word of {} is not UTF-8", shown(option))))
}

fn kept(option: &OsStr, value: &OsStr) -> Result<Keep, Failure> {
    Ok(match option.to_str() {
        Some("--text") => Keep::Text(text(option, value)?),
        Some("--text-file") => Keep::TextFile(value.into()),
        Some("--glyphs") => Keep::Glyphs(numbers(option, &text(option, value)?)?),
        Some("--cids") => Keep::Cids(numbers(option, &text(option, value)?)?),
        Some("--names") => Keep::Names(names(&text(option, value)?)?),
        _ => return Err(Failure::usage(format!("no such option: {}", shown(option)))),
    })
}

fn names(value: &str) -> Result<Vec<String>, Failure> {
    let names: Vec<String> = value.split(',').map(str::to_owned).collect();
    if names.iter().any(String::is_empty) {
        return Err(Failure::usage("--names has an empty name"));
    }
    Ok(names)
}

/// Numbers of 16 bits: N, or N-M for those from N to M.
fn numbers(option: &OsStr, value: &str) -> Result<Vec<u16>, Failure> {
    let mut all = Vec::new();
    for part in value.split(',') {
        let (first, last) = part.split_once('-').unwrap_or((part, part));
        match (number(first), number(last)) {
            (Some(first), Some(last)) if first <= last => all.extend(first..=last),
            _ => {
                let option = shown(option);
                return Err(Failure::usage(format!(
                    "{option}: {part:?} is no number up to 65535 and no N-M"
                )));
            }
        }
    }
    Ok(all)
}

/// Decimal digits alone: what `parse` takes without a sign.
fn number(word: &str) -> Option<u16> {
    let digits = !word.is_empty() && word.bytes().all(|byte| byte.is_ascii_digit());
    word.parse().ok().filter(|_| digits)
}

#[cfg(test)]
#[path = "args_tests.rs"]
mod tests;
