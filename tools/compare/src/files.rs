//! OpenType files (document 02, Wish 9): the library is given whole files, model and original the table in them.

use crate::cases::{self, Case, mixed};
use crate::cut::{Cut, Lent, WORDS};
use crate::cut_cases;
use crate::cut_compare;
use crate::cut_tally::CutTally;
use crate::domain::WISHES;
use crate::generator::Generator;
use crate::library::{COUNTS, Library, NO_ROOM, ONE, library};
use crate::model::{self, LONGEST, TOO_LONG, TRUNCATED, UNSUPPORTED};
use crate::tally::Tally;
use crate::trace;
use crate::trace_cases;
use crate::trace_compare;
use crate::trace_tally::TraceTally;
use crate::{compare, hex};
use std::cell::RefCell;
use std::collections::BTreeMap;
use std::fs;
use std::path::Path;

/// No table `CFF `.
const NO_TABLE: u8 = 15;

/// Bytes of a directory before its rows, and of a row.
const HEAD: usize = 12;
const ROW: usize = 16;

fn number(bytes: &[u8]) -> u64 {
    bytes.iter().fold(0, |v, &b| v << 8 | u64::from(b))
}

/// Where the font stands in a file, by document 02: start and length of its table, or the refusal.
pub fn place(file: &[u8]) -> Result<(usize, usize), u8> {
    if file.len() > LONGEST {
        return Err(TOO_LONG);
    }
    if !file.starts_with(b"OTTO") {
        return Ok((0, file.len()));
    }
    let count = number(file.get(4..6).ok_or(TRUNCATED)?) as usize;
    let rows = file.get(HEAD..HEAD + ROW * count).ok_or(TRUNCATED)?;
    let row = rows.chunks(ROW).find(|row| row.starts_with(b"CFF "));
    let row = row.ok_or(NO_TABLE)?;
    let (start, length) = (number(&row[8..12]), number(&row[12..16]));
    if start + length > file.len() as u64 {
        return Err(TRUNCATED);
    }
    Ok((start as usize, length as usize))
}

/// A file with these rows, tag, offset and length each, and bytes behind its directory.
fn file_of(rows: &[([u8; 4], u32, u32)], behind: &[u8]) -> Vec<u8> {
    let mut file = b"OTTO".to_vec();
    file.extend((rows.len() as u16).to_be_bytes());
    file.extend([0, 128, 0, 3, 0, 32]);
    for (k, (tag, start, length)) in rows.iter().enumerate() {
        file.extend(tag);
        file.extend((k as u32).wrapping_mul(0x9e37_79b9).to_be_bytes());
        file.extend(start.to_be_bytes());
        file.extend(length.to_be_bytes());
    }
    file.extend(behind);
    file
}

/// A font as a table of a file, between other tables.
pub fn wrapped(font: &[u8]) -> Vec<u8> {
    let before = font.len() % 5;
    let start = (HEAD + 4 * ROW + before) as u32;
    let length = font.len() as u32;
    let mut behind = vec![0xee; before];
    behind.extend(font);
    behind.extend(vec![0xdd; font.len() % 3]);
    let rows = [
        (*b"BASE", 0, 12),
        (*b"CFF2", start, 1),
        (*b"CFF ", start, length),
        (*b"CFF ", 0, 4),
    ];
    file_of(&rows, &behind)
}

thread_local! {
    /// A file, and start and length of its table.
    static WHOLE: RefCell<Option<(Vec<u8>, usize, usize)>> = const { RefCell::new(None) };
}

/// A call on the file whose table is the font: the one that is set, else one made for it.
fn in_file<T>(font: &[u8], call: impl FnOnce(&[u8]) -> T) -> T {
    WHOLE.with_borrow(|whole| match whole {
        Some((file, start, length)) if &file[*start..start + length] == font => call(file),
        _ => call(&wrapped(font)),
    })
}

/// The library, given a file where it is asked of a table.
pub fn by_files() -> Library {
    Library {
        read: |font, counts| in_file(font, |file| (library().read)(file, counts)),
        find_name: |font, name, glyph| {
            in_file(font, |file| (library().find_name)(file, name, glyph))
        },
        find_cid: |font, cid, glyph| in_file(font, |file| (library().find_cid)(file, cid, glyph)),
        item: |font, item, out, size| in_file(font, |file| (library().item)(file, item, out, size)),
        item_refusal: |font, item| in_file(font, |file| (library().item_refusal)(file, item)),
        subset: |font, cut, rooms| in_file(font, |file| (library().subset)(file, cut, rooms)),
        work: library().work,
        trace: |font, keep, record, answer| {
            in_file(font, |file| (library().trace)(file, keep, record, answer))
        },
    }
}

/// What damaged directories gave, and where the library differs.
#[derive(Default)]
pub struct Directories {
    /// How many, by what was done and by the answer.
    counts: BTreeMap<(&'static str, String), u64>,
    calls: u64,
    differences: Vec<String>,
}

impl Directories {
    fn report(&self) -> String {
        let mut by_answer: BTreeMap<&str, u64> = BTreeMap::new();
        let mut by_damage: BTreeMap<&str, u64> = BTreeMap::new();
        for ((done, answer), n) in &self.counts {
            *by_answer.entry(answer).or_default() += n;
            *by_damage.entry(done).or_default() += n;
        }
        let mut text = format!("directories by answer {by_answer:?}\nby damage {by_damage:?}\n");
        for line in self.differences.iter().take(20) {
            text += line;
            text.push('\n');
        }
        text += &format!(
            "{} calls, {} differences\n",
            self.calls,
            self.differences.len()
        );
        text
    }
}

/// A font among few, in a file; then what was done to its directory, and the file.
fn damaged(g: &mut Generator, fonts: &[Vec<u8>]) -> (&'static str, Vec<u8>) {
    let mut rows = Vec::new();
    let mut behind = g.bytes(3);
    let many = 1 + g.below(5);
    let at = g.below(many);
    let from = HEAD + ROW * many;
    for k in 0..many {
        let tag = *g.one_of(&[b"BASE", b"CFF2", b"OS/2", b"cff ", b"head"]);
        let font = &fonts[g.below(fonts.len())];
        let row = (from + behind.len()) as u32;
        let tag = if k == at || g.once_in(8) {
            *b"CFF "
        } else {
            tag
        };
        rows.push((tag, row, font.len() as u32));
        behind.extend(font);
    }
    let end = (from + behind.len()) as u32;
    let row = &mut rows[at];
    let done = match g.below(12) {
        0 => "as made",
        1 => {
            row.0[g.below(4)] ^= 1 << g.below(8);
            "tag"
        }
        2 => {
            row.1 = g.one_of(&[0, 4, end, end - 1, end + 1, u32::MAX, 1 << 31]);
            "offset"
        }
        3 => {
            row.2 = g.one_of(&[0, 1, 3, 4, end - row.1, end - row.1 + 1, u32::MAX]);
            "length"
        }
        4 => {
            row.1 = u32::MAX - g.below(40) as u32;
            row.2 = g.below(80) as u32;
            "past 32 bits"
        }
        5 => {
            (row.1, row.2) = (row.2, row.1);
            "swapped"
        }
        6 => {
            rows[g.below(many)].1 += 1;
            "one byte on"
        }
        _ => "",
    };
    let mut file = file_of(&rows, &behind);
    if !done.is_empty() {
        return (done, file);
    }
    match g.below(6) {
        0 => {
            file.truncate(g.below(from + 2));
            ("cut in the directory", file)
        }
        1 => {
            file.truncate(from + g.below(file.len() - from + 1));
            ("cut behind the directory", file)
        }
        2 => {
            let count = g.one_of(&[0, at, at + 1, many + 1, many + 9, 255, 65535]) as u16;
            file[4..6].copy_from_slice(&count.to_be_bytes());
            ("count", file)
        }
        3 => {
            let k = g.below(4);
            file[k] = if g.once_in(2) {
                g.byte()
            } else {
                file[k] ^ 0x20
            };
            ("version", file)
        }
        4 => {
            let k = g.below(from);
            file[k] ^= 1 << g.below(8);
            ("bit", file)
        }
        _ => {
            let k = g.below(from);
            file.remove(k);
            ("byte removed", file)
        }
    }
}

/// What each entry answers, the file's bytes being told.
fn answers(library: &Library, font: &[u8], keep: &[u16]) -> Vec<String> {
    let read = library.read(font, COUNTS);
    let cid_keyed = matches!(&read, Ok(Ok(counts)) if counts.cid_keyed == 1);
    let work = match &read {
        Ok(Ok(counts)) => counts.work as usize,
        _ => 4,
    };
    let mut all = vec![format!("{read:?}")];
    for name in [&b".notdef"[..], b"space", b"A", b""] {
        all.push(format!("{:?}", library.find_name(font, name, ONE)));
    }
    for cid in [0, 1, 5] {
        all.push(format!("{:?}", library.find_cid(font, cid, ONE)));
    }
    for item in [(0, 0), (0, 1), (1, 0), (2, 0), (2, 1), (3, 0)] {
        all.push(format!("{:?}", library.item(font, item, 1000, ONE)));
        all.push(format!("{}", (library.item_refusal)(font, item)));
    }
    let lent = trace::Lent {
        room: 4000,
        words: trace::WORDS,
    };
    let traced = library.trace(font, keep, lent);
    all.push(format!("{traced:?}"));
    let (flag, record) = match &traced {
        Ok(Ok((flag, record))) => (*flag as u8, record.clone()),
        _ => (0, Vec::new()),
    };
    for (keyed, words) in [(cid_keyed, work), (!cid_keyed, work), (cid_keyed, work / 2)] {
        let cut = Cut {
            cid_keyed: keyed,
            name: b"ABCDEF+Club".to_vec(),
            keep: keep.to_vec(),
            record: record.clone(),
            flag,
            record_kind: "traced",
            encoding: 0,
        };
        let lent = Lent {
            work: words,
            room: 4000,
            words: WORDS,
        };
        all.push(match library.subset(font, &cut, lent) {
            Ok(done) => format!("{:?} {}", done.answer, done.zeros),
            Err(message) => message,
        });
    }
    all
}

/// `count` files with damaged directories: reading as the model says, all else as of the table.
pub fn directories(seed: u64, count: usize) -> Directories {
    let made: Vec<Vec<u8>> = cut_cases::fonts(seed)
        .map(|case| case.font)
        .filter(|font| font.len() < 400)
        .take(300)
        .collect();
    let library = library();
    let mut all = Directories::default();
    for k in 0..count {
        let mut g = Generator::new(mixed(seed, 1 << 41 | k as u64));
        let (done, file) = damaged(&mut g, &made);
        let placed = place(&file);
        let wanted = placed.and_then(|(start, length)| {
            let reading = model::read(&file[start..start + length], WISHES);
            let font = reading.font.as_ref().map_err(|r| r.number);
            font.map(compare::counts)
        });
        let got = library.read(&file, COUNTS);
        all.calls += 1;
        let answer = match &wanted {
            Ok(_) => "read".to_string(),
            Err(number) => number.to_string(),
        };
        *all.counts.entry((done, answer)).or_default() += 1;
        if got != Ok(wanted) {
            let line = format!("{done}: {got:?} for {wanted:?}\n{}", hex(&file));
            all.differences.push(line);
        }
        let keep = [0, 1, g.below(4) as u16];
        let of_file = answers(&library, &file, &keep);
        all.calls += of_file.len() as u64;
        let as_of_table = |of_file: &Vec<String>| {
            placed.is_ok_and(|(start, length)| {
                *of_file == answers(&library, &file[start..start + length], &keep)
            })
        };
        let alike = match placed {
            // A table that begins with `OTTO` is a font of another version, and by itself a file.
            Ok((start, _)) if start != 0 || !file.starts_with(b"OTTO") => as_of_table(&of_file),
            Ok((_, length)) if length < 4 => as_of_table(&of_file),
            Ok(_) => all_refused(&of_file, UNSUPPORTED),
            Err(number) => all_refused(&of_file, number),
        };
        if !alike {
            let line = format!("{done}: {of_file:?}\n{}", hex(&file));
            all.differences.push(line);
        }
    }
    all
}

/// Is each answer that refusal, and no work word touched?
fn all_refused(answers: &[String], number: u8) -> bool {
    assert!(number != NO_ROOM);
    let forms = [
        format!("Ok(Err({number}))"),
        format!("{number}"),
        format!("Err({number}) 0"),
    ];
    answers.iter().all(|answer| forms.contains(answer))
}

/// The tallies of comparisons by whole files.
#[derive(Default)]
pub struct Whole {
    pub files: usize,
    pub read: Tally,
    pub cut: CutTally,
    pub traced: TraceTally,
}

/// The .otf files of a folder, and made fonts in files: reading, cuts and traces, model and original on the table.
pub fn whole(folder: &Path, seed: u64, count: usize) -> Whole {
    let mut paths: Vec<_> = fs::read_dir(folder)
        .into_iter()
        .flatten()
        .flatten()
        .map(|entry| entry.path())
        .collect();
    paths.sort();
    let library = by_files();
    let mut all = Whole::default();
    for path in paths {
        let file = fs::read(&path).expect("a file that was listed");
        let Ok((start, length)) = place(&file) else {
            println!("{}: no table", path.display());
            continue;
        };
        if !file.starts_with(b"OTTO") {
            println!("{}: no OpenType file of this kind", path.display());
            continue;
        }
        let case = Case {
            number: 0,
            kind: "real",
            state: "whole",
            font: file[start..start + length].to_vec(),
            file: path.display().to_string(),
        };
        all.files += 1;
        WHOLE.set(Some((file, start, length)));
        compare::compare(&library, &case, seed, &mut all.read);
        cut_compare::compare(&library, &case, seed, &mut all.cut, &cut_cases::real);
        trace_compare::compare(&library, &case, seed, &mut all.traced, &trace_cases::real);
        WHOLE.set(None);
    }
    for case in cases::made(seed).take(count / 5) {
        compare::compare(&library, &case, seed, &mut all.read);
    }
    for case in cut_cases::fonts(seed).take(count / 50) {
        cut_compare::compare(&library, &case, seed, &mut all.cut, &cut_cases::made);
        trace_compare::compare(&library, &case, seed, &mut all.traced, &trace_cases::made);
    }
    all
}

/// The summary of both, and the differences.
pub fn report(directories: &Directories, whole: &mut Whole, folder: &Path) -> (String, u64) {
    let mut text = directories.report();
    text += &format!("\n{} files whole\n", whole.files);
    text += &whole.read.report(folder);
    text += &whole.cut.report(folder);
    text += &whole.traced.report(folder);
    let differences = directories.differences.len() as u64
        + whole.read.differences()
        + whole.cut.differences()
        + whole.traced.differences();
    (text, differences)
}
