//! Inputs that were made to be slow, each in a process of its own, with a limit on its time and on its memory: ours, the original, and what
//! both took before.

use crate::cff::CffProgram;
use crate::measure::{SLOW, least_in};
use crate::record::{self, GLOBAL, GLOBAL_MASK, GLYPH_MASK, LOCAL, LOCAL_MASK, Row};
use crate::{made, original, ours, sheet};
use mogdivash::Font;
use std::hash::{DefaultHasher, Hash, Hasher};
use std::io::{Read, Write};
use std::process::{Child, Command, Stdio};
use std::time::{Duration, Instant};
use std::{env, fs};

/// What a process may take: seconds, and KiB of address space.
const SECONDS: u64 = 60;
const KIB: usize = 4_000_000;

/// A line of the table: words, call, kind of font, order of its rows, and what ours and the original took before (seconds; a dash where
/// nobody has measured it).
struct Line {
    words: &'static str,
    call: &'static str,
    kind: &'static str,
    order: &'static str,
    before: &'static str,
    theirs_before: &'static str,
}

const fn line(
    words: &'static str,
    [call, kind, order]: [&'static str; 3],
    [before, theirs_before]: [&'static str; 2],
) -> Line {
    Line {
        words,
        call,
        kind,
        order,
        before,
        theirs_before,
    }
}

const CJK: &str = "NotoSansCJK-Regular, all glyphs, 342,878 rows";
const ONE: &str = "one glyph with 200,000 masks, as many rows, 0.4 MB";
const MANY: &str = "one glyph with 10 million masks, 6,000 rows, 20 MB";
const SUBRS: &str = "131,070 subroutines, 262,140 rows";
const FDS: &str = "65,535 FDs that alternate between two Privates of 100 KB, 1.1 MB";
const REALS: &str = "top DICT of 60 MB of reals";

const LINES: [Line; 14] = [
    line(CJK, ["subset", "cjk", "rising"], ["0.16", "–"]),
    line(CJK, ["subset", "cjk", "shuffled"], ["119", "–"]),
    line(CJK, ["subset", "cjk", "falling"], ["–", "–"]),
    line(ONE, ["subset", "one", "rising"], ["0.03", "0.07"]),
    line(ONE, ["subset", "one", "falling"], ["30", "0.07"]),
    line(ONE, ["subset", "one", "shuffled"], ["–", "–"]),
    line(MANY, ["subset", "many", "rising"], ["–", "–"]),
    line(MANY, ["subset", "many", "shuffled"], ["53", "0.65"]),
    line(SUBRS, ["subset", "subrs", "rising"], ["0.03", "47"]),
    line(SUBRS, ["subset", "subrs", "falling"], ["54", "47"]),
    line(SUBRS, ["subset", "subrs", "shuffled"], ["–", "–"]),
    line(FDS, ["read", "alternating", "–"], ["49", "out of memory"]),
    line(REALS, ["read", "reals", "–"], ["–", "–"]),
    line(REALS, ["subset", "reals", "–"], ["23", "1.1"]),
];

/// A font, the glyphs that are kept, and rows that rise.
struct Input {
    font: Vec<u8>,
    keep: Vec<u16>,
    rows: Vec<Row>,
}

fn mask(kind: u8, number: u16, offset: usize) -> Row {
    Row {
        kind,
        fd: 0,
        number,
        offset: offset as u32,
        length: 1,
    }
}

fn subroutine(kind: u8, number: u16) -> Row {
    Row {
        length: 0,
        ..mask(kind, number, 0)
    }
}

/// One glyph beside glyph 0, with a stem and so many masks of a byte, of which every so many is listed.
fn masks(count: usize, listed: usize) -> Input {
    let stem = [139, 140, 1];
    let mut glyph = stem.to_vec();
    glyph.extend([19, 0x80].repeat(count));
    glyph.push(14);
    let at = |k| mask(GLYPH_MASK, 1, stem.len() + 2 * k);
    Input {
        font: made::standard(&[vec![14], glyph], &[], &[]),
        keep: vec![1],
        rows: (0..count).step_by(count / listed).map(at).collect(),
    }
}

/// As many global and local subroutines as there can be, each of which is reached and has a mask that only a row tells.
fn subroutines() -> Input {
    let bodies = vec![vec![19, 0x80, 11]; 65_535];
    let numbers = 0..65_535;
    let mut rows = Vec::new();
    for (kind, masks) in [(LOCAL, LOCAL_MASK), (GLOBAL, GLOBAL_MASK)] {
        rows.extend(numbers.clone().map(|k| subroutine(kind, k)));
        rows.extend(numbers.clone().map(|k| mask(masks, k, 0)));
    }
    rows.sort_unstable();
    Input {
        font: made::standard(&[vec![14], vec![14]], &bodies, &bodies),
        keep: vec![1],
        rows,
    }
}

fn file(variable: &str, name: &str) -> Vec<u8> {
    let folder = env::var(variable).expect("run sets it");
    fs::read(format!("{folder}/{name}")).expect("a font")
}

/// All glyphs of a real font, traced.
fn cjk() -> Input {
    let font = file("BENCH_FONTS", "NotoSansCJK-Regular.0.cff");
    let keep = sheet::all(&CffProgram::parse(&font).expect("a font that is read"));
    let record = Font::read(&font).and_then(|read| read.trace(&keep));
    let rows = record::rows(record.expect("a record").bytes());
    Input { font, keep, rows }
}

fn input(kind: &str) -> Input {
    match kind {
        "cjk" => cjk(),
        "one" => masks(200_000, 200_000),
        "many" => masks(10_000_000, 6_000),
        "subrs" => subroutines(),
        // Fonts of made.py, of one glyph.
        name => Input {
            font: file("BENCH_MADE", &format!("{name}.cff")),
            keep: vec![0],
            rows: Vec::new(),
        },
    }
}

fn ordered(mut rows: Vec<Row>, order: &str) -> Vec<Row> {
    match order {
        "falling" => rows.reverse(),
        "shuffled" => made::shuffle(&mut rows),
        _ => {}
    }
    rows
}

/// A process of `made`'s: prints the seconds of a call, and a hash of its answer.
pub fn attempt(side: &str, call: &str, kind: &str, order: &str) {
    let Input { font, keep, rows } = input(kind);
    let rows = ordered(rows, order);
    let record = record::bytes(&rows);
    let run: Box<dyn FnMut() -> Vec<u8>> = match (side, call) {
        ("ours", "read") => Box::new(|| vec![u8::from(Font::read(&font).is_ok())]),
        ("ours", _) => Box::new(|| ours::in_order(&font, &keep, &record)),
        (_, "read") => Box::new(|| vec![u8::from(CffProgram::parse(&font).is_ok())]),
        _ => {
            let program = CffProgram::parse(&font).expect("a font that is read");
            let kept = original::kept(&program, &keep);
            drop(program);
            let (font, rows) = (&font, &rows);
            Box::new(move || original::cut_by(font, ours::NAME, &kept, rows.clone()))
        }
    };
    let (time, answer) = least_in(SLOW, run);
    let mut hash = DefaultHasher::new();
    answer.hash(&mut hash);
    println!("{} {:x}", time / 1e6, hash.finish());
}

/// Whether it ended before the limit.
fn ended(child: &mut Child) -> bool {
    let start = Instant::now();
    while start.elapsed() < Duration::from_secs(SECONDS) {
        if child.try_wait().expect("a process").is_some() {
            return true;
        }
        std::thread::sleep(Duration::from_millis(20));
    }
    child.kill().expect("a process of ours");
    child.wait().expect("a process");
    false
}

/// What came of a side: its seconds and the hash of its answer, or words.
fn tried(side: &str, line: &Line) -> Result<(f64, String), String> {
    let own = env::current_exe().expect("this program");
    let mut command = Command::new("sh");
    command
        .arg("-c")
        .arg(format!("ulimit -v {KIB}; exec \"$0\" \"$@\""))
        .arg(own)
        .args(["made-try", side, line.call, line.kind, line.order])
        .stdout(Stdio::piped())
        .stderr(Stdio::null());
    let mut child = command.spawn().expect("a process");
    if !ended(&mut child) {
        return Err(format!("above {SECONDS}"));
    }
    let status = child.wait().expect("a process");
    let mut said = String::new();
    let mut out = child.stdout.take().expect("a pipe");
    out.read_to_string(&mut said).expect("what it says");
    match said.split_whitespace().collect::<Vec<_>>()[..] {
        [time, hash] => Ok((time.parse().expect("seconds"), hash.to_string())),
        // A process that cannot allocate is ended by a signal.
        _ if status.code().is_none() => Err("out of memory".to_string()),
        _ => Err(format!("{status}")),
    }
}

fn seconds(of: &Result<(f64, String), String>) -> String {
    match of {
        Ok((time, _)) if *time < 0.1 => format!("{time:.3}"),
        Ok((time, _)) => format!("{time:.2}"),
        Err(words) => words.clone(),
    }
}

pub fn print() {
    println!("Seconds of one call, reading in it.\n");
    println!(
        "| input | rows | call | ours | before | Rust | Rust before |\n|---|---|---|---|---|---|---|"
    );
    // The original puts rows in a map: their order is nothing to it, and the first answer stands for the others.
    let mut theirs: Option<(&Line, Result<(f64, String), String>)> = None;
    for line in &LINES {
        let ours = tried("ours", line);
        let known = theirs
            .take()
            .filter(|(of, _)| (of.kind, of.call) == (line.kind, line.call));
        let (_, other) = theirs.insert(known.unwrap_or_else(|| (line, tried("Rust", line))));
        if let (Ok((_, ours)), Ok((_, other))) = (&ours, &*other) {
            assert_eq!(ours, other, "{}: the answers differ", line.words);
        }
        println!(
            "| {} | {} | {} | {} | {} | {} | {} |",
            line.words,
            line.order,
            line.call,
            seconds(&ours),
            line.before,
            seconds(other),
            line.theirs_before
        );
        std::io::stdout().flush().expect("standard output");
    }
}
