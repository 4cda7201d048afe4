//! Each font with a sheet's letters and with all glyphs: ours, the original, HarfBuzz.

use crate::cff::CffProgram;
use crate::measure::{least, mean};
use crate::{harfbuzz, original, ours, sheet};

/// One cut of one font: times in microseconds.
struct Times {
    ours: f64,
    /// Ours with our own trace.
    traced: f64,
    /// The original's, and of it what its trace of the kept glyphs takes.
    theirs: f64,
    trace: f64,
    /// None where HarfBuzz is not linked or gives no subset.
    harfbuzz: Option<f64>,
    /// Glyphs that are kept, and bytes of the subset.
    kept: usize,
    length: usize,
}

/// The three in turn. Ours has the record that the original's trace gives, and our own; by both it must give the original's bytes. A
/// CID-keyed font may have a FontMatrix in an FD, which only ours keeps (document 02, Wish 2): then it is longer.
fn times(bytes: &[u8], program: &CffProgram, keep: &[u16]) -> Times {
    let (trace, record) = least(|| original::record(program, keep));
    let kept = original::kept(program, keep);
    let (theirs, wanted) = least(|| original::cut(bytes, ours::NAME, &kept));
    let (ours, given) = least(|| ours::cut(bytes, keep, &record));
    let longer = program.is_cid_keyed() && given.len() > wanted.len();
    assert!(given == wanted || longer, "the subsets differ");
    let (traced, by_own) = least(|| ours::traced(bytes, keep));
    assert!(by_own == given, "the subset by our own trace differs");
    let wrapped = harfbuzz::wrapped(bytes, program.charset().len());
    let (time, answer) = least(|| harfbuzz::cut(&wrapped, keep));
    Times {
        ours,
        traced,
        theirs,
        trace,
        harfbuzz: answer.map(|_| time),
        kept: keep.len(),
        length: given.len(),
    }
}

fn row(name: &str, bytes: &[u8], program: &CffProgram, t: &Times) {
    let other = t.harfbuzz.map_or(String::from("– | – | –"), |time| {
        format!("{time:.0} | {:.1} | {:.1}", time / t.ours, time / t.traced)
    });
    println!(
        "| {name} | {} | {} | {} | {} | {:.0} | {:.0} | {:.0} | {:.0} | {:.1} | {:.1} | {other} |",
        bytes.len(),
        program.charset().len(),
        t.kept,
        t.length,
        t.ours,
        t.traced,
        t.theirs,
        t.trace,
        t.theirs / t.ours,
        t.theirs / t.traced
    );
}

fn smallest(ratios: &[f64]) -> f64 {
    ratios.iter().copied().fold(f64::INFINITY, f64::min)
}

/// How often a time goes into others, over all fonts.
fn ratios(what: &str, of: &[f64]) {
    if !of.is_empty() {
        println!(
            "{what}: geometric mean {:.2}, least {:.2}.",
            mean(of),
            smallest(of)
        );
    }
}

fn summary(all: &[Times]) {
    let over = |time: &dyn Fn(&Times) -> Option<f64>, ours: &dyn Fn(&Times) -> f64| -> Vec<f64> {
        let ratio = |t: &Times| Some(time(t)?.max(1.0) / ours(t));
        all.iter().filter_map(ratio).collect()
    };
    let theirs = |t: &Times| Some(t.theirs);
    let untraced = |t: &Times| Some(t.theirs - t.trace);
    let (ours, traced) = (|t: &Times| t.ours, |t: &Times| t.traced);
    println!("\n{} fonts.", all.len());
    ratios("The original's time over ours", &over(&theirs, &ours));
    ratios("without its trace", &over(&untraced, &ours));
    ratios("over ours with our trace", &over(&theirs, &traced));
    ratios("HarfBuzz's time over ours", &over(&|t| t.harfbuzz, &ours));
    ratios("over ours with our trace", &over(&|t| t.harfbuzz, &traced));
    println!();
}

/// The sheet's letters found by name: read once, and then a call for each name. Every call of ours reads the font itself.
fn finding(fonts: &[(String, Vec<u8>)]) {
    let names = sheet::names();
    let mut ratios = Vec::new();
    println!("## The names of a result sheet found\n");
    println!("| font | bytes | glyphs | ours | Rust | Rust / ours |\n|---|---|---|---|---|---|");
    for (name, bytes) in fonts {
        let Ok(program) = CffProgram::parse(bytes) else {
            continue;
        };
        if program.is_cid_keyed() {
            continue;
        }
        let (ours, given) = least(|| ours::find(bytes, &names));
        let (theirs, wanted) = least(|| original::find(bytes, &names));
        assert!(given == wanted, "the glyphs differ");
        let glyphs = program.charset().len();
        let ratio = theirs / ours;
        println!(
            "| {name} | {} | {glyphs} | {ours:.0} | {theirs:.0} | {ratio:.2} |",
            bytes.len()
        );
        ratios.push(ratio);
    }
    if !ratios.is_empty() {
        println!(
            "\n{} fonts. The original's time over ours: geometric mean {:.2}, least {:.2}.",
            ratios.len(),
            mean(&ratios),
            smallest(&ratios)
        );
    }
}

/// Two tables, by the glyphs that are kept, and one of finding.
pub fn print(fonts: &[(String, Vec<u8>)]) {
    type Keep = fn(&CffProgram) -> Vec<u16>;
    let amounts: [(&str, Keep); 2] = [
        ("A result sheet's letters", sheet::letters),
        ("All glyphs", sheet::all),
    ];
    for (title, keep) in amounts {
        println!("## {title}\n");
        println!("Microseconds, the least of several runs.\n");
        println!(
            "| font | bytes | glyphs | kept | subset | ours | traced | Rust | of it trace | Rust / ours | Rust / traced | HarfBuzz | \
             HarfBuzz / ours | HarfBuzz / traced |"
        );
        println!("|---|---|---|---|---|---|---|---|---|---|---|---|---|---|");
        let mut all = Vec::new();
        for (name, bytes) in fonts {
            let Ok(program) = CffProgram::parse(bytes) else {
                continue;
            };
            let keep = keep(&program);
            let t = times(bytes, &program, &keep);
            row(name, bytes, &program, &t);
            all.push(t);
        }
        summary(&all);
    }
    finding(fonts);
}
