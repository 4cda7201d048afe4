//! Every font that can be had, each shortly: means, least ratios, and the fonts where ours does worst.

use crate::cff::CffProgram;
use crate::measure::{SHORT, least_in, mean};
use crate::{harfbuzz, original, ours, sheet};
use std::panic::{AssertUnwindSafe, catch_unwind};

/// Of fonts with more glyphs only the sheet's letters are timed.
const MOST_GLYPHS: usize = 5000;

/// How many of the worst are named.
const WORST: usize = 20;

/// One cut of one font: its name, and times in microseconds.
struct Times {
    name: String,
    kept: usize,
    ours: f64,
    traced: f64,
    theirs: f64,
    harfbuzz: Option<f64>,
}

/// What came of a font.
enum Timed {
    Times(Times),
    /// The original refuses it, or one of the two refuses the cut.
    Refused,
    /// The subsets differ.
    Differs,
}

/// The four in turn, as in the tables of `fonts`.
fn timed(name: &str, bytes: &[u8], program: &CffProgram, keep: &[u16]) -> Timed {
    let refused = ours::tried(bytes, keep).is_none();
    let kept = original::kept(program, keep);
    let wanted = catch_unwind(AssertUnwindSafe(|| original::cut(bytes, ours::NAME, &kept)));
    let (Ok(wanted), false) = (wanted, refused) else {
        return Timed::Refused;
    };
    let record = original::record(program, keep);
    let (ours, given) = least_in(SHORT, || ours::cut(bytes, keep, &record));
    let (traced, by_own) = least_in(SHORT, || ours::traced(bytes, keep));
    // A CID-keyed font may have a FontMatrix in an FD, which only ours keeps (document 02, Wish 2).
    let longer = program.is_cid_keyed() && given.len() > wanted.len();
    if by_own != given || (given != wanted && !longer) {
        return Timed::Differs;
    }
    let (theirs, _) = least_in(SHORT, || original::cut(bytes, ours::NAME, &kept));
    let wrapped = harfbuzz::wrapped(bytes, program.charset().len());
    let (time, answer) = least_in(SHORT, || harfbuzz::cut(&wrapped, keep));
    Timed::Times(Times {
        name: name.to_owned(),
        kept: keep.len(),
        ours,
        traced,
        theirs,
        harfbuzz: answer.map(|_| time),
    })
}

/// The mean and the worst of one kind of ratio; below 1 ours is slower.
fn ratios(what: &str, all: &[Times], ratio: impl Fn(&Times) -> Option<f64>) {
    let mut found: Vec<(f64, &Times)> = all.iter().filter_map(|t| Some((ratio(t)?, t))).collect();
    if found.is_empty() {
        return;
    }
    found.sort_by(|a, b| a.0.total_cmp(&b.0));
    let of: Vec<f64> = found.iter().map(|(r, _)| *r).collect();
    let slower = of.iter().filter(|&&r| r < 1.0).count();
    println!(
        "\n{what}: geometric mean {:.2}, least {:.2}, below 1 for {slower} of {}.\n",
        mean(&of),
        of[0],
        of.len()
    );
    println!(
        "| font | kept | ratio | ours | traced | Rust | HarfBuzz |\n|---|---|---|---|---|---|---|"
    );
    for (r, t) in found.iter().take(WORST) {
        let other = t
            .harfbuzz
            .map_or(String::from("–"), |time| format!("{time:.0}"));
        println!(
            "| {} | {} | {r:.2} | {:.0} | {:.0} | {:.0} | {other} |",
            t.name, t.kept, t.ours, t.traced, t.theirs
        );
    }
}

fn amount(
    title: &str,
    fonts: &[(String, Vec<u8>)],
    keep: fn(&CffProgram) -> Vec<u16>,
    most: usize,
) {
    let (mut all, mut refused, mut differ) = (Vec::new(), 0, Vec::new());
    for (name, bytes) in fonts {
        let program = catch_unwind(|| CffProgram::parse(bytes));
        let Ok(Ok(program)) = program else {
            refused += 1;
            continue;
        };
        if program.charset().len() > most {
            continue;
        }
        match timed(name, bytes, &program, &keep(&program)) {
            Timed::Times(t) => all.push(t),
            Timed::Refused => refused += 1,
            Timed::Differs => differ.push(name.as_str()),
        }
    }
    println!("## {title}\n");
    println!(
        "{} fonts timed, {refused} refused, {} with another subset than the original's{}{}.",
        all.len(),
        differ.len(),
        if differ.is_empty() { "" } else { ": " },
        differ.join(", ")
    );
    ratios("The original's time over ours", &all, |t| {
        Some(t.theirs / t.ours)
    });
    ratios("The original's time over ours with our trace", &all, |t| {
        Some(t.theirs / t.traced)
    });
    ratios("HarfBuzz's time over ours with our trace", &all, |t| {
        Some(t.harfbuzz? / t.traced)
    });
    println!();
}

/// Two parts, by the glyphs that are kept.
pub fn print(fonts: &[(String, Vec<u8>)]) {
    std::panic::set_hook(Box::new(|_| ()));
    amount(
        "A result sheet's letters",
        fonts,
        sheet::letters,
        usize::MAX,
    );
    amount(
        "All glyphs, of fonts with at most 5,000",
        fonts,
        sheet::all,
        MOST_GLYPHS,
    );
}
