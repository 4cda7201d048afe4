//! Memory by font: what the library is lent and the stack that it touches, beside what the original and HarfBuzz allocate.

use crate::cff::CffProgram;
use crate::counted::peak;
use crate::measure::mean;
use crate::painted::stack;
use crate::{harfbuzz, original, ours, sheet};
use mogdivash::Font;

/// Of fonts with more glyphs only the sheet's letters are cut: the original takes minutes for all of theirs.
const MOST_GLYPHS: usize = 5000;

/// The fonts whose rows are printed; the lines below the table are of all.
const SHOWN: [&str; 20] = [
    "Cantarell-Regular",
    "EBGaramond12-Bold",
    "EBGaramond12-Regular",
    "FreeMono",
    "FreeSans",
    "FreeSerif",
    "LinBiolinum_R",
    "LinLibertine_R",
    "NotoSansCJK-Regular",
    "NotoSerifCJK-Regular",
    "STIX-Regular",
    "STIXGeneral-Regular",
    "STIXIntegralsSm-Bold",
    "lmmono10-regular",
    "lmroman10-regular",
    "lmsans10-regular",
    "unifont",
    "unifont_csur",
    "unifont_jp",
    "unifont_upper",
];

/// One cut of one font, in bytes.
struct Taken {
    cid_keyed: bool,
    glyphs: usize,
    kept: usize,
    /// Work words, of the usual call and of the small one.
    work: usize,
    small_work: usize,
    /// The record that is traced, and the subset.
    record: usize,
    subset: usize,
    /// Stack of reading, tracing, subsetting, and of the small call.
    stacks: [usize; 4],
    /// What the original and HarfBuzz allocate at most at once, and the original's stack.
    theirs: usize,
    their_stack: usize,
    harfbuzz: Option<usize>,
}

impl Taken {
    /// What is lent at once for a subset: work words, record and output.
    fn lent(&self) -> usize {
        self.work + self.record + self.subset
    }

    fn small_lent(&self) -> usize {
        self.small_work + self.record + self.subset
    }
}

fn taken(bytes: &[u8], program: &CffProgram, keep: &[u16]) -> Option<Taken> {
    let font = Font::read(bytes).ok()?;
    let record = font.trace(keep).ok()?;
    let subset = font.subset(ours::NAME, keep, &record).ok()?.bytes.len();
    let kept = original::kept(program, keep);
    let stacks = [
        stack(|| assert!(Font::read(bytes).is_ok())),
        stack(|| drop(font.trace(keep))),
        stack(|| drop(font.subset(ours::NAME, keep, &record))),
        stack(|| drop(font.subset_small(ours::NAME, keep, &record))),
    ];
    let (theirs, _) = peak(|| original::cut(bytes, ours::NAME, &kept));
    let their_stack = stack(|| drop(original::cut(bytes, ours::NAME, &kept)));
    let wrapped = harfbuzz::wrapped(bytes, program.charset().len());
    let (most, answer) = peak(|| harfbuzz::cut(&wrapped, keep));
    Some(Taken {
        cid_keyed: font.is_cid_keyed(),
        glyphs: program.charset().len(),
        kept: keep.len(),
        work: 4 * font.work_words() as usize,
        small_work: 4 * font.small_work_words() as usize,
        record: record.bytes().len(),
        subset,
        stacks,
        theirs,
        their_stack,
        harfbuzz: answer.map(|_| most),
    })
}

/// KiB with a digit behind the point where there are few.
fn kib(bytes: usize) -> String {
    let kib = bytes as f64 / 1024.0;
    if kib < 10.0 {
        format!("{kib:.1}")
    } else {
        format!("{kib:.0}")
    }
}

fn row(name: &str, t: &Taken) {
    let harfbuzz = t.harfbuzz.map_or("–".to_string(), kib);
    let [read, trace, cut, _] = t.stacks.map(kib);
    println!(
        "| {name} | {} | {} | {} | {} | {} | {} | {} | {} | {read} | {trace} | {cut} | {} | {harfbuzz} |",
        t.glyphs,
        t.kept,
        kib(t.work),
        kib(t.small_work),
        kib(t.record),
        kib(t.subset),
        kib(t.lent()),
        kib(t.small_lent()),
        kib(t.theirs),
    );
}

/// The least and the most stack of each call.
fn stacks(keying: &str, of: &[&Taken]) {
    let Some(first) = of.first() else { return };
    let range = |at: &dyn Fn(&Taken) -> usize| {
        let (mut low, mut high) = (at(first), at(first));
        for t in of {
            (low, high) = (low.min(at(t)), high.max(at(t)));
        }
        format!("{} to {}", kib(low), kib(high))
    };
    println!(
        "| {keying} | {} | {} | {} | {} | {} | {} |",
        of.len(),
        range(&|t| t.stacks[0]),
        range(&|t| t.stacks[1]),
        range(&|t| t.stacks[2]),
        range(&|t| t.stacks[3]),
        range(&|t| t.their_stack)
    );
}

fn ratio(what: &str, all: &[Taken], of: impl Fn(&Taken) -> Option<f64>) {
    let ratios: Vec<f64> = all.iter().filter_map(of).collect();
    if ratios.is_empty() {
        return;
    }
    let least = ratios.iter().copied().fold(f64::INFINITY, f64::min);
    let below = ratios.iter().filter(|&&r| r < 1.0).count();
    println!(
        "{what}: geometric mean {:.2}, least {least:.2}, below 1 for {below} of {}.",
        mean(&ratios),
        ratios.len()
    );
}

fn summary(all: &[Taken]) {
    println!("\nStack that is touched, KiB, the least and the most:\n");
    println!("| keying | fonts | read | trace | subset | subset, small | Rust |");
    println!("|---|---|---|---|---|---|---|");
    for (keying, cid_keyed) in [("names", false), ("CIDs", true)] {
        let of: Vec<&Taken> = all.iter().filter(|t| t.cid_keyed == cid_keyed).collect();
        stacks(keying, &of);
    }
    println!("\n{} fonts.", all.len());
    // The deepest call's stack is a part of ours; the original's own is of theirs.
    let deepest = |t: &Taken| t.stacks[1].max(t.stacks[2]);
    ratio("The Rust's heap over what ours is lent", all, |t| {
        Some(t.theirs as f64 / t.lent() as f64)
    });
    ratio("over what ours is lent with few work words", all, |t| {
        Some(t.theirs as f64 / t.small_lent() as f64)
    });
    ratio("stack counted on both sides", all, |t| {
        Some((t.theirs + t.their_stack) as f64 / (t.lent() + deepest(t)) as f64)
    });
    ratio("HarfBuzz's heap over what ours is lent", all, |t| {
        Some(t.harfbuzz? as f64 / t.lent() as f64)
    });
    println!();
}

pub fn print(fonts: &[(String, Vec<u8>)]) {
    type Keep = fn(&CffProgram) -> Vec<u16>;
    let amounts: [(&str, Keep, usize); 2] = [
        ("A result sheet's letters", sheet::letters, usize::MAX),
        (
            "All glyphs, of fonts with at most 5,000",
            sheet::all,
            MOST_GLYPHS,
        ),
    ];
    for (title, keep, most) in amounts {
        println!("### {title}, memory\n\nKiB.\n");
        println!(
            "| font | glyphs | kept | work | work, small | record | subset | lent | lent, small | stack: read | trace | subset | Rust | HarfBuzz |"
        );
        println!("|---|---|---|---|---|---|---|---|---|---|---|---|---|---|");
        let mut all = Vec::new();
        for (name, bytes) in fonts {
            let Ok(program) = CffProgram::parse(bytes) else {
                continue;
            };
            if program.charset().len() > most {
                continue;
            }
            let Some(t) = taken(bytes, &program, &keep(&program)) else {
                continue;
            };
            let stem = name.split('.').next().unwrap_or(name);
            if fonts.len() < SHOWN.len() || SHOWN.contains(&stem) {
                row(stem, &t);
            }
            all.push(t);
        }
        summary(&all);
    }
}
