//! Few work words (document 02, Wish 10): the time of `Font::subset_small` beside that of `Font::subset`.

use crate::cff::CffProgram;
use crate::measure::{least_of_both, mean};
use crate::{made, ours, sheet};
use mogdivash::{Font, Record};

/// How many of the worst are named.
const WORST: usize = 10;

/// One cut of one font: its name, and times in microseconds.
struct Times {
    name: String,
    large: f64,
    small: f64,
}

impl Times {
    fn ratio(&self) -> f64 {
        self.small / self.large
    }
}

/// Both in turn, from the bytes of the font; they must give the same.
fn times(name: &str, bytes: &[u8], keep: &[u16], record: &Record) -> (Times, usize) {
    let [(large, wanted), (small, given)] = least_of_both(
        || ours::cut(bytes, keep, record),
        || ours::small(bytes, keep, record),
    );
    assert!(given == wanted, "{name}: the subsets differ");
    let name = name.to_owned();
    (Times { name, large, small }, given.len())
}

fn heading(title: &str) {
    println!(
        "## {title}\n\nMicroseconds, the least of several runs; words: work words asked for.\n"
    );
    println!(
        "| font | glyphs | kept | subset | words | words, small | large | small | small / large |"
    );
    println!("|---|---|---|---|---|---|---|---|---|");
}

fn row(font: &Font, kept: usize, length: usize, t: &Times) {
    println!(
        "| {} | {} | {kept} | {length} | {} | {} | {:.0} | {:.0} | {:.2} |",
        t.name,
        font.glyphs(),
        font.work_words(),
        font.small_work_words(),
        t.large,
        t.small,
        t.ratio()
    );
}

fn summary(mut all: Vec<Times>) {
    all.sort_by(|a, b| b.ratio().total_cmp(&a.ratio()));
    let of: Vec<f64> = all.iter().map(Times::ratio).collect();
    let Some(worst) = all.first() else { return };
    println!(
        "\n{} fonts. Small over large: geometric mean {:.3}, worst {:.2} ({}). The worst:",
        of.len(),
        mean(&of),
        worst.ratio(),
        worst.name
    );
    let named = |t: &Times| {
        format!(
            "{} {:.2} ({:.0} and {:.0})",
            t.name,
            t.ratio(),
            t.large,
            t.small
        )
    };
    let named: Vec<String> = all.iter().take(WORST).map(named).collect();
    println!("{}.\n", named.join(", "));
}

/// A sheet's letters and all glyphs of each font, traced by the library.
fn real(fonts: &[(String, Vec<u8>)]) {
    type Keep = fn(&CffProgram) -> Vec<u16>;
    let amounts: [(&str, Keep); 2] = [
        ("A result sheet's letters, few work words", sheet::letters),
        ("All glyphs, few work words", sheet::all),
    ];
    for (title, keep) in amounts {
        heading(title);
        let mut all = Vec::new();
        for (name, bytes) in fonts {
            let (Ok(program), Ok(font)) = (CffProgram::parse(bytes), Font::read(bytes)) else {
                continue;
            };
            let keep = keep(&program);
            let Ok(record) = font.trace(&keep) else {
                continue;
            };
            let (t, length) = times(name, bytes, &keep, &record);
            row(&font, keep.len(), length, &t);
            all.push(t);
        }
        summary(all);
    }
}

/// Fonts of 65,535 CIDs, and one of 64,610 names: 75 glyphs and all.
fn made_fonts() {
    heading("Made fonts with many glyphs");
    let name = |k| format!("uni{k:04X}").into_bytes();
    let names: Vec<Vec<u8>> = (0..made::MOST_NAMES - 1).map(name).collect();
    let mut fonts = vec![("names".to_string(), made::named(&names, None))];
    for order in made::ORDERS {
        fonts.push((format!("CIDs {order}"), made::cid_keyed(order, None)));
    }
    for (name, bytes) in &fonts {
        let font = Font::read(bytes).expect("a font that is read");
        let all: Vec<u16> = (0..font.glyphs() as u16).collect();
        let some: Vec<u16> = all.iter().copied().step_by(all.len() / 75).collect();
        let window: Vec<u16> = all.iter().copied().step_by(all.len() / 4097).collect();
        for keep in [some, window, all] {
            let record = font.trace(&keep).expect("a record");
            let (t, length) = times(name, bytes, &keep, &record);
            row(&font, keep.len(), length, &t);
        }
    }
    println!();
}

pub fn print(fonts: &[(String, Vec<u8>)]) {
    real(fonts);
    made_fonts();
}
