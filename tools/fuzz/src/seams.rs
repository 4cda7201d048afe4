//! The C functions and the binding over generated inputs, on a thread with the stack that the header asks for.

use crate::allocator;
use crate::checks::{self, Counts, ENTRIES, Input, Manner, STACK};
use crate::desk::{Checked, Desk};
use crate::hex;
use crate::inputs::Family;
use made_fonts::cases::mixed;
use made_fonts::generator::Generator;
use made_fonts::{fonts, heavy, small_fonts, trace_edges};
use std::env;
use std::fs::File;
use std::os::unix::fs::FileExt;
use std::time::Instant;

/// Inputs that fail are shown up to so many.
const SHOWN: usize = 10;

/// The chance of an input.
pub fn chance(seed: u64, number: u64) -> Generator {
    Generator::new(mixed(seed ^ 0x2f0e_19c7_5bd3_8a41, number))
}

/// An input through all checks.
pub fn input(
    desk: &mut Desk,
    counts: &mut Counts,
    family: &Family,
    seed: u64,
    number: u64,
    guarded: bool,
) -> (Checked<u64>, Input) {
    let mut g = chance(seed, number);
    let file = family.file(&mut g);
    let manner = Manner {
        guarded,
        all: false,
    };
    checks::run(desk, counts, file, g, manner)
}

/// What is needed to see it again.
fn shown(message: &str, input: &Input) -> String {
    let keep: Vec<String> = input.keep.iter().map(u16::to_string).collect();
    format!(
        "{message}\n  file {}\n  name {}\n  keep {}\n  record {}\n  traced {}, encoding {}",
        hex(&input.file),
        hex(&input.name),
        keep.join(","),
        hex(&input.record),
        input.traced,
        input.encoding
    )
}

fn summary(counts: &Counts) {
    for (entry, counts) in ENTRIES.iter().zip(counts) {
        let all: u64 = counts.iter().sum();
        let refused: Vec<String> = (1..16)
            .filter(|&k| counts[k] > 0)
            .map(|k| format!("{k}: {}", counts[k]))
            .collect();
        println!(
            "  {entry}: {all} inputs, {} answered, refused by {}",
            counts[0],
            refused.join(", ")
        );
    }
}

/// Few, since each is large: up to 65,536 tokens, calls and subroutines; 65,535 glyphs whose CIDs fall or stand in any order, and many names;
/// one that asks for more work words than the binding allocates; the longest file, and one byte more.
fn large_fonts(seed: u64) -> Vec<(&'static str, Vec<u8>)> {
    let edges = trace_edges::fonts(seed).into_iter();
    let mut all: Vec<_> = edges.map(|case| (case.state, case.font)).collect();
    for case in small_fonts::large(seed) {
        let many = ["65,535 glyphs", "20,000 names"].contains(&case.state);
        if many && ["ids fall", "ids shuffled"].contains(&case.kind) {
            all.push((case.state, case.font));
        }
    }
    all.push(("work words", heavy::work(3, 0, 600, 60_000)));
    for more in [0, 1] {
        let mut font = fonts::plain(3);
        font.resize(67_108_864 + more, 0);
        all.push(("the longest file", font));
    }
    all
}

/// On a thread of that stack.
pub fn on_thread<T: Send + 'static>(stack: usize, call: impl FnOnce() -> T + Send + 'static) -> T {
    let thread = std::thread::Builder::new().stack_size(stack);
    let joined = thread.spawn(call).expect("a thread").join();
    joined.expect("no panic")
}

/// A run: what was called, what was answered, and what does not hold.
struct Run {
    seed: u64,
    calls: u64,
    counts: Counts,
    failed: Vec<String>,
}

impl Run {
    fn large(&mut self, fonts: Vec<(&'static str, Vec<u8>)>) {
        let mut desk = Desk::new();
        let manner = Manner {
            guarded: true,
            all: true,
        };
        for (number, (kind, font)) in fonts.into_iter().enumerate() {
            let g = chance(self.seed ^ 1, number as u64);
            let (done, _) = checks::run(&mut desk, &mut self.counts, font, g, manner);
            if let Err(message) = done {
                let label = format!("large font {number} ({kind})");
                self.failed.push(format!("{label}: {message}"));
            }
        }
        self.calls += desk.calls;
    }

    fn small(&mut self, count: u64) {
        let mut desk = Desk::new();
        let (seed, mut family) = (self.seed, None);
        // Where the program ends by a signal, this file says at which input.
        let at = env::var_os("FUZZ_AT").and_then(|path| File::create(path).ok());
        for number in 0..count {
            if let Some(at) = &at {
                let _ = at.write_all_at(format!("{seed} {number:012}\n").as_bytes(), 0);
            }
            let of = Family::of_input(family, seed, number);
            let (done, asked) = input(&mut desk, &mut self.counts, &of, seed, number, true);
            family = Some(of);
            if let Err(message) = done {
                let shown = shown(&message, &asked);
                self.failed.push(format!("input {seed} {number}: {shown}"));
            }
            if self.failed.len() >= SHOWN {
                break;
            }
        }
        self.calls += desk.calls;
    }
}

pub fn run(seed: u64, count: u64) -> Result<(), String> {
    on_thread(STACK, move || {
        let started = Instant::now();
        let mut run = Run {
            seed,
            calls: 0,
            counts: Counts::default(),
            failed: Vec::new(),
        };
        let large = large_fonts(seed);
        let large_count = large.len();
        run.large(large);
        run.small(count);
        println!(
            "seams: {count} inputs and {large_count} large fonts, {} calls of C functions, {} guarded allocations of the binding, {:.0} seconds",
            run.calls,
            allocator::count(),
            started.elapsed().as_secs_f64()
        );
        summary(&run.counts);
        match run.failed.len() {
            0 => Ok(()),
            n => Err(format!("{n} inputs fail\n{}", run.failed.join("\n"))),
        }
    })
}

/// Shows one input.
pub fn case(seed: u64, number: u64) -> Result<(), String> {
    on_thread(STACK, move || {
        let (mut desk, mut counts) = (Desk::new(), Counts::default());
        let of = Family::of_input(None, seed, number);
        let (done, asked) = input(&mut desk, &mut counts, &of, seed, number, true);
        println!("{}", shown("", &asked).trim_start());
        summary(&counts);
        done.map(|_| ())
    })
}
