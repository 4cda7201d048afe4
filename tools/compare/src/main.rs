//! Compares the library with the original Rust at scale: reading a font, finding, items.
//! The sources under docs/src are compiled here as they are. See README.md.

mod alike;
#[cfg(test)]
mod alike_tests;
mod blocking;
mod blocking_cases;
mod bodies;
mod cases;
mod check_compare;
mod check_records;
mod compare;
#[cfg(test)]
mod compare_tests;
mod cut;
mod cut_cases;
mod cut_compare;
mod cut_large;
mod cut_model;
mod cut_model_bodies;
mod cut_model_codes;
mod cut_model_dicts;
mod cut_records;
mod cut_tally;
#[cfg(test)]
mod cut_tests;
mod damage;
mod decimal;
mod domain;
mod encoding_compare;
#[cfg(test)]
mod encoding_tests;
mod files;
mod fonts;
mod glyphs;
mod heavy;
mod hooked;
mod layout;
mod library;
mod model;
mod moved;
mod names;
mod numbers;
mod opentype;
mod original;
mod record;
mod report;
mod small;
mod small_cases;
mod small_fonts;
mod small_run;
#[cfg(test)]
mod small_tests;
mod store;
mod store_subset;
#[cfg(test)]
mod stub;
mod tally;
mod trace;
mod trace_cases;
mod trace_compare;
mod trace_edges;
mod trace_model;
mod trace_tally;
#[cfg(test)]
mod trace_tests;

#[allow(dead_code)]
#[path = "../../oracle/src/generator.rs"]
mod generator;

// `rustfmt::skip` keeps cargo fmt out of docs/src.
#[rustfmt::skip]
#[allow(dead_code)]
#[path = "../../../docs/src/crates/efterscript-fonts/src/cff/mod.rs"]
mod cff;
include!("../../oracle/src/siblings.rs");

use cases::Case;
use cut_tally::CutTally;
use std::fmt::Write as _;
use std::io::Write as _;
use std::path::{Path, PathBuf};
use std::process::ExitCode;
use std::sync::{Arc, Mutex, mpsc};
use std::{env, fs, thread};
use tally::Tally;
use trace_tally::TraceTally;

const USAGE: &str = "usage: tools/compare/run cff SEED COUNT
       tools/compare/run store-cff SEED COUNT
       tools/compare/run subset SEED COUNT
       tools/compare/run store-subset SEED COUNT
       tools/compare/run encoding SEED COUNT
       tools/compare/run trace SEED COUNT
       tools/compare/run check SEED COUNT
       tools/compare/run opentype SEED COUNT
       tools/compare/run alike SEED COUNT
       tools/compare/run small SEED COUNT
       tools/compare/run blocking SEED COUNT
       tools/compare/run glyphs SEED COUNT
       tools/compare/run blocking-time GLYPHS KEPT TRIED
       tools/compare/run trace-time FILE
       tools/compare/run cut FOLDER
       tools/compare/run case SEED NUMBER
       tools/compare/run ask original|model|library FILE
       tools/compare/run heavy entries FONTS FDS ENTRIES
       tools/compare/run heavy locals FDS LOCALS
       tools/compare/run heavy strings FONTS STRINGS
       tools/compare/run heavy work GLYPHS GLOBALS FDS LOCALS
       tools/compare/run heavy tokens|calls GLYPHS
       tools/compare/run heavy falling SUBROUTINES MASKS
       tools/compare/run extract FOLDER FILE...";

/// The stack of a thread that runs the original.
const STACK: usize = 256 << 20;

/// Where built files and tables are.
fn target() -> PathBuf {
    PathBuf::from(env::var_os("COMPARE_TARGET").unwrap_or_else(|| "target".into()))
}

fn main() -> ExitCode {
    let words: Vec<String> = env::args().skip(1).collect();
    let words: Vec<&str> = words.iter().map(String::as_str).collect();
    original::keep_panics_silent();
    match words.as_slice() {
        ["cff", seed, count] => seeded(seed, count, cff),
        ["store-cff", seed, count] => seeded(seed, count, store),
        ["subset", seed, count] => seeded(seed, count, subset),
        ["store-subset", seed, count] => seeded(seed, count, stored_subsets),
        ["encoding", seed, count] => seeded(seed, count, encoding),
        ["trace", seed, count] => seeded(seed, count, trace),
        ["check", seed, count] => seeded(seed, count, check),
        ["opentype", seed, count] => seeded(seed, count, opentype),
        ["alike", seed, count] => seeded(seed, count, alike),
        ["small", seed, count] => seeded(seed, count, small_calls),
        ["blocking", seed, count] => seeded(seed, count, blocking_glyphs),
        ["glyphs", seed, count] => seeded(seed, count, glyphs),
        ["blocking-time", numbers @ ..] => blocking_time(numbers),
        ["trace-time", file] => trace_time(file),
        ["cut", folder] => cut_tables(Path::new(folder)),
        ["case", seed, number] => seeded(seed, number, case),
        ["ask", who, file] => ask(who, file),
        ["heavy", kind, numbers @ ..] => {
            let numbers: Vec<usize> = numbers.iter().flat_map(|n| n.parse()).collect();
            match (*kind, numbers.as_slice()) {
                ("entries", &[fonts, fds, entries]) => write(&heavy::entries(fonts, fds, entries)),
                ("locals", &[fds, locals]) => write(&heavy::locals(fds, locals)),
                ("strings", &[fonts, strings]) => write(&heavy::strings(fonts, strings)),
                ("work", &[glyphs, globals, fds, locals]) => {
                    write(&heavy::work(glyphs, globals, fds, locals))
                }
                ("tokens", &[glyphs]) => write(&trace_edges::tokens(glyphs)),
                ("calls", &[glyphs]) => write(&trace_edges::calls(glyphs)),
                ("falling", &[count, masks]) => write(&trace_edges::falling(count, masks)),
                _ => usage(),
            }
        }
        ["extract", folder, files @ ..] => extract(Path::new(folder), files),
        _ => usage(),
    }
}

/// A part of which the seed and a number are told.
fn seeded(seed: &str, number: &str, run: fn(u64, usize) -> ExitCode) -> ExitCode {
    match (seed.parse(), number.parse()) {
        (Ok(seed), Ok(number)) => run(seed, number),
        _ => usage(),
    }
}

/// The exit status of a comparison.
fn status(differences: u64) -> ExitCode {
    if differences > 0 {
        ExitCode::FAILURE
    } else {
        ExitCode::SUCCESS
    }
}

fn usage() -> ExitCode {
    eprintln!("{USAGE}");
    ExitCode::from(2)
}

/// `count` made fonts, the long ones, and the tables in target/fonts with damaged copies.
fn cff(seed: u64, count: usize) -> ExitCode {
    let (sender, receiver) = mpsc::sync_channel::<Case>(16);
    let receiver = Arc::new(Mutex::new(receiver));
    let threads = thread::available_parallelism().map_or(1, |n| n.get());
    let workers: Vec<_> = (0..threads)
        .map(|_| {
            let receiver = Arc::clone(&receiver);
            let work = move || {
                let library = library::library();
                let mut tally = Tally::default();
                loop {
                    let next = receiver.lock().expect("no thread fails").recv();
                    let Ok(case) = next else { return tally };
                    compare::compare(&library, &case, seed, &mut tally);
                }
            };
            let thread = thread::Builder::new().stack_size(STACK);
            thread.spawn(work).expect("a thread")
        })
        .collect();
    let send = |case| sender.send(case).expect("a thread that takes cases");
    cases::made(seed).take(count).for_each(send);
    cases::fixed().into_iter().for_each(send);
    let tables = cases::tables(&target().join("fonts"), seed);
    for table in &tables {
        table.cases().for_each(send);
    }
    drop(sender);
    let mut tally = Tally::default();
    for worker in workers {
        tally.merge(worker.join().expect("no thread fails"));
    }
    println!(
        "seed {seed}, {count} made fonts, {} tables of real fonts\n",
        tables.len()
    );
    print!("{}", tally.report(&target().join("compare")));
    status(tally.differences())
}

/// Runs a function on a thread with room for the original.
fn on_large_stack<T: Send + 'static>(run: impl FnOnce() -> T + Send + 'static) -> T {
    let thread = thread::Builder::new().stack_size(STACK);
    thread
        .spawn(run)
        .expect("a thread")
        .join()
        .expect("no thread fails")
}

/// Cuts of `count` made fonts, of the large ones, and of the tables in target/fonts with two damaged copies each.
fn subset(seed: u64, count: usize) -> ExitCode {
    let (tally, tables) = on_large_stack(move || {
        let library = library::library();
        let mut tally = CutTally::default();
        for case in cut_cases::fonts(seed).take(count) {
            cut_compare::compare(&library, &case, seed, &mut tally, &cut_cases::made);
        }
        for (case, ask) in cut_large::fonts(seed) {
            cut_compare::compare(&library, &case, seed, &mut tally, &ask);
        }
        let tables = cases::tables(&target().join("fonts"), seed);
        for table in &tables {
            for (k, case) in table.cases().take(3).enumerate() {
                let asks = if k == 0 {
                    cut_cases::real
                } else {
                    cut_cases::few
                };
                cut_compare::compare(&library, &case, seed, &mut tally, &asks);
            }
        }
        (tally, tables.len())
    });
    println!("seed {seed}, {count} made fonts, {tables} tables of real fonts");
    print!("{}", tally.report(&target().join("compare")));
    status(tally.differences())
}

/// Cuts with their encoding, and without it, of `count` fonts made for it; with it of the tables in target/fonts.
fn encoding(seed: u64, count: usize) -> ExitCode {
    let (asked, not_asked, notes, tables) = on_large_stack(move || {
        let library = library::library();
        let (mut asked, mut not_asked) = (CutTally::default(), CutTally::default());
        let mut notes = encoding_compare::Notes::default();
        let mut with = |case: &Case, asks: &cut_compare::Asks<'_>| {
            asked.fonts += 1;
            encoding_compare::compare(&library, case, seed, &mut asked, &mut notes, asks);
        };
        for case in cut_cases::coded(seed).take(count) {
            cut_compare::compare(&library, &case, seed, &mut not_asked, &cut_cases::made);
            with(&case, &cut_cases::made);
        }
        let tables = cases::tables(&target().join("fonts"), seed);
        for table in &tables {
            table
                .cases()
                .take(1)
                .for_each(|case| with(&case, &cut_cases::real));
            table
                .cases()
                .skip(1)
                .take(2)
                .for_each(|case| with(&case, &cut_cases::few));
        }
        (asked, not_asked, notes, tables.len())
    });
    println!("seed {seed}, {count} made fonts, {tables} tables of real fonts");
    print!(
        "\n==== asked for the encoding\n{}",
        asked.report(&target().join("compare"))
    );
    print!("{}", notes.report());
    print!(
        "\n==== not asked for it\n{}",
        not_asked.report(&target().join("compare"))
    );
    status(asked.differences() + not_asked.differences())
}

/// Traces of `count` made fonts, of those at the edges, and of the tables in target/fonts with two damaged copies each.
fn trace(seed: u64, count: usize) -> ExitCode {
    let (tally, tables) = on_large_stack(move || {
        let library = library::library();
        let mut tally = TraceTally::default();
        for case in cut_cases::fonts(seed).take(count) {
            trace_compare::compare(&library, &case, seed, &mut tally, &trace_cases::made);
        }
        for case in trace_edges::fonts(seed) {
            trace_compare::compare(&library, &case, seed, &mut tally, &trace_cases::each);
        }
        let tables = cases::tables(&target().join("fonts"), seed);
        for table in &tables {
            for (k, case) in table.cases().take(3).enumerate() {
                let asks = if k == 0 {
                    trace_cases::real
                } else {
                    trace_cases::few
                };
                trace_compare::compare(&library, &case, seed, &mut tally, &asks);
            }
        }
        (tally, tables.len())
    });
    println!("seed {seed}, {count} made fonts, {tables} tables of real fonts");
    print!("{}", tally.report(&target().join("compare")));
    status(tally.differences())
}

/// Checks of `count` records of made fonts, and the time of a long record in order and out of it.
fn check(seed: u64, count: usize) -> ExitCode {
    let (tally, times) = on_large_stack(move || {
        let mut tally = check_compare::CheckTally::default();
        for case in cut_cases::fonts(seed) {
            if tally.calls() >= count as u64 {
                break;
            }
            check_compare::compare(&case, seed, &mut tally);
        }
        check_compare::windows(seed, &mut tally);
        (tally, check_compare::times(cpu_time))
    });
    println!("seed {seed}");
    print!("{}", tally.report(&target().join("compare")));
    println!("{times}");
    status(tally.differences() + u64::from(!times.within))
}

/// `count` fonts made for the question, and half as many of those made for subsets.
fn blocking_glyphs(seed: u64, count: usize) -> ExitCode {
    let tally = on_large_stack(move || blocking::run(seed, count));
    println!("seed {seed}, {count} fonts made for it");
    print!("{}", tally.report());
    status(tally.differences)
}

/// Names, CIDs and FDs of glyphs, and many found at once, of `count` made fonts and of the tables in target/fonts with two damaged copies each.
fn glyphs(seed: u64, count: usize) -> ExitCode {
    let (tally, tables) = on_large_stack(move || {
        let library = library::library();
        let mut tally = glyphs::Tally::default();
        for case in cases::made(seed).take(count) {
            glyphs::compare(&library, &case, seed, &mut tally);
        }
        let tables = cases::tables(&target().join("fonts"), seed);
        for table in &tables {
            for case in table.cases().take(3) {
                glyphs::compare(&library, &case, seed, &mut tally);
            }
        }
        (tally, tables.len())
    });
    println!("seed {seed}, {count} made fonts, {tables} tables of real fonts");
    print!("{}", tally.report());
    status(tally.differences)
}

/// The time of a call that tries so many of the kept glyphs.
fn blocking_time(numbers: &[&str]) -> ExitCode {
    let numbers: Vec<usize> = numbers.iter().flat_map(|n| n.parse()).collect();
    let &[glyphs, kept, tried] = numbers.as_slice() else {
        return usage();
    };
    let (answer, time) = on_large_stack(move || blocking::time(glyphs, kept, tried, cpu_time));
    println!(
        "{glyphs} glyphs, {kept} kept, {tried} tried: {answer:?}, {} s",
        time.as_secs_f64()
    );
    ExitCode::SUCCESS
}

/// `count` files with damaged directories, the .otf files in target/otf, and made fonts in files.
fn opentype(seed: u64, count: usize) -> ExitCode {
    let (text, differences) = on_large_stack(move || {
        let directories = files::directories(seed, count);
        let mut whole = files::whole(&target().join("otf"), seed, count);
        files::report(&directories, &mut whole, &target().join("compare"))
    });
    println!("seed {seed}, {count} damaged directories");
    print!("{text}");
    status(differences)
}

/// `count` pairs of made fonts, and pairs of each table in target/fonts.
fn alike(seed: u64, count: usize) -> ExitCode {
    let (made, real, tables) = on_large_stack(move || {
        let library = library::library();
        let (mut made, mut real) = (alike::Pairs::default(), alike::Pairs::default());
        let others = cut_cases::fonts(seed).zip(cut_cases::coded(seed));
        for case in others.flat_map(|(one, two)| [one, two]) {
            let most = count - made.pairs as usize;
            if most == 0 {
                break;
            }
            made.font(&library, &case, seed, most, &cut_cases::made);
        }
        let tables = cases::tables(&target().join("fonts"), seed);
        for table in &tables {
            for case in table.cases().take(1) {
                real.font(&library, &case, seed, usize::MAX, &cut_cases::real);
            }
        }
        (made, real, tables.len())
    });
    println!("seed {seed}, {count} pairs of made fonts, {tables} tables of real fonts");
    print!(
        "\n==== made fonts\n{}",
        made.report(&target().join("compare"))
    );
    print!(
        "\n==== real fonts\n{}",
        real.report(&target().join("compare"))
    );
    status(made.differences() + real.differences())
}

/// `count` cuts of made fonts with few work words and with many, those of fonts with many glyphs, and of the tables in target/fonts.
fn small_calls(seed: u64, count: usize) -> ExitCode {
    let (text, differences) = on_large_stack(move || small_run::run(seed, count, &target()));
    print!("{text}");
    status(differences)
}

/// The time that this thread has had of a processor.
fn cpu_time() -> std::time::Duration {
    let text = fs::read_to_string("/proc/thread-self/schedstat").unwrap_or_default();
    let nanoseconds = text.split(' ').next().and_then(|n| n.parse().ok());
    std::time::Duration::from_nanos(nanoseconds.unwrap_or(0))
}

/// The time of one trace of all glyphs of a file that finding gives.
fn trace_time(file: &str) -> ExitCode {
    let font = match fs::read(file) {
        Ok(font) => font,
        Err(error) => {
            eprintln!("{file}: {error}");
            return ExitCode::FAILURE;
        }
    };
    let reading = model::read(&font, domain::WISHES);
    let keep: Vec<u16> = match &reading.font {
        Err(_) => Vec::new(),
        Ok(read) => trace_model::Tracer::new(&font, read, trace_model::LIMITS)
            .map_or(Vec::new(), |tracer| trace_cases::found(&tracer)),
    };
    let mut record = vec![0; 10 << 20];
    let mut answer = [0; trace::WORDS];
    let start = cpu_time();
    let number = (library::library().trace)(
        &font,
        &keep,
        &mut library::Room {
            lent: record.len(),
            all: &mut record,
        },
        &mut library::Room {
            lent: answer.len(),
            all: &mut answer,
        },
    );
    let time = cpu_time() - start;
    println!(
        "{} bytes, {} glyphs kept: number {number}, flag {}, {} rows\n{time:?}",
        font.len(),
        keep.len(),
        answer[0],
        answer[1] / 10
    );
    ExitCode::SUCCESS
}

/// Cases of subsetting for the gate, a line each, to standard output.
fn stored_subsets(seed: u64, count: usize) -> ExitCode {
    let lines = on_large_stack(move || store_subset::lines(seed, count));
    print_lines(&lines, &["S", "D"], count)
}

/// The library's subsets of the tables in target/fonts, with the original's records: FOLDER/NAME.AMOUNT.cff.
fn cut_tables(folder: &Path) -> ExitCode {
    fs::create_dir_all(folder).expect("a folder for the subsets");
    let folder = folder.to_path_buf();
    let count = on_large_stack(move || {
        let library = library::library();
        let mut count = 0;
        for table in cases::tables(&target().join("fonts"), 1) {
            let case = table.cases().next().expect("the table itself");
            for (amount, subset) in cut_compare::subsets(&library, &case.font) {
                let stem = table.name.trim_end_matches(".cff");
                let amount = amount.replace(' ', "-");
                fs::write(folder.join(format!("{stem}.{amount}.cff")), subset)
                    .expect("a subset can be written");
                count += 1;
            }
        }
        count
    });
    eprintln!("{count} subsets");
    ExitCode::SUCCESS
}

/// One made font, and what model and original say of it.
fn case(seed: u64, number: usize) -> ExitCode {
    let case = cases::made(seed).nth(number).expect("cases do not end");
    println!("{}\n{}", case.label(seed), hex(&case.font));
    let before = model::read(&case.font, domain::NONE);
    println!("memory of the original, about: {}", before.memory);
    for call in [domain::Call::Read, domain::Call::Subset] {
        let inside = domain::inside(call, &before, domain::WISHES);
        println!("{call:?} inside the domain: {inside}");
    }
    let reading = model::read(&case.font, domain::WISHES);
    for (whose, reading) in [("document 01", before), ("the library", reading)] {
        match &reading.font {
            Ok(font) => println!("model of {whose}: {font:?}"),
            Err(refused) => println!("model of {whose}: {refused:?}"),
        }
    }
    match original::read(&case.font) {
        original::Outcome::Program(program) => println!("original: {program:?}"),
        original::Outcome::Refused(error) => println!("original: {error:?}"),
        original::Outcome::Panicked(message) => println!("original panics: {message}"),
    }
    ExitCode::SUCCESS
}

/// Cases for the gate, a line each, to standard output.
fn store(seed: u64, count: usize) -> ExitCode {
    let lines = store::lines(seed, count);
    print_lines(&lines, &["R", "N", "C", "I"], count)
}

/// Lines to standard output, and how many of each kind to standard error; a failure if they are fewer than wanted.
fn print_lines(lines: &[String], kinds: &[&str], wanted: usize) -> ExitCode {
    let text: String = lines.iter().flat_map(|line| [line, "\n"]).collect();
    print!("{text}");
    for kind in kinds {
        let n = lines.iter().filter(|line| line.starts_with(kind)).count();
        eprintln!("{kind} {n}");
    }
    eprintln!("{} cases, {} bytes", lines.len(), text.len());
    if lines.len() < wanted {
        eprintln!("no more cases than these");
        return ExitCode::FAILURE;
    }
    ExitCode::SUCCESS
}

fn write(bytes: &[u8]) -> ExitCode {
    let mut out = std::io::stdout().lock();
    match out.write_all(bytes).and_then(|()| out.flush()) {
        Ok(()) => ExitCode::SUCCESS,
        Err(error) => {
            eprintln!("{error}");
            ExitCode::FAILURE
        }
    }
}

/// What one of the three says of reading a file, its time and the memory that was taken.
fn ask(who: &str, file: &str) -> ExitCode {
    let font = match fs::read(file) {
        Ok(font) => font,
        Err(error) => {
            eprintln!("{file}: {error}");
            return ExitCode::FAILURE;
        }
    };
    let start = std::time::Instant::now();
    let answer = match who {
        "original" => match original::read(&font) {
            original::Outcome::Program(program) => format!("{program:?}"),
            original::Outcome::Refused(error) => format!("{error:?}"),
            original::Outcome::Panicked(message) => message,
        },
        "model" => {
            let reading = model::read(&font, domain::WISHES);
            let answer = match &reading.font {
                Ok(font) => format!("{:?}", compare::counts(font)),
                Err(refused) => format!("{refused:?}"),
            };
            format!("{answer}, memory of the original about {}", reading.memory)
        }
        "library" => format!("{:?}", library::library().read(&font, library::COUNTS)),
        _ => return usage(),
    };
    let time = start.elapsed();
    let status = fs::read_to_string("/proc/self/status").unwrap_or_default();
    let peak = status
        .lines()
        .find(|line| line.starts_with("VmHWM"))
        .unwrap_or("");
    println!("{} bytes: {answer}\n{time:?} {peak}", font.len());
    ExitCode::SUCCESS
}

/// The `CFF ` tables of files, each to a file of its own.
fn extract(folder: &Path, files: &[&str]) -> ExitCode {
    fs::create_dir_all(folder).expect("a folder for the tables");
    let mut count = 0;
    for file in files {
        let path = Path::new(file);
        let stem = path.file_stem().unwrap_or_default().to_string_lossy();
        let bytes = match fs::read(path) {
            Ok(bytes) => bytes,
            Err(error) => {
                eprintln!("{file}: {error}");
                return ExitCode::FAILURE;
            }
        };
        match opentype::tables(&bytes) {
            None => eprintln!("{file}: no OpenType file"),
            Some(tables) if tables.is_empty() => eprintln!("{file}: no CFF table"),
            Some(tables) => {
                for (k, table) in tables.iter().enumerate() {
                    let name = folder.join(format!("{stem}.{k}.cff"));
                    fs::write(name, table).expect("a table can be written");
                    count += 1;
                }
            }
        }
    }
    eprintln!("{count} tables in {}", folder.display());
    ExitCode::SUCCESS
}

/// Lower-case hexadecimal; `-` for nothing.
fn hex(bytes: &[u8]) -> String {
    if bytes.is_empty() {
        return "-".to_string();
    }
    let mut text = String::with_capacity(2 * bytes.len());
    for b in bytes {
        write!(text, "{b:02x}").expect("writing to a string");
    }
    text
}
