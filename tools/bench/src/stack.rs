//! The least stack with which a call ends: it is made on a thread with a stack of so many KiB, in a process of its own, which a stack that
//! is too small ends by a signal.

use crate::{made, names};
use mogdivash::{Font, ffi};
use std::env;
use std::process::{Command, ExitCode, Stdio};

/// The C functions, but for those that take a few KiB.
const CALLS: [&str; 5] = [
    "subset",
    "subset_small",
    "trace",
    "check_record",
    "blocking_glyph",
];

const FONTS: [&str; 5] = [
    "65,535 CIDs that rise",
    "65,535 CIDs that fall",
    "65,535 CIDs in any order",
    "64,610 names",
    "64,610 names of one hash",
];

const ROWS: [&str; 2] = ["rising", "shuffled"];

/// The most KiB that are tried, and how close the least is looked for.
const MOST: usize = 8192;
const STEP: usize = 4;

fn font(kind: &str, culprit: Option<usize>) -> Vec<u8> {
    let usual = |k| format!("uni{k:04X}").into_bytes();
    match kind {
        "64,610 names" => {
            let names: Vec<Vec<u8>> = (0..made::MOST_NAMES - 1).map(usual).collect();
            made::named(&names, culprit)
        }
        "64,610 names of one hash" => made::named(&names::alike(made::MOST_NAMES - 1), culprit),
        kind => {
            let order = made::ORDERS.iter().find(|order| kind.ends_with(**order));
            made::cid_keyed(order.expect("an order of CIDs"), culprit)
        }
    }
}

/// The rows of all glyphs, and in another order.
fn rows(font: &Font, keep: &[u16], order: &str) -> Vec<u8> {
    let record = font.trace(keep).expect("a record");
    let mut rows: Vec<&[u8]> = record.bytes().chunks(10).collect();
    if order == "shuffled" {
        made::shuffle(&mut rows);
    }
    rows.concat()
}

/// One call with all glyphs kept, on a thread with so many KiB of stack.
pub fn attempt(call: &str, kind: &str, order: &str, kib: usize) -> ExitCode {
    // A blocking glyph is looked for where there is one.
    let bytes = font(kind, (call == "blocking_glyph").then_some(1));
    let read = Font::read(&bytes).expect("a font that is read");
    let keep: Vec<u16> = (0..read.glyphs() as u16).collect();
    let rows = rows(&read, &keep, order);
    let mut work = vec![0_u32; read.work_words() as usize];
    let mut out = vec![0_u8; 2 * bytes.len()];
    let mut answer = [0_u64; 2];
    let (cid_keyed, small) = (read.is_cid_keyed(), call == "subset_small");
    let run = || {
        let (font, font_len) = (bytes.as_ptr(), bytes.len());
        let (name, name_len) = (b"N".as_ptr(), 1);
        let (kept, kept_len) = (keep.as_ptr(), keep.len());
        let (row, row_len) = (rows.as_ptr(), rows.len());
        let (work, work_len) = (work.as_mut_ptr(), work.len());
        let (out, out_len) = (out.as_mut_ptr(), out.len());
        let (told, told_len) = (answer.as_mut_ptr(), answer.len());
        // SAFETY: the slices are there for the call, and those for writing do not overlap any other.
        unsafe {
            match call {
                "trace" => {
                    ffi::cff_trace(font, font_len, kept, kept_len, out, out_len, told, told_len)
                }
                "check_record" => {
                    ffi::cff_check_record(font, font_len, kept, kept_len, row, row_len)
                }
                "blocking_glyph" => ffi::cff_blocking_glyph(
                    font, font_len, name, name_len, kept, kept_len, work, work_len, out, out_len,
                    told, told_len,
                ),
                _ if cid_keyed => {
                    let cut = if small {
                        ffi::cff_subset_cid_small
                    } else {
                        ffi::cff_subset_cid
                    };
                    cut(
                        font, font_len, name, name_len, kept, kept_len, row, row_len, 1, work,
                        work_len, out, out_len, told, told_len,
                    )
                }
                _ => {
                    let cut = if small {
                        ffi::cff_subset_small
                    } else {
                        ffi::cff_subset
                    };
                    cut(
                        font, font_len, name, name_len, kept, kept_len, row, row_len, 1, 1, work,
                        work_len, out, out_len, told, told_len,
                    )
                }
            }
        }
    };
    let number = std::thread::scope(|scope| {
        let thread = std::thread::Builder::new().stack_size(kib << 10);
        let spawned = thread.spawn_scoped(scope, run).expect("a thread");
        spawned.join().expect("no panic")
    });
    ExitCode::from(number)
}

/// Whether so many KiB are enough; a refusal is no answer here.
fn enough(call: &str, font: &str, order: &str, kib: usize) -> bool {
    let own = env::current_exe().expect("this program");
    let mut command = Command::new(own);
    command.args(["stack-try", call, font, order, &kib.to_string()]);
    let status = command.stderr(Stdio::null()).status().expect("a process");
    assert!(
        status.code().is_none_or(|code| code == 0),
        "{call}, {font}, {order} rows: {status}"
    );
    status.success()
}

/// The least number of KiB, as a multiple of 4.
fn least(call: &str, font: &str, order: &str) -> usize {
    let (mut low, mut high) = (0, MOST / STEP);
    assert!(
        enough(call, font, order, MOST),
        "{call}, {font}: more than {MOST} KiB"
    );
    while high - low > 1 {
        let middle = (low + high) / 2;
        if enough(call, font, order, middle * STEP) {
            high = middle;
        } else {
            low = middle;
        }
    }
    high * STEP
}

pub fn print() {
    println!("## Stack\n\nKiB of the least stack with which a call ends, all glyphs kept.\n");
    println!("| call | font | rows | KiB |\n|---|---|---|---|");
    for call in CALLS {
        let mut most = 0;
        for font in FONTS {
            // Rows are given to three of the calls.
            let given = ["subset", "subset_small", "check_record"].contains(&call);
            for order in ROWS.iter().take(if given { 2 } else { 1 }) {
                let kib = least(call, font, order);
                most = most.max(kib);
                println!(
                    "| {call} | {font} | {} | {kib} |",
                    if given { order } else { "–" }
                );
            }
        }
        println!("| **{call}** | the most | | {most} |");
    }
}
