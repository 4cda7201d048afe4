//! Eight threads at once: the answers are those of one thread.

use crate::checks::{Counts, STACK};
use crate::desk::Desk;
use crate::inputs::Family;
use crate::seams;
use std::sync::Arc;
use std::time::{Duration, Instant};

const THREADS: u64 = 8;

/// From an input to the next, by thread: none has a divisor in common with the number of inputs.
const STEPS: [u64; THREADS as usize] = [3, 7, 11, 13, 17, 19, 23, 29];

/// Inputs whose answers are compared.
const INPUTS: u64 = 2000;

/// A digest of the answers to an input.
fn digest(desk: &mut Desk, seed: u64, number: u64) -> Result<u64, String> {
    let family = Family::of_input(None, seed, number);
    let mut counts = Counts::default();
    let (done, _) = seams::input(desk, &mut counts, &family, seed, number, false);
    done.map_err(|message| format!("input {seed} {number}: {message}"))
}

pub fn run(seed: u64, seconds: u64) -> Result<(), String> {
    let alone: Vec<u64> = seams::on_thread(STACK, move || {
        let mut desk = Desk::new();
        (0..INPUTS)
            .map(|k| digest(&mut desk, seed, k))
            .collect::<Result<_, _>>()
    })?;
    let alone = Arc::new(alone);
    let until = Instant::now() + Duration::from_secs(seconds);
    let threads: Vec<_> = (0..THREADS)
        .map(|thread| {
            let alone = alone.clone();
            let started = std::thread::Builder::new().stack_size(STACK);
            let work = move || repeated(seed, thread, &alone, until);
            started.spawn(work).expect("a thread")
        })
        .collect();
    let mut inputs = 0;
    for thread in threads {
        inputs += thread.join().expect("no panic")?;
    }
    println!(
        "threads: {THREADS} at once for {seconds} seconds, {inputs} inputs, each answered as by one thread"
    );
    Ok(())
}

/// The inputs again and again, in an order of the thread's own: how many.
fn repeated(seed: u64, thread: u64, alone: &[u64], until: Instant) -> Result<u64, String> {
    let mut desk = Desk::new();
    let mut count = 0;
    let mut number = thread * INPUTS / THREADS;
    while Instant::now() < until {
        if digest(&mut desk, seed, number)? != alone[number as usize] {
            return Err(format!("input {seed} {number}: another answer than alone"));
        }
        number = (number + STEPS[thread as usize]) % INPUTS;
        count += 1;
    }
    Ok(count)
}
