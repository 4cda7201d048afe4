//! The time of a call: the least of several runs.

use std::time::{Duration, Instant};

/// Runs for about so long, but once at least and at most so often.
#[derive(Clone, Copy)]
pub struct Budget {
    time: Duration,
    runs: usize,
}

/// What a font of the tables is given, and what one of thousands is.
pub const USUAL: Budget = Budget {
    time: Duration::from_millis(120),
    runs: 40,
};
pub const SHORT: Budget = Budget {
    time: Duration::from_millis(15),
    runs: 8,
};
/// What an input that was made to be slow is given.
pub const SLOW: Budget = Budget {
    time: Duration::from_secs(1),
    runs: 3,
};

/// The least time, in microseconds, and what the last run gave.
pub fn least<T>(run: impl FnMut() -> T) -> (f64, T) {
    least_in(USUAL, run)
}

/// The same within a budget.
pub fn least_in<T>(budget: Budget, mut run: impl FnMut() -> T) -> (f64, T) {
    let start = Instant::now();
    let mut best = f64::INFINITY;
    let mut runs = 0;
    loop {
        let before = Instant::now();
        let result = run();
        best = best.min(before.elapsed().as_secs_f64() * 1e6);
        runs += 1;
        if runs == budget.runs || start.elapsed() > budget.time {
            return (best, result);
        }
    }
}

/// The least times of two that run in turn, so that what else the machine does falls on both, and what their last runs gave.
pub fn least_of_both<T>(mut one: impl FnMut() -> T, mut two: impl FnMut() -> T) -> [(f64, T); 2] {
    let once = Budget {
        time: Duration::ZERO,
        runs: 1,
    };
    let mut all = [least_in(once, &mut one), least_in(once, &mut two)];
    let start = Instant::now();
    for _ in 1..USUAL.runs {
        if start.elapsed() > 2 * USUAL.time {
            break;
        }
        let [first, second] = [least_in(once, &mut one), least_in(once, &mut two)];
        all[0].0 = all[0].0.min(first.0);
        all[1].0 = all[1].0.min(second.0);
    }
    all
}

/// The geometric mean.
pub fn mean(ratios: &[f64]) -> f64 {
    let sum: f64 = ratios.iter().map(|ratio| ratio.ln()).sum();
    (sum / ratios.len() as f64).exp()
}
