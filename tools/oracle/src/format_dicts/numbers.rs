//! Chosen numbers to write.

use super::chosen::{EDGES, HIGH};
use super::own::Decimal;
use super::written;
use crate::cases::Cases;

pub(super) fn chosen_written(cases: &mut Cases) {
    let mut both = |digits: u64, power: i32| {
        for negative in [false, true] {
            let d = Decimal::new(negative, digits, power);
            if d.held() {
                written(cases, d);
            }
        }
    };
    for edge in EDGES.into_iter().chain(HIGH) {
        for step in -1..=1 {
            if let Ok(n) = u64::try_from(edge + step) {
                both(n, 0);
            }
        }
        // A half, a tenth and a hundred thousandth to each side.
        for (scale, part) in [(1, 5), (1, 1), (5, 1)] {
            let n = edge as u64 * 10u64.pow(scale);
            both(n + part, -(scale as i32));
            if n > part {
                both(n - part, -(scale as i32));
            }
        }
    }
    for power in -31..=31 {
        both(1, power);
        both(9, power);
        both(25, power);
        both(123456789012345, power);
        both(999999999999999, power);
        both(100000000000001, power);
    }
    for power in 0..15 {
        let most = 10u64.pow(power + 1) - 1;
        both(most, 0);
        both(most, -(power as i32));
        both(most, -(power as i32) - 1);
    }
    for power in 7..12 {
        both(2, power);
        both(3, power);
    }
    both(214748364, 1);
    both(214748365, 1);
    both(21474836, 2);
}
