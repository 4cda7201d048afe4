//! Numbers read, and integers and 16.16 numbers written.

use super::{fixed, integer, read};
use crate::cases::Cases;
use crate::generator::Generator;

pub(super) fn numbers_read(cases: &mut Cases, random: &mut Generator) {
    // Every first byte with 0 to 5 bytes behind it: each form is cut at each place, whole, and
    // followed by more.
    for first in 0..=255u8 {
        for behind in 0..=5 {
            let mut code = vec![first];
            code.extend(random.bytes(behind));
            read(cases, &code);
        }
    }
    let edges = [0x00, 0x7f, 0x80, 0xff];
    for first in [28u8, 32, 246, 247, 250, 251, 254] {
        for a in edges {
            for b in edges {
                read(cases, &[first, a, b]);
            }
        }
    }
    for a in edges {
        for b in edges {
            for c in edges {
                for d in edges {
                    read(cases, &[255, a, b, c, d]);
                }
            }
        }
    }
    for size in sizes_around_ties() {
        read(cases, &fixed_code(size as u32));
        read(cases, &fixed_code((size as u32).wrapping_neg()));
    }
    for size in [
        0x8000_0000u32,
        0x8000_0001,
        0x8000_003f,
        0x8000_0040,
        0x8000_0041,
    ] {
        read(cases, &fixed_code(size));
    }
    for _ in 0..60 {
        read(cases, &fixed_code(random.word() as u32));
    }
}

pub(super) fn fixed_code(bits: u32) -> [u8; 5] {
    let b = bits.to_be_bytes();
    [255, b[0], b[1], b[2], b[3]]
}

/// Sizes of 25 to 31 bits whose dropped part is a half, just below and just above it, behind an even
/// and an odd last kept bit, and behind kept bits that are all ones, where rounding up carries to the
/// next power of two.
fn sizes_around_ties() -> Vec<i32> {
    let mut sizes = vec![0, 1, 2, 3, 0x00ff_ffff, 0x0100_0000, 0x7fff_ffff];
    for dropped in 1..=7 {
        let half = 1i32 << (dropped - 1);
        for kept in [
            0x0080_0000,
            0x0080_0001,
            0x00ab_cdee,
            0x00ab_cdef,
            0x00ff_fffe,
            0x00ff_ffff,
        ] {
            for part in [0, half - 1, half, half + 1, 2 * half - 1] {
                sizes.push((kept << dropped) + part);
            }
        }
    }
    sizes
}

pub(super) fn integers_written(cases: &mut Cases, random: &mut Generator) {
    let mut sizes = vec![
        0, 1, 2, 106, 107, 108, 109, 1130, 1131, 1132, 1133, 32766, 32767,
    ];
    for step in 1..=4 {
        for near in -1..=1 {
            // Where the first byte of a two-byte form changes, and multiples of 256.
            sizes.push(108 + 256 * step + near);
            sizes.push(256 * step + near);
        }
    }
    for near in -1..=1 {
        sizes.extend([0x0fff + near, 0x7eff + near, 0x7f00 + near]);
    }
    for _ in 0..40 {
        sizes.push(random.below(32768) as i32);
        sizes.push(random.below(1200) as i32);
    }
    for size in sizes {
        integer(cases, size);
        integer(cases, -size);
    }
}

pub(super) fn fixed_written(cases: &mut Cases, random: &mut Generator) {
    let mut sizes: Vec<u32> = (0..=31).map(|n| 1 << n).collect();
    sizes.extend([
        0,
        3,
        0xffff,
        0x10001,
        0x18000,
        0x00ff_ffff,
        0x0100_0002,
        0x7fff_ff80,
        0x7fff_ff00,
        0x7f00_0000,
    ]);
    for _ in 0..60 {
        let kept = random.below(1 << 24) as u32;
        sizes.push(kept);
        sizes.push(kept << random.below(8));
        sizes.push(kept >> random.below(24));
    }
    for size in sizes {
        fixed(cases, false, size);
        fixed(cases, true, size);
    }
}
