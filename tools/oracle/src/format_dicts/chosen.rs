//! Chosen DICTs: first bytes, integers, and two refusals in one.

use super::{entry, integer, read, real};
use crate::cases::Cases;
use crate::cff::write::dict_int5;
use crate::generator::Generator;

pub(super) fn first_bytes(cases: &mut Cases, random: &mut Generator) {
    read(cases, &[]);
    for first in 0..=255u8 {
        read(cases, &[first]);
        read(cases, &[first, 17]);
        let behind = random.bytes(3);
        read(cases, &[&[first][..], &behind, &[17]].concat());
        read(cases, &[139, first, 128, 0, 0, 0, 5]);
    }
    for e in 0..=255u8 {
        if e < 42 || e.is_power_of_two() || e > 250 {
            read(cases, &[140, 12, e]);
        }
    }
    for lead in [&[][..], &[139], &[139, 17], &[12, 12], &[140, 12, 7]] {
        for tail in [
            &[][..],
            &[12],
            &[12, 12],
            &[12, 12, 12],
            &[12, 12, 12, 12],
            &[12, 22],
            &[22, 12],
            &[12, 255],
            &[31],
        ] {
            read(cases, &[lead, tail].concat());
        }
    }
    // One operator again, with other operands; operators alone; many operands.
    read(cases, &[139, 17, 140, 17, 17, 141, 142, 17]);
    read(cases, &[15; 100]);
    read(cases, &[12; 100]);
    read(cases, &[12; 99]);
    for many in [47, 48, 49, 59, 70] {
        let operands = vec![239; many];
        read(cases, &operands);
        read(cases, &[&operands[..], &[5]].concat());
    }
}

/// The sizes at which a form changes.
pub(super) const EDGES: [i64; 20] = [
    0, 1, 9, 10, 99, 100, 106, 107, 108, 109, 363, 364, 1130, 1131, 1132, 32767, 32768, 65535,
    65536, 99999,
];
pub(super) const HIGH: [i64; 9] = [
    2147483600, 2147483640, 2147483645, 2147483646, 2147483647, 2147483648, 2147483649, 4294967295,
    4294967296,
];

pub(super) fn integers(cases: &mut Cases) {
    for size in EDGES.into_iter().chain(HIGH) {
        for v in [size, -size] {
            if let Ok(v) = i16::try_from(v) {
                let [h, l] = v.to_be_bytes();
                read(cases, &entry(&[&[28, h, l]]));
            }
            if let Ok(v) = i32::try_from(v) {
                read(cases, &entry(&[&integer(v)]));
                let mut five = Vec::new();
                dict_int5(v, &mut five);
                read(cases, &entry(&[&five]));
            }
            let sign = if v < 0 { "e" } else { "" };
            read(cases, &entry(&[&real(&format!("{sign}{size}"))]));
            read(cases, &entry(&[&real(&format!("{sign}{size}a0"))]));
            read(cases, &entry(&[&real(&format!("{sign}{size}a5"))]));
        }
    }
    // Each form cut at each place.
    for form in [
        &[247, 1][..],
        &[254, 255],
        &[28, 127, 255],
        &[29, 127, 255, 255, 255],
    ] {
        for cut in 1..=form.len() {
            read(cases, &form[..cut]);
            read(cases, &[&[140, 17], &form[..cut]].concat());
        }
    }
}

/// Which of two refusals is met first.
pub(super) fn orders(cases: &mut Cases) {
    let parts: [&[u8]; 8] = [
        &entry(&[&real("1b31")]),
        &real("1234567890123456"),
        &entry(&[&real(&"0".repeat(64))]),
        &[22],
        &[30, 0x1d],
        &entry(&[&real("1be")]),
        &[139],
        &entry(&[&real("0a5"), &[139]]),
    ];
    let ends: [&[u8]; 4] = [&[], &[17], &[12], &[30, 0x12]];
    for first in parts {
        for second in parts {
            for end in ends {
                read(cases, &[first, second, end].concat());
            }
        }
    }
}
