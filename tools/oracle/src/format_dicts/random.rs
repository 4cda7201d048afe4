//! Random reals, DICTs and decimals.

use super::own::Decimal;
use super::{LONGEST, MOST_OPERANDS, read, real};
use crate::cases::Cases;
use crate::cff::write::dict_number;
use crate::generator::Generator;

fn digits(random: &mut Generator, most: usize) -> String {
    let length = random.below(most + 1);
    (0..length)
        .map(|_| {
            if random.once_in(3) {
                '0'
            } else {
                (b'0' + random.below(10) as u8) as char
            }
        })
        .collect()
}

pub(super) fn random_real(random: &mut Generator) -> Vec<u8> {
    let mut text = String::new();
    if random.once_in(3) {
        text.push('e');
    }
    let most = random.one_of(&[3, 8, 8, 12]);
    text.push_str(&digits(random, most));
    if random.once_in(2) {
        text.push('a');
        text.push_str(&digits(random, most));
    }
    if random.once_in(2) {
        text.push_str(random.one_of(&["b", "c", "be", "b", "c"]));
        let size = random.below(40);
        text.push_str(&size.to_string());
    }
    if random.once_in(8) {
        // A nibble changed or put in.
        let at = random.below(text.len() + 1);
        text.insert(at, random.one_of(&['0', 'a', 'b', 'c', 'd', 'e', 'e', 'f']));
    }
    real(&text)
}

pub(super) fn random_dict(cases: &mut Cases, random: &mut Generator) {
    let mut bytes = Vec::new();
    let mut operands = 0;
    let length = 4 + random.below(70);
    while bytes.len() < length && operands < MOST_OPERANDS {
        for _ in 0..random.one_of(&[0, 1, 1, 1, 2, 3, 6]) {
            operands += 1;
            match random.below(9) {
                0..=2 => bytes.push(32 + random.below(215) as u8),
                3 => bytes.extend([247 + random.below(4) as u8, random.byte()]),
                4 => bytes.extend([251 + random.below(4) as u8, random.byte()]),
                5 => bytes.extend([&[28][..], &random.bytes(2)].concat()),
                6 => bytes.extend([&[29][..], &random.bytes(4)].concat()),
                7 => {
                    // A number as the cut writes it.
                    let d = random_decimal(random);
                    dict_number(d.value(), &mut bytes);
                }
                _ => {
                    let number = if random.once_in(6) {
                        random_real(random)
                    } else {
                        real(&format!("{}a{}", random.below(900), random.below(900)))
                    };
                    bytes.extend(number);
                }
            }
        }
        if random.once_in(3) {
            bytes.extend([12, random.below(40) as u8]);
        } else {
            bytes.push(random.one_of(&[
                0, 1, 2, 3, 4, 5, 6, 7, 10, 11, 13, 14, 15, 16, 17, 18, 19, 20, 21,
            ]));
        }
    }
    bytes.truncate(LONGEST);
    match random.below(6) {
        0 => bytes.truncate(random.below(bytes.len() + 1)),
        1 => {
            let at = random.below(bytes.len());
            bytes[at] = random.one_of(&[0, 12, 22, 27, 28, 29, 30, 31, 255, 247, 254, 139]);
        }
        2 => {
            let at = random.below(bytes.len());
            bytes.remove(at);
        }
        _ => {}
    }
    read(cases, &bytes);
}

pub(super) fn random_decimal(random: &mut Generator) -> Decimal {
    loop {
        let most = 10u64.pow(1 + random.below(15) as u32);
        let digits = match random.below(5) {
            0 => most - 1,
            1 => most / 10 + 1,
            _ => random.word() % most,
        };
        let power = match random.below(3) {
            0 => 0,
            1 => -(random.below(8) as i32),
            _ => random.below(61) as i32 - 30,
        };
        let d = Decimal::new(random.once_in(2), digits, power);
        if d.held() {
            return d;
        }
    }
}
