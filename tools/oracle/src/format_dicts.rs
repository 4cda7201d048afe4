//! Cases of a DICT: read by `Dict::parse` (`d`), and a number written by `dict_number` (`w`). A real's decimal, and with it
//! refusal 5 of docs/01-scope.md, which the original does not know, are read here from its nibbles; all else is the
//! original's answer, and the run stops where the two readings differ.

mod chosen;
mod numbers;
mod own;
mod random;
mod reals;

use crate::cases::Cases;
use crate::cff::Dict;
use crate::cff::write::{dict_int, dict_number};
use crate::format_cases::{add, refusal};
use crate::generator::Generator;
use chosen::{first_bytes, integers, orders};
use numbers::chosen_written;
use own::{Decimal, own_dict};
use random::{random_decimal, random_dict, random_real};
use reals::chosen_reals;

/// The longest DICT of a case, and the most operands of a random one: the line stays short.
const LONGEST: usize = 100;
const MOST_OPERANDS: usize = 60;

const TRUNCATED: u8 = 1;
const MALFORMED: u8 = 2;
const BEYOND: u8 = 5;

pub fn all(cases: &mut Cases, random: &mut Generator) {
    first_bytes(cases, random);
    integers(cases);
    chosen_reals(cases);
    orders(cases);
    for _ in 0..260 {
        let real = random_real(random);
        read(cases, &entry(&[&real]));
    }
    for _ in 0..420 {
        random_dict(cases, random);
    }
    chosen_written(cases);
    for _ in 0..330 {
        let d = random_decimal(random);
        written(cases, d);
    }
}

// ---- what is asked and answered

fn read(cases: &mut Cases, bytes: &[u8]) {
    assert!(bytes.len() <= LONGEST);
    let mut answer = Vec::new();
    match own_dict(bytes) {
        Err((BEYOND, after)) => {
            // Up to and with this real the original has nothing against the DICT.
            let upto = [&bytes[..after], &[0]].concat();
            assert!(
                Dict::parse(&upto).is_ok(),
                "refusal 5 of a DICT that the original refuses: {bytes:02x?}"
            );
            answer.push(BEYOND);
        }
        Err((own, _)) => {
            let error = Dict::parse(bytes).expect_err("a DICT refused by the own reading alone");
            assert!(refusal(&error) == own, "refusals differ: {bytes:02x?}");
            answer.push(refusal(&error));
        }
        Ok(own) => {
            let dict = Dict::parse(bytes).expect("a DICT refused by the original alone");
            assert!(
                own.len() == dict.entries.len(),
                "entries differ: {bytes:02x?}"
            );
            answer.push(0);
            for ((op, decimals), (other, numbers)) in own.iter().zip(&dict.entries) {
                assert!(
                    op == other && decimals.len() == numbers.len(),
                    "entries differ: {bytes:02x?}"
                );
                answer.extend_from_slice(&other.to_be_bytes());
                answer.push(numbers.len() as u8);
                for (decimal, number) in decimals.iter().zip(numbers) {
                    assert!(
                        decimal.value() == *number,
                        "{decimal:?} and {number} differ: {bytes:02x?}"
                    );
                    decimal.put(&mut answer);
                }
            }
        }
    }
    add(cases, 'd', bytes, &answer);
}

fn written(cases: &mut Cases, d: Decimal) {
    let mut input = Vec::new();
    d.put(&mut input);
    let mut answer = Vec::new();
    dict_number(d.value(), &mut answer);
    add(cases, 'w', &input, &answer);
}

// ---- parts of a DICT

/// The bytes of a real from nibbles, each a character of `text`; an odd number of them ends with `last`.
fn nibbles(text: &str, last: u8) -> Vec<u8> {
    let mut all: Vec<u8> = text
        .chars()
        .map(|c| c.to_digit(16).expect("a nibble") as u8)
        .collect();
    if !all.len().is_multiple_of(2) {
        all.push(last);
    }
    let mut out = vec![30];
    out.extend(all.chunks(2).map(|pair| pair[0] << 4 | pair[1]));
    out
}

/// A real with its end.
fn real(text: &str) -> Vec<u8> {
    nibbles(&format!("{text}f"), 15)
}

/// Operands and an operator.
fn entry(operands: &[&[u8]]) -> Vec<u8> {
    [&operands.concat()[..], &[17]].concat()
}

fn integer(v: i32) -> Vec<u8> {
    let mut out = Vec::new();
    dict_int(v, &mut out);
    out
}
