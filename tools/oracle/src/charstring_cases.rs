//! Cases of cff/charstring.rs: numbers read (`n`), integers and 16.16 numbers written (`i`, `f`),
//! tokens (`t`), tokens written back (`e`), and the subroutine bias (`b`).

mod chosen_streams;
mod numbers;
mod random_streams;

use crate::cases::Cases;
use crate::cff::charstring::{
    Token, bias, encode, encode_fixed, encode_number, number, tokens_with_masks,
};
use crate::generator::Generator;
use chosen_streams::chosen_streams;
use numbers::{fixed_written, integers_written, numbers_read};
use random_streams::stream;

/// The longest code of a case.
const LONGEST: usize = 60;

/// A mask length for the operator at an offset.
type Pair = (u16, u16);

pub fn all(cases: &mut Cases, random: &mut Generator) {
    numbers_read(cases, random);
    integers_written(cases, random);
    fixed_written(cases, random);
    chosen_streams(cases);
    for _ in 0..380 {
        let (pairs, code) = stream(random);
        tokens(cases, &pairs, &code);
    }
    for _ in 0..380 {
        let (pairs, code) = stream(random);
        encoded(cases, &pairs, &code);
    }
    for count in [
        0, 1, 107, 1131, 1238, 1239, 1240, 1241, 32768, 33898, 33899, 33900, 33901, 65535,
    ] {
        biased(cases, count);
    }
}

// ---- what is asked and answered

fn read(cases: &mut Cases, code: &[u8]) {
    let mut pc = 0;
    let answer = match number(code, &mut pc) {
        Err(_) => vec![0],
        Ok(None) => vec![1],
        Ok(Some(v)) => {
            let mut answer = vec![2];
            put_number(v, &mut answer);
            answer.push(pc as u8);
            answer
        }
    };
    cases.add('n', code, &answer);
}

fn integer(cases: &mut Cases, v: i32) {
    let mut input = vec![u8::from(v < 0)];
    input.extend_from_slice(&(v.unsigned_abs() as u16).to_be_bytes());
    let mut answer = Vec::new();
    encode_number(v, &mut answer);
    cases.add('i', &input, &answer);
}

/// A 16.16 number by its sign and its count of 65536ths, which an f32 must hold exactly.
fn fixed(cases: &mut Cases, negative: bool, size: u32) {
    let v = (f64::from(size) / 65536.0) as f32;
    assert!(size <= 0x8000_0000 && count_of(v) == size);
    let negative = negative && size != 0;
    let mut input = vec![u8::from(negative)];
    input.extend_from_slice(&size.to_be_bytes());
    let mut answer = Vec::new();
    encode_fixed(if negative { -v } else { v }, &mut answer);
    cases.add('f', &input, &answer);
}

fn tokens(cases: &mut Cases, pairs: &[Pair], code: &[u8]) {
    let answer = match tokens_with_masks(code, |at| length_at(pairs, at)) {
        Err(_) => vec![0],
        Ok(list) => {
            let mut answer = vec![1];
            for token in list {
                put_token(token, code, &mut answer);
            }
            answer
        }
    };
    cases.add('t', &stream_input(pairs, code), &answer);
}

fn encoded(cases: &mut Cases, pairs: &[Pair], code: &[u8]) {
    let answer = match tokens_with_masks(code, |at| length_at(pairs, at)) {
        Err(_) => vec![0],
        Ok(list) => {
            let mut answer = vec![1];
            answer.extend(encode(&list));
            answer
        }
    };
    cases.add('e', &stream_input(pairs, code), &answer);
}

fn biased(cases: &mut Cases, count: u32) {
    let answer = bias(count as usize) as u32;
    cases.add('b', &count.to_be_bytes(), &answer.to_be_bytes());
}

// ---- the fields

/// The count of 65536ths of a number's size; exact, since the number is a 16.16 rounded to 24 bits.
fn count_of(v: f32) -> u32 {
    let count = f64::from(v.abs()) * 65536.0;
    assert!(count.fract() == 0.0 && count <= 2147483648.0);
    count as u32
}

fn put_number(v: f32, out: &mut Vec<u8>) {
    assert!(v != 0.0 || v.is_sign_positive());
    out.push(u8::from(v < 0.0));
    out.extend_from_slice(&count_of(v).to_be_bytes());
}

fn put_token(token: Token<'_>, code: &[u8], out: &mut Vec<u8>) {
    match token {
        Token::Num(v) => {
            out.push(1);
            put_number(v, out);
        }
        Token::Op(op) => out.extend_from_slice(&[2, op]),
        Token::Esc(e) => out.extend_from_slice(&[3, e]),
        Token::Mask(mask) => {
            let start = mask.as_ptr() as usize - code.as_ptr() as usize;
            out.push(4);
            out.extend_from_slice(&(start as u16).to_be_bytes());
            out.extend_from_slice(&(mask.len() as u16).to_be_bytes());
        }
    }
}

fn stream_input(pairs: &[Pair], code: &[u8]) -> Vec<u8> {
    assert!(code.len() <= LONGEST);
    let mut input = vec![pairs.len() as u8];
    for (at, length) in pairs {
        input.extend_from_slice(&at.to_be_bytes());
        input.extend_from_slice(&length.to_be_bytes());
    }
    input.extend_from_slice(code);
    input
}

fn length_at(pairs: &[Pair], at: usize) -> Option<usize> {
    let pair = pairs.iter().find(|pair| usize::from(pair.0) == at)?;
    Some(usize::from(pair.1))
}
