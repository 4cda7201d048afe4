//! The stored cases of the gate (crates/replay/data), answered through this crate.

use mogdivash::{Font, Item, Record, Refusal, Way};
use std::fs;

/// Takes bytes and numbers from the front of a field.
struct Fields(Vec<u8>, usize);

impl Fields {
    fn new(text: &str) -> Fields {
        let text = text.trim_start_matches('-');
        let byte = |k| u8::from_str_radix(&text[k..k + 2], 16).expect("hexadecimal");
        Fields((0..text.len()).step_by(2).map(byte).collect(), 0)
    }

    fn bytes(&mut self, n: usize) -> &[u8] {
        self.1 += n;
        &self.0[self.1 - n..self.1]
    }

    fn number(&mut self, n: usize) -> usize {
        self.bytes(n)
            .iter()
            .fold(0, |v, &b| v << 8 | usize::from(b))
    }

    fn rest(&mut self) -> &[u8] {
        self.bytes(self.0.len() - self.1)
    }
}

fn lines(file: &str) -> Vec<(String, Fields, Fields)> {
    let path = format!(
        "{}/../../crates/replay/data/{file}",
        env!("CARGO_MANIFEST_DIR")
    );
    let text = fs::read_to_string(path).expect("the stored cases");
    text.lines()
        .map(|line| {
            let mut words = line.split(' ');
            let mut word = || words.next().expect("KIND INPUT ANSWER").to_owned();
            (word(), Fields::new(&word()), Fields::new(&word()))
        })
        .collect()
}

/// The item that a stored case asks for, by its kind and number.
fn item(kind: usize, number: u64) -> Item {
    match kind {
        0 => Item::Charstring(number),
        1 => Item::Global(number),
        _ => Item::String(number),
    }
}

#[test]
fn reading_finding_and_items() {
    let mut asked = 0;
    for (kind, mut input, mut answer) in lines("cff") {
        let length = input.number(2);
        let bytes = input.bytes(length).to_vec();
        let refusal = Refusal::from_number(answer.number(1) as u8);
        let font = match Font::read(&bytes) {
            Ok(font) => font,
            Err(given) => {
                assert_eq!(Some(given), refusal);
                continue;
            }
        };
        let found = |glyph: Option<u16>| glyph.map_or([0, 0, 0], |g| [1, (g >> 8) as u8, g as u8]);
        match kind.as_str() {
            "R" => {
                assert_eq!(answer.number(4) as u64, font.glyphs());
                assert_eq!(answer.number(4) as u64, font.globals());
                assert_eq!(answer.number(4) as u64, font.strings());
                assert_eq!(answer.number(1) == 1, font.is_cid_keyed());
                assert_eq!(answer.number(8) as u64, font.work_words());
            }
            "N" => assert_eq!(answer.rest(), found(font.find_name(input.rest()))),
            "C" => assert_eq!(answer.rest(), found(font.find_cid(input.number(2) as u16))),
            _ => {
                let wanted = item(input.number(1), input.number(4) as u64);
                match font.item(wanted) {
                    Err(given) => assert_eq!(Some(given), refusal),
                    Ok(bytes) => assert_eq!((refusal, answer.rest()), (None, bytes)),
                }
            }
        }
        asked += 1;
    }
    assert!(asked > 1000, "{asked} cases of fonts that are read");
}

/// The stack that subsetting takes at most, as include/mogdivash.h says.
const STACK: usize = 1 << 19;

#[test]
fn subsets() {
    let thread = std::thread::Builder::new().stack_size(STACK);
    let run = thread.spawn(subsets_in_thread).expect("a thread");
    run.join().expect("all cases agree");
}

fn subsets_in_thread() {
    let mut cut = 0;
    for (kind, mut input, mut answer) in lines("subset") {
        let length = input.number(2);
        let bytes = input.bytes(length).to_vec();
        let length = input.number(1);
        let name = input.bytes(length).to_vec();
        let kept = input.number(2);
        let keep: Vec<u16> = (0..kept).map(|_| input.number(2) as u16).collect();
        let flag = input.number(1);
        let mut work = vec![7; input.number(2)];
        let mut out = vec![0xa5; input.number(2)];
        let record = match flag {
            0 if input.rest().is_empty() => Record::untraced(),
            1 => Record::from_bytes(input.rest().to_vec()),
            // A flag that this crate does not give.
            _ => continue,
        };
        let refusal = Refusal::from_number(answer.number(1) as u8);
        let Ok(font) = Font::read(&bytes) else {
            continue;
        };
        if font.is_cid_keyed() != (kind == "D") {
            continue;
        }
        let answered = font.subset_into(&name, &keep, &record, &mut work, &mut out);
        // The small call, with its own words: one fewer where there were too few.
        let few = font.small_work_words() as usize - usize::from(refusal == Some(Refusal::Work));
        let (mut few, mut same) = (vec![7; few], vec![0xa5; out.len()]);
        let small = font.subset_small_into(&name, &keep, &record, &mut few, &mut same);
        assert_eq!((small, &same), (answered, &out));
        match answered {
            Err(given) => {
                assert_eq!(Some(given), refusal);
                assert!(out.iter().all(|&b| b == 0xa5));
            }
            Ok((way, length)) => {
                let number = match way {
                    Way::Renumbered => 0,
                    Way::Stubbed => 1,
                    Way::Copied => 2,
                };
                assert_eq!((refusal, answer.number(1)), (None, number));
                assert_eq!(answer.rest(), &out[..length]);
                assert!(out[length..].iter().all(|&b| b == 0xa5));
                let words = font.work_words() as usize;
                assert!(work[..words].iter().all(|&w| w == 0));
                assert!(work[words..].iter().all(|&w| w == 7));
                let again = font
                    .subset(&name, &keep, &record)
                    .expect("a subset with more room");
                assert_eq!((again.way, &again.bytes[..]), (way, &out[..length]));
                cut += 1;
            }
        }
    }
    assert!(cut > 200, "{cut} subsets");
}
