//! Inputs and the binding's answers in a file, for calls.py: one input a line, fields separated by one blank, bytes in hexadecimal, `-` for
//! none, `!N` for a refusal.

use crate::hex;
use crate::inputs::{self, Family};
use crate::seams::chance;
use made_fonts::generator::Generator;
use mogdivash::{Font, Item, Record, Refusal, Subset, Way};
use std::fs;

fn told<T>(answer: Result<T, Refusal>, shown: impl FnOnce(T) -> String) -> String {
    match answer {
        Ok(answer) => shown(answer),
        Err(refusal) => format!("!{}", refusal.number()),
    }
}

fn glyph(found: Option<u16>) -> String {
    found.map_or("-".to_string(), |glyph| glyph.to_string())
}

fn cut(subset: Subset) -> String {
    let way = match subset.way {
        Way::Renumbered => 0,
        Way::Stubbed => 1,
        Way::Copied => 2,
    };
    format!("{way}:{}", hex(&subset.bytes))
}

/// What is asked of a font, and its answers: the fields behind the file's, in the order of calls.py.
fn fields(g: &mut Generator, font: &Font) -> Vec<String> {
    let names: [&[u8]; 5] = [b".notdef", b"A", b"space", b"a", b""];
    let looked = g.one_of(&names);
    let cid = g.one_of(&[0, 1, 2, 34, 65_535]);
    let (kind, number) = (g.below(3), g.below(6) as u64);
    let item = [
        Item::Charstring(number),
        Item::Global(number),
        Item::String(number),
    ][kind];
    let keep = inputs::keep(g, font.glyphs());
    let traced = font.trace(&keep);
    let (rows, flag) = match &traced {
        Ok(record) => (record.bytes(), u8::from(record.is_traced())),
        Err(_) => (&[][..], 1),
    };
    let (rows, _) = inputs::record(g, rows, flag);
    let name = inputs::name(g);
    let record = Record::from_bytes(rows.clone());
    let encoding = g.once_in(3);
    let subset = match encoding {
        true => font.subset_with_encoding(&name, &keep, &record),
        false => font.subset(&name, &keep, &record),
    };
    let numbers: Vec<String> = keep.iter().map(u16::to_string).collect();
    let trace =
        |record: Record| format!("{}:{}", u8::from(record.is_traced()), hex(record.bytes()));
    vec![
        hex(looked),
        glyph(font.find_name(looked)),
        cid.to_string(),
        glyph(font.find_cid(cid)),
        format!("{kind},{number}"),
        told(font.item(item), |bytes| hex(&bytes)),
        format!("[{}]", numbers.join(",")),
        told(traced, trace),
        hex(&rows),
        told(font.check_record(&keep, &record), |()| "0".to_string()),
        hex(&name),
        u8::from(encoding).to_string(),
        told(subset, cut),
        told(font.subset_traced(&name, &keep), cut),
        told(font.blocking_glyph(&name, &keep), glyph),
    ]
}

pub fn write(seed: u64, count: u64, file: &str) -> Result<(), String> {
    let mut lines = String::new();
    for number in 0..count {
        let mut g = chance(seed ^ 0x0009_7907, number);
        let bytes = Family::of_input(None, seed ^ 0x0009_7907, number).file(&mut g);
        let read = Font::read(&bytes);
        let counts = told(read, |font| {
            let cid = u8::from(font.is_cid_keyed());
            let (glyphs, globals, strings) = (font.glyphs(), font.globals(), font.strings());
            format!("{glyphs},{globals},{strings},{cid},{}", font.work_words())
        });
        let code = inputs::charstring(&mut g);
        let next = told(mogdivash::next_charstring(&code), |next| {
            hex(&next.unwrap_or_default())
        });
        let mut line = vec![hex(&bytes), counts, hex(&code), next];
        if let Ok(font) = read {
            line.extend(fields(&mut g, &font));
        }
        lines += &line.join(" ");
        lines += "\n";
    }
    fs::write(file, lines).map_err(|error| format!("{file}: {error}"))
}
