//! Keep lists to trace.

use crate::cut_cases::{self, AMOUNTS, listed};
use crate::cut_compare::Opened;
use crate::generator::Generator;
use crate::trace_compare::Ask;
use crate::trace_model::Tracer;

/// The glyphs that finding gives, and the others.
fn glyphs(tracer: &Tracer<'_>) -> (Vec<u16>, Vec<u16>) {
    (0..tracer.found.len() as u16).partition(|&k| tracer.found[usize::from(k)])
}

/// The glyphs that finding gives.
pub fn found(tracer: &Tracer<'_>) -> Vec<u16> {
    glyphs(tracer).0
}

/// In any order.
fn shuffled(g: &mut Generator, list: &[u16]) -> Vec<u16> {
    let mut list = list.to_vec();
    for k in (1..list.len()).rev() {
        let l = g.below(k + 1);
        list.swap(k, l);
    }
    list
}

/// A list with one more number somewhere in it.
fn with(g: &mut Generator, list: &[u16], number: u16) -> Vec<u16> {
    let mut list = list.to_vec();
    let at = g.below(list.len() + 1);
    list.insert(at, number);
    list
}

/// Lists of a font that is refused.
fn of_none(g: &mut Generator) -> Vec<Ask> {
    let keep = (0..g.below(4)).map(|_| g.below(9) as u16).collect();
    let list = "any numbers";
    vec![Ask { keep, list }]
}

/// Lists of a made font: none, all, some with repeats, the plain ones, and some with a number that is refused.
pub fn made(g: &mut Generator, _: &Opened<'_>, tracer: Option<&Tracer<'_>>) -> Vec<Ask> {
    let Some(tracer) = tracer else {
        return of_none(g);
    };
    let (found, others) = glyphs(tracer);
    let plain: Vec<u16> = found
        .iter()
        .copied()
        .filter(|&k| tracer.met(k).is_some())
        .collect();
    let mut asks = Vec::new();
    let mut push = |list, keep| asks.push(Ask { keep, list });
    push("none", Vec::new());
    push("all", shuffled(g, &found));
    for _ in 0..2 {
        push("some", listed(g, &found));
    }
    if !plain.is_empty() {
        push("plain glyphs", listed(g, &plain));
    }
    let past = (tracer.found.len() + g.below(3)).min(65_535) as u16;
    let past = if g.once_in(3) { 65_535 } else { past };
    let some = listed(g, &found);
    push("with a number past the font", with(g, &some, past));
    if !others.is_empty() {
        let other = g.one_of(&others);
        let lost = with(g, &some, other);
        if g.once_in(2) {
            push("with both", with(g, &lost, past));
        }
        push("with a glyph that is not found", lost);
    }
    asks
}

/// Lists of a real font: 75 letters, few glyphs, all, and the plain ones where not all are plain.
pub fn real(g: &mut Generator, opened: &Opened<'_>, tracer: Option<&Tracer<'_>>) -> Vec<Ask> {
    let Some(tracer) = tracer else {
        return of_none(g);
    };
    let mut asks: Vec<Ask> = AMOUNTS
        .into_iter()
        .map(|list| Ask {
            keep: cut_cases::amount(g, opened, list),
            list,
        })
        .collect();
    let (found, others) = glyphs(tracer);
    let plain = |&k: &u16| tracer.met(k).is_some();
    if !found.iter().all(plain) {
        let keep = found.iter().copied().filter(plain).collect();
        let list = "all plain glyphs";
        asks.push(Ask { keep, list });
    }
    let past = tracer.found.len() as u16;
    let few = asks[1].keep.clone();
    asks.push(Ask {
        keep: with(g, &few, past),
        list: "with a number past the font",
    });
    if let Some(&lost) = others.first() {
        asks.push(Ask {
            keep: with(g, &few, lost),
            list: "with a glyph that is not found",
        });
    }
    asks
}

/// A list of a damaged copy of a real font.
pub fn few(g: &mut Generator, opened: &Opened<'_>, tracer: Option<&Tracer<'_>>) -> Vec<Ask> {
    if tracer.is_none() {
        return of_none(g);
    }
    let list = AMOUNTS[1];
    let keep = cut_cases::amount(g, opened, list);
    vec![Ask { keep, list }]
}

/// Each glyph alone, and some together.
pub fn each(g: &mut Generator, opened: &Opened<'_>, tracer: Option<&Tracer<'_>>) -> Vec<Ask> {
    let mut asks = made(g, opened, tracer);
    if let Some(tracer) = tracer {
        let list = "one glyph";
        let alone = |k| Ask {
            keep: vec![k],
            list,
        };
        asks.extend(glyphs(tracer).0.into_iter().map(alone));
    }
    asks
}
