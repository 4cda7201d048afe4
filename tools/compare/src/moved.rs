//! A font that holds what another one holds, its parts in another order and in other forms, with gaps between them.

use crate::generator::Generator;
use crate::layout::{Entry, Layout, Num, Part, entry, shape};
use crate::model::{Held, HeldPrivate, Raw, operator};
use crate::numbers;

/// The parts of every file that stand first, in this order: header, names, top DICTs, strings, global subroutines.
const FIRST: usize = 5;

/// The bytes of a font that holds this, the ids of its glyphs being given.
pub fn font(g: &mut Generator, held: &Held, ids: &[u16]) -> Vec<u8> {
    let mut mover = Mover {
        g,
        layout: Layout::default(),
        behind: Vec::new(),
    };
    mover.font(held, ids);
    mover.reorder();
    mover.layout.bytes()
}

struct Mover<'a> {
    g: &'a mut Generator,
    layout: Layout,
    /// Parts of which the second must stand behind the first: Subrs is not negative.
    behind: Vec<(usize, usize)>,
}

impl Mover<'_> {
    fn font(&mut self, held: &Held, ids: &[u16]) {
        let size = 4 + self.g.below(3);
        let mut header = vec![1, self.g.byte(), size as u8];
        header.extend(self.g.bytes(size - 3));
        self.layout.add(Part::Bytes(header));
        let length = self.g.below(6);
        let name = self.g.bytes(length);
        self.index(vec![Part::Bytes(name)]);
        let tops = self.index(Vec::new());
        self.items(&held.strings);
        self.items(&held.globals);

        let charstrings = self.items(&held.charstrings);
        let mut places = vec![(operator::CHARSTRINGS, charstrings)];
        if held.charset {
            let table = charset(self.g, ids);
            places.push((operator::CHARSET, self.layout.add(Part::Bytes(table))));
        }
        if let Some(table) = &held.encoding {
            let table = Part::Bytes(table.clone());
            places.push((operator::ENCODING, self.layout.add(table)));
        }
        let privates: Vec<Option<usize>> = held
            .privates
            .iter()
            .map(|private| private.as_ref().map(|p| self.private(p)))
            .collect();
        let mut top = held.top.clone();
        if held.cid_keyed {
            let mut dicts = Vec::new();
            for (dict, private) in held.dicts.iter().zip(&privates) {
                let named = private.map(|part| self.private_entry(part));
                dicts.push(Part::Dict(self.entries(dict, named.into_iter().collect())));
            }
            places.push((operator::FD_ARRAY, self.index(dicts)));
            let zeros = vec![0; ids.len()];
            let none = (held.select.is_none() && self.g.once_in(3)).then_some(&zeros);
            if let Some(fds) = held.select.as_ref().or(none) {
                let table = select(self.g, fds);
                places.push((operator::FD_SELECT, self.layout.add(Part::Bytes(table))));
            }
        } else if self.g.once_in(2) {
            // Reading a name-keyed font follows neither.
            top.retain(|e| ![operator::FD_ARRAY, operator::FD_SELECT].contains(&e.operator));
        }
        let mut entries: Vec<(u16, Entry)> = places
            .into_iter()
            .map(|(operator, part)| {
                let place = Num::Place(part, 0, numbers::form(self.g));
                (operator, entry(vec![place], &bytes_of(operator)))
            })
            .collect();
        if let (false, Some(part)) = (held.cid_keyed, privates[0]) {
            entries.push(self.private_entry(part));
        }
        let top = Part::Dict(self.entries(&top, entries));
        if let Part::Index(_, items) = &mut self.layout.parts[tops] {
            *items = vec![top];
        }
    }

    fn index(&mut self, items: Vec<Part>) -> usize {
        let shape = shape(self.g, false, false);
        self.layout.add(Part::Index(shape, items))
    }

    fn items(&mut self, items: &[Vec<u8>]) -> usize {
        self.index(items.iter().cloned().map(Part::Bytes).collect())
    }

    /// A Private and its local subroutines; the part of the former.
    fn private(&mut self, private: &HeldPrivate) -> usize {
        let part = self.layout.add(Part::Dict(Vec::new()));
        let mut placed = Vec::new();
        if let Some(locals) = &private.locals {
            let locals = self.items(locals);
            self.behind.push((part, locals));
            let distance = Num::Distance(part, locals, numbers::form(self.g));
            placed.push((
                operator::SUBRS,
                entry(vec![distance], &bytes_of(operator::SUBRS)),
            ));
        }
        let entries = self.entries(&private.entries, placed);
        self.layout.parts[part] = Part::Dict(entries);
        part
    }

    fn private_entry(&mut self, part: usize) -> (u16, Entry) {
        let size = Num::Length(part, 0, numbers::form(self.g));
        let place = Num::Place(part, 0, numbers::form(self.g));
        let operator = operator::PRIVATE;
        (operator, entry(vec![size, place], &bytes_of(operator)))
    }

    /// Entries with those that tell places given anew, each anywhere among the others, which stay in their order.
    fn entries(&mut self, all: &[Raw], placed: Vec<(u16, Entry)>) -> Vec<Entry> {
        let kept = all
            .iter()
            .filter(|e| placed.iter().all(|(operator, _)| *operator != e.operator));
        let mut out: Vec<Entry> = kept
            .map(|e| {
                let operands = e.operands.iter().cloned().map(Num::Bytes).collect();
                entry(operands, &bytes_of(e.operator))
            })
            .collect();
        for (_, entry) in placed {
            let at = self.g.below(out.len() + 1);
            out.insert(at, entry);
        }
        out
    }

    /// The parts behind the first five in any order, with bytes between them.
    fn reorder(&mut self) {
        for k in (FIRST + 1..self.layout.order.len()).rev() {
            let l = FIRST + self.g.below(k + 1 - FIRST);
            self.layout.order.swap(k, l);
        }
        for &(first, second) in &self.behind {
            let order = &mut self.layout.order;
            let at = |part| order.iter().position(|&k| k == part).expect("a part");
            let (k, l) = (at(first), at(second));
            if l < k {
                order.swap(k, l);
            }
        }
        for _ in 0..self.g.below(4) {
            let n = 1 + self.g.below(9);
            let gap = self.g.bytes(n);
            let part = self.layout.add(Part::Bytes(gap));
            let order = &mut self.layout.order;
            order.pop();
            let at = FIRST + self.g.below(order.len() + 1 - FIRST);
            order.insert(at, part);
        }
    }
}

fn bytes_of(operator: u16) -> Vec<u8> {
    match u8::try_from(operator) {
        Ok(byte) => vec![byte],
        Err(_) => operator.to_be_bytes().to_vec(),
    }
}

/// A charset in any format: TN5176, section 13.
fn charset(g: &mut Generator, ids: &[u16]) -> Vec<u8> {
    let format = g.below(3) as u8;
    let mut out = vec![format];
    if format == 0 {
        out.extend(ids[1..].iter().flat_map(|id| id.to_be_bytes()));
        return out;
    }
    let most = if format == 1 { 255 } else { 65_535 };
    let mut at = 1;
    while at < ids.len() {
        let mut left = 0;
        while left < most
            && at + left + 1 < ids.len()
            && u32::from(ids[at + left]) + 1 == u32::from(ids[at + left + 1])
        {
            left += 1;
        }
        out.extend(ids[at].to_be_bytes());
        match format {
            1 => out.push(left as u8),
            _ => out.extend((left as u16).to_be_bytes()),
        }
        at += left + 1;
    }
    out
}

/// An FDSelect in either format: TN5176, section 19.
fn select(g: &mut Generator, fds: &[u8]) -> Vec<u8> {
    let starts: Vec<usize> = (0..fds.len())
        .filter(|&k| k == 0 || fds[k] != fds[k - 1])
        .collect();
    if g.once_in(2) || fds.len() > 65_535 || starts.len() > 65_535 {
        return [&[0], fds].concat();
    }
    let mut out = vec![3];
    out.extend((starts.len() as u16).to_be_bytes());
    for k in starts {
        out.extend((k as u16).to_be_bytes());
        out.push(fds[k]);
    }
    out.extend((fds.len() as u16).to_be_bytes());
    out
}
