//! One input through every entry: the C functions with much and with little lent, and the binding.

use crate::allocator::guarded;
use crate::desk::{Checked, Cut, Desk, OUTPUT, Told, WORK};
use crate::inputs;
use made_fonts::generator::Generator;
use mogdivash::{Font, Item, Record, Refusal, Subset, Way};
use std::fmt::Debug;
use std::hash::{DefaultHasher, Hash, Hasher};

/// The most work words that the binding allocates.
const MOST_WORDS: u64 = 1 << 20;

/// The stack that the header asks for: 1.5 MiB, and 3 MiB for `cff_blocking_glyph`.
pub const STACK: usize = 3 << 19;
pub const BLOCKING_STACK: usize = 3 << 20;

/// Entries, for the summary.
pub const ENTRIES: [&str; 9] = [
    "read",
    "find",
    "item",
    "trace",
    "check_record",
    "subset",
    "blocking_glyph",
    "next_charstring",
    "subset_small",
];

/// Answers by entry and number, 0 for those that were not refused.
pub type Counts = [[u64; 16]; ENTRIES.len()];

/// What was asked of an input.
pub struct Input {
    pub file: Vec<u8>,
    pub name: Vec<u8>,
    pub keep: Vec<u16>,
    pub record: Vec<u8>,
    pub traced: u8,
    pub encoding: u8,
}

/// How an input is tried.
#[derive(Clone, Copy)]
pub struct Manner {
    /// With all that the binding allocates guarded, now and then: for one thread alone.
    pub guarded: bool,
    /// With all glyphs kept.
    pub all: bool,
}

pub struct Checks<'a> {
    desk: &'a mut Desk,
    counts: &'a mut Counts,
    digest: DefaultHasher,
    input: Input,
    guarded: bool,
    all: bool,
}

fn equal<T: PartialEq + Debug>(what: &str, left: &T, right: &T) -> Checked<()> {
    if left == right {
        return Ok(());
    }
    Err(format!("{what}: {left:?} is not {right:?}"))
}

/// The binding's answer in the C functions' terms.
fn told<T>(answer: Result<T, Refusal>) -> Told<T> {
    answer.map_err(Refusal::number)
}

fn way(way: Way) -> u64 {
    match way {
        Way::Renumbered => 0,
        Way::Stubbed => 1,
        Way::Copied => 2,
    }
}

fn subset(answer: Result<Subset, Refusal>) -> Told<(u64, Vec<u8>)> {
    told(answer).map(|subset| (way(subset.way), subset.bytes))
}

/// What a cut gives with too few work words or with so much room, where it gives `whole` with enough.
fn with_memory(whole: &Told<(u64, Vec<u8>)>, starved: bool, room: usize) -> Told<(u64, Vec<u8>)> {
    match whole {
        Ok(_) | Err(10 | 12 | 13) if starved => Err(WORK),
        Ok((_, bytes)) if room < bytes.len() => Err(OUTPUT),
        told => told.clone(),
    }
}

/// All checks of a file: a digest of the answers, or what does not hold; and what was asked.
pub fn run(
    desk: &mut Desk,
    counts: &mut Counts,
    file: Vec<u8>,
    g: Generator,
    manner: Manner,
) -> (Checked<u64>, Input) {
    desk.g = g;
    let guarded = manner.guarded && desk.g.once_in(8);
    let input = Input {
        file,
        name: Vec::new(),
        keep: Vec::new(),
        record: Vec::new(),
        traced: 0,
        encoding: 0,
    };
    let mut checks = Checks {
        desk,
        counts,
        digest: DefaultHasher::new(),
        input,
        guarded,
        all: manner.all,
    };
    let done = checks.every_entry();
    (done.map(|()| checks.digest.finish()), checks.input)
}

impl Checks<'_> {
    /// Counts an answer, and adds it to the digest.
    fn note<T: Hash>(&mut self, entry: usize, answer: &Told<T>) {
        let number = answer.as_ref().map_or_else(|number| *number, |_| 0);
        self.counts[entry][usize::from(number).min(15)] += 1;
        answer.hash(&mut self.digest);
    }

    fn every_entry(&mut self) -> Checked<()> {
        let file = std::mem::take(&mut self.input.file);
        self.desk.set_font(&file);
        self.input.file = file;
        let read = self.reading()?;
        let glyphs = read.as_ref().map_or(4, |counts| counts[0]);
        // Of a file that is refused little is asked: each entry reads it first.
        if read.is_err() && self.desk.g.below(8) > 0 {
            return self.short();
        }
        self.finding(&read)?;
        self.items(&read)?;
        self.input.keep = match self.all {
            true => (0..glyphs.min(65_535) as u16).collect(),
            false => inputs::keep(&mut self.desk.g, glyphs),
        };
        let traced = self.tracing(&read)?;
        let (rows, flag) = match &traced {
            Ok((flag, rows)) => (rows.as_slice(), *flag as u8),
            Err(_) => (&[][..], 1),
        };
        let (record, flag) = inputs::record(&mut self.desk.g, rows, flag);
        (self.input.record, self.input.traced) = (record, flag);
        self.input.name = inputs::name(&mut self.desk.g);
        self.input.encoding = self.desk.g.one_of(&[0, 0, 1, 255]);
        self.checking(&read)?;
        self.cutting(&read)?;
        if self.desk.g.once_in(12) {
            self.blocking(&read, &traced)?;
        }
        Ok(())
    }

    fn reading(&mut self) -> Checked<Told<Vec<u64>>> {
        let read = self.desk.read(5)?;
        self.note(0, &read);
        let words = self.desk.g.below(8);
        let expected = match words {
            0..=4 if read.is_ok() => Err(OUTPUT),
            _ => read.clone(),
        };
        equal("read again", &self.desk.read(words)?, &expected)?;
        let font = self.desk.font.slice();
        let binding = told(guarded(self.guarded, || Font::read(font)));
        let binding = binding.map(|font| {
            let cid = u64::from(font.is_cid_keyed());
            let counts = [
                font.glyphs(),
                font.globals(),
                font.strings(),
                cid,
                font.work_words(),
            ];
            counts.to_vec()
        });
        equal("Font::read", &binding, &read)?;
        Ok(read)
    }

    /// Names and CIDs, with one word and with another number of them.
    fn finding(&mut self, read: &Told<Vec<u64>>) -> Checked<()> {
        let names: [&[u8]; 6] = [b".notdef", b"A", b"space", b"a", b"", b"zcaron"];
        let mut name = self.desk.g.one_of(&names).to_vec();
        match read {
            Ok(counts) if counts[2] > 0 && self.desk.g.once_in(2) => {
                let number = self.desk.g.below(counts[2] as usize) as u64;
                name = self
                    .desk
                    .item((2, number), self.desk.font.len(), 1)?
                    .unwrap_or_default();
            }
            _ if self.desk.g.once_in(4) => {
                let n = self.desk.g.below(9);
                name = self.desk.g.bytes(n);
            }
            _ => {}
        }
        self.desk.set_name(&name);
        let by_name = self.desk.find_name(1)?;
        let cid = self.desk.g.one_of(&[0, 1, 2, 3, 9, 34, 300, 65_535]);
        let by_cid = self.desk.find_cid(cid, 1)?;
        self.note(1, &by_name);
        self.note(1, &by_cid);
        let words = self.desk.g.below(3);
        let less = |told: &Told<u64>| {
            if words == 0 {
                told.and(Err(OUTPUT))
            } else {
                *told
            }
        };
        equal(
            "find_name again",
            &self.desk.find_name(words)?,
            &less(&by_name),
        )?;
        equal(
            "find_cid again",
            &self.desk.find_cid(cid, words)?,
            &less(&by_cid),
        )?;
        let name = self.desk.name.slice();
        let Ok(font) = Font::read(self.desk.font.slice()) else {
            return equal("find of a refused font", &by_name.is_err(), &true);
        };
        let glyph = |told: Told<u64>| told.ok().and_then(|glyph| u16::try_from(glyph).ok());
        let (named, numbered) =
            guarded(self.guarded, || (font.find_name(name), font.find_cid(cid)));
        equal("Font::find_name", &named, &glyph(by_name))?;
        equal("Font::find_cid", &numbered, &glyph(by_cid))
    }

    fn items(&mut self, read: &Told<Vec<u64>>) -> Checked<()> {
        for _ in 0..1 + self.desk.g.below(2) {
            let kind = self.desk.g.one_of(&[0, 0, 1, 2, 3, 255]);
            let count = match read {
                Ok(counts) if kind < 3 => counts[usize::from(kind)],
                _ => 1,
            };
            let some = self.desk.g.below(count.max(1) as usize) as u64;
            let far = self.desk.g.word();
            let numbers = [
                some,
                some,
                some,
                count,
                count.max(1) - 1,
                some + (1 << 32),
                far,
            ];
            let number = self.desk.g.one_of(&numbers);
            self.item(kind, number)?;
        }
        Ok(())
    }

    fn item(&mut self, kind: u8, number: u64) -> Checked<()> {
        let whole = self.desk.font.len();
        let item = self.desk.item((kind, number), whole, 1)?;
        self.note(2, &item);
        let refusal = self.desk.item_refusal((kind, number));
        equal(
            "item_refusal",
            &refusal,
            &item.as_ref().err().copied().unwrap_or(0),
        )?;
        let needed = item.as_ref().map_or(4, Vec::len);
        let room = inputs::lent(&mut self.desk.g, needed);
        let words = self.desk.g.below(3);
        let expected = match &item {
            Ok(_) if room < needed || words == 0 => Err(OUTPUT),
            _ => item.clone(),
        };
        let again = self.desk.item((kind, number), room, words)?;
        equal("item with another room", &again, &expected)?;
        let asked = match kind {
            0 => Item::Charstring(number),
            1 => Item::Global(number),
            2 => Item::String(number),
            _ => return Ok(()),
        };
        let Ok(font) = Font::read(self.desk.font.slice()) else {
            return Ok(());
        };
        let binding = told(guarded(self.guarded, || font.item(asked)));
        equal("Font::item", &binding.map(<[u8]>::to_vec), &item)
    }

    fn tracing(&mut self, read: &Told<Vec<u64>>) -> Checked<Told<(u64, Vec<u8>)>> {
        self.desk.set_keep(&self.input.keep);
        let mut room = 1 << 10;
        let traced = loop {
            match self.desk.trace(room, 2)? {
                Err(OUTPUT) => room *= 16,
                told => break told,
            }
        };
        self.note(3, &traced);
        let needed = traced.as_ref().map_or(7, |(_, rows)| rows.len());
        let room = inputs::lent(&mut self.desk.g, needed);
        let words = self.desk.g.one_of(&[0, 1, 2, 2, 2, 3]);
        let expected = match &traced {
            Ok(_) if room < needed || words < 2 => Err(OUTPUT),
            _ => traced.clone(),
        };
        let again = self.desk.trace(room, words)?;
        equal("trace with another room", &again, &expected)?;
        if read.is_ok() && self.desk.g.once_in(2) {
            let (font, keep) = (self.desk.font.slice(), self.desk.keep.slice());
            let binding = guarded(self.guarded, || {
                Font::read(font).and_then(|font| font.trace(keep))
            });
            let binding = told(binding)
                .map(|record| (u64::from(record.is_traced()), record.bytes().to_vec()));
            equal("Font::trace", &binding, &traced)?;
        }
        Ok(traced)
    }

    fn checking(&mut self, read: &Told<Vec<u64>>) -> Checked<()> {
        self.desk.set_record(&self.input.record);
        let number = self.desk.check_record();
        let checked = if number == 0 { Ok(()) } else { Err(number) };
        self.note(4, &checked);
        if read.is_err() || self.desk.g.below(3) > 0 {
            return Ok(());
        }
        equal("check_record again", &self.desk.check_record(), &number)?;
        // The binding puts the rows in rising order, which changes no answer.
        let record = Record::from_bytes(self.input.record.clone());
        let (font, keep) = (self.desk.font.slice(), self.desk.keep.slice());
        let binding = guarded(self.guarded, || {
            Font::read(font).and_then(|font| font.check_record(keep, &record))
        });
        equal("Font::check_record", &told(binding), &checked)
    }

    fn cutting(&mut self, read: &Told<Vec<u64>>) -> Checked<()> {
        self.desk.set_name(&self.input.name);
        let (cid_keyed, w) = match read {
            Ok(counts) => (counts[3] == 1, counts[4]),
            Err(_) => (self.desk.g.once_in(2), 3),
        };
        if w > MOST_WORDS {
            return self.starved(cid_keyed);
        }
        let glyphs = read.as_ref().map_or(1, |counts| counts[0]);
        let few = (glyphs.div_ceil(32) + w - 2 * glyphs) as usize;
        let w = w as usize;
        let cut = Cut {
            cid_keyed: cid_keyed ^ self.desk.g.once_in(30),
            traced: self.input.traced,
            encoding: self.input.encoding,
            small: false,
        };
        let mut room = self.desk.font.len() + self.desk.name.len() + 1024;
        let whole = loop {
            match self.desk.subset(cut, w, (w, room, 2))? {
                Err(OUTPUT) => room *= 2,
                told => break told,
            }
        };
        self.note(5, &whole);
        self.less(cut, w, &whole)?;
        let small = Cut { small: true, ..cut };
        let same = self.desk.subset(small, few, (few, room, 2))?;
        self.note(8, &same);
        equal("subset with few work words", &same, &whole)?;
        self.less(small, few, &whole)?;
        if read.is_ok() && cut.cid_keyed == cid_keyed && cut.traced < 2 {
            self.bound(cut, w, &whole)?;
            self.bound(small, few, &whole)?;
        }
        Ok(())
    }

    /// The same cut with other memory lent.
    fn less(&mut self, cut: Cut, w: usize, whole: &Told<(u64, Vec<u8>)>) -> Checked<()> {
        let needed = whole.as_ref().map_or(9, |(_, bytes)| bytes.len());
        let work = inputs::lent(&mut self.desk.g, w);
        let room = inputs::lent(&mut self.desk.g, needed);
        let words = self.desk.g.one_of(&[0, 1, 2, 2, 2, 2, 2, 3]);
        let expected = with_memory(whole, work < w, if words < 2 { 0 } else { room });
        let again = self.desk.subset(cut, w, (work, room, words))?;
        equal("subset with other memory", &again, &expected)
    }

    /// A font that asks for more work words than are lent here.
    fn starved(&mut self, cid_keyed: bool) -> Checked<()> {
        let cut = Cut {
            cid_keyed,
            traced: 1,
            encoding: 0,
            small: false,
        };
        let answer = self.desk.subset(cut, 0, (17, 4096, 2))?;
        self.note(5, &answer);
        let small = Cut { small: true, ..cut };
        let same = self.desk.subset(small, 0, (17, 4096, 2))?;
        self.note(8, &same);
        equal("subset with few work words", &same, &answer)?;
        let font = Font::read(self.desk.font.slice()).map_err(|refusal| refusal.to_string())?;
        let record = Record::from_bytes(self.input.record.clone());
        let (name, keep) = (self.desk.name.slice(), self.desk.keep.slice());
        equal(
            "Font::subset",
            &subset(font.subset(name, keep, &record)),
            &answer,
        )
    }

    /// The binding's entries of subsetting: the one of this cut, and `subset_into` with other memory.
    fn bound(&mut self, cut: Cut, w: usize, whole: &Told<(u64, Vec<u8>)>) -> Checked<()> {
        let record = match (cut.traced, self.input.record.is_empty()) {
            (0, true) => Record::untraced(),
            (0, false) => return Ok(()),
            _ => Record::from_bytes(self.input.record.clone()),
        };
        let needed = whole.as_ref().map_or(9, |(_, bytes)| bytes.len());
        let work = inputs::lent(&mut self.desk.g, w);
        let room = inputs::lent(&mut self.desk.g, needed);
        let both = self.desk.g.once_in(2);
        let font = Font::read(self.desk.font.slice()).map_err(|refusal| refusal.to_string())?;
        let (name, keep) = (self.desk.name.slice(), self.desk.keep.slice());
        let binding = guarded(self.guarded, || match (cut.encoding, cut.small) {
            (0, false) => font.subset(name, keep, &record),
            (0, true) => font.subset_small(name, keep, &record),
            (_, false) => font.subset_with_encoding(name, keep, &record),
            (_, true) => font.subset_small_with_encoding(name, keep, &record),
        });
        equal("Font::subset", &subset(binding), whole)?;
        if !both || cut.encoding != 0 {
            return Ok(());
        }
        let (into, out) = guarded(self.guarded, || {
            let (mut words, mut out) = (vec![7; work], vec![9; room]);
            let into = match cut.small {
                false => font.subset_into(name, keep, &record, &mut words, &mut out),
                true => font.subset_small_into(name, keep, &record, &mut words, &mut out),
            };
            (into, out)
        });
        let into = told(into).map(|(by, length)| (way(by), length));
        let expected = with_memory(whole, work < w, room);
        let expected = expected.map(|(way, bytes)| (way, bytes.len()));
        equal("Font::subset_into", &into, &expected)?;
        let length = into.map_or(0, |(_, length)| length);
        let rest = out[length..].iter().all(|&byte| byte == 9);
        equal("its rest", &rest, &true)?;
        let bytes = whole.as_ref().map_or(&[][..], |(_, bytes)| bytes);
        equal("its bytes", &(out[..length] == bytes[..length]), &true)
    }

    fn blocking(&mut self, read: &Told<Vec<u64>>, traced: &Told<(u64, Vec<u8>)>) -> Checked<()> {
        let w = read.as_ref().map_or(3, |counts| counts[4]);
        if w > MOST_WORDS || self.desk.keep.len() > 400 {
            return Ok(());
        }
        let w = w as usize;
        let length = traced.as_ref().map_or(0, |(_, rows)| rows.len());
        let whole = self.on_stack(move |desk| desk.blocking(w, length, (w, length, 1)))?;
        self.note(6, &whole);
        let work = inputs::lent(&mut self.desk.g, w);
        let room = inputs::lent(&mut self.desk.g, length);
        let words = self.desk.g.below(3);
        let late = whole.is_ok() || matches!(whole, Err(10 | 12));
        let expected = match whole {
            _ if late && room < length => Err(OUTPUT),
            _ if late && work < w => Err(WORK),
            Ok(_) if words == 0 => Err(OUTPUT),
            told => told,
        };
        let again = self.on_stack(move |desk| desk.blocking(w, length, (work, room, words)))?;
        equal("blocking with other memory", &again, &expected)?;
        let Ok(font) = Font::read(self.desk.font.slice()) else {
            return Ok(());
        };
        let (name, keep) = (self.desk.name.slice(), self.desk.keep.slice());
        // On a thread of the binding's own, so that its allocations are not guarded.
        let binding = told(font.blocking_glyph(name, keep));
        let glyph = whole.map(|glyph| u16::try_from(glyph).ok());
        equal("Font::blocking_glyph", &binding, &glyph)
    }

    /// A call on a thread of its own with the stack that the header asks for.
    fn on_stack<T: Send>(&mut self, call: impl FnOnce(&mut Desk) -> T + Send) -> T {
        let desk = Lone(self.desk);
        std::thread::scope(|scope| {
            let thread = std::thread::Builder::new().stack_size(BLOCKING_STACK);
            let spawned = thread.spawn_scoped(scope, move || {
                let desk = desk;
                call(desk.0)
            });
            spawned.expect("a thread").join().expect("no panic")
        })
    }

    fn short(&mut self) -> Checked<()> {
        let code = inputs::charstring(&mut self.desk.g);
        self.desk.set_name(&code);
        let next = self.desk.next_charstring(4, 1)?;
        self.note(7, &next);
        let room = self.desk.g.below(6);
        let words = self.desk.g.below(3);
        let expected = match &next {
            Ok(next) if room < next.len() || words == 0 => Err(OUTPUT),
            _ => next.clone(),
        };
        let again = self.desk.next_charstring(room, words)?;
        equal("next_charstring with another room", &again, &expected)?;
        let code = self.desk.name.slice();
        let binding = told(guarded(self.guarded, || mogdivash::next_charstring(code)));
        let binding = binding.map(Option::unwrap_or_default);
        equal("next_charstring of the binding", &binding, &next)
    }
}

/// The desk in another thread, while this one waits.
struct Lone<'a>(&'a mut Desk);

// SAFETY: its memory belongs to no thread, and one alone uses it at a time.
unsafe impl Send for Lone<'_> {}
