//! All that is lent to a call, as words of 64 bits.
use crate::call::{Answer, Call, Change, List, Outcome, Room, Stamp, Store, Verdict};

/// Words before and after each buffer that no call may touch.
const GUARD: usize = 3;

/// What a position holds before a call.
const NO_POSITION: u64 = 7_777_777;

/// One lent buffer between its guards.
#[derive(Clone, Debug, PartialEq)]
pub struct Lent {
    pub name: &'static str,
    words: Vec<u64>,
}

impl Lent {
    /// A buffer of `len` words of the pattern, which differs from place to place.
    fn blank(name: &'static str, len: usize) -> Self {
        let start = name.bytes().fold(0x9E37_79B9_7F4A_7C15_u64, |h, b| {
            (h ^ b as u64).wrapping_mul(0x0000_0100_0000_01B3)
        });
        let word = |i: usize| {
            let x = (start ^ i as u64).wrapping_mul(0xBF58_476D_1CE4_E5B9);
            x ^ (x >> 29)
        };
        Self {
            name,
            words: (0..len + 2 * GUARD).map(word).collect(),
        }
    }
    fn holding(name: &'static str, numbers: &[f64]) -> Self {
        let mut lent = Self::blank(name, numbers.len());
        lent.put(0, numbers);
        lent
    }
    /// The same with a value in the guards that a call would take, so that one that reads too far shows.
    fn between(mut self, value: u64) -> Self {
        let end = self.words.len() - GUARD;
        self.words[..GUARD].fill(value);
        self.words[end..].fill(value);
        self
    }
    fn put(&mut self, at: usize, numbers: &[f64]) {
        assert!(
            at + numbers.len() <= self.size(),
            "{} is too small",
            self.name
        );
        for (word, x) in self.words[GUARD + at..].iter_mut().zip(numbers) {
            *word = x.to_bits();
        }
    }
    fn put_word(&mut self, at: usize, word: u64) {
        self.words[GUARD + at] = word;
    }
    /// The low half of a word, as a store of 32 bits leaves it.
    fn put_half(&mut self, at: usize, half: u32) {
        let word = &mut self.words[GUARD + at];
        *word = *word >> 32 << 32 | half as u64;
    }
    /// Number `at` of a list of 32-bit numbers, two a word as they lie in memory.
    fn put_short(&mut self, at: usize, value: u32) {
        let (word, shift) = (&mut self.words[GUARD + at / 2], 32 * (at % 2));
        *word = *word & !(0xFFFF_FFFF << shift) | (value as u64) << shift;
    }
    /// The first so many 32-bit numbers.
    pub fn shorts_held(&self, count: usize) -> Vec<u32> {
        let short = |k: usize| (self.words()[k / 2] >> (32 * (k % 2))) as u32;
        (0..count).map(short).collect()
    }
    /// A buffer for so many 32-bit numbers.
    fn shorts(name: &'static str, len: usize) -> Self {
        Self::blank(name, len.div_ceil(2))
    }
    /// How many words are lent.
    pub fn size(&self) -> usize {
        self.words.len() - 2 * GUARD
    }
    pub fn start<T>(&mut self) -> *mut T {
        self.words[GUARD..].as_mut_ptr().cast()
    }
    /// The words lent.
    pub fn words(&self) -> &[u64] {
        &self.words[GUARD..self.words.len() - GUARD]
    }
    /// The words lent, read as numbers.
    pub fn numbers(&self) -> Vec<f64> {
        self.words().iter().map(|w| f64::from_bits(*w)).collect()
    }
    /// Takes over the words of a buffer of the same size.
    pub fn copy(&mut self, from: &Lent) {
        self.words.copy_from_slice(&from.words);
    }
    /// The places where two buffers differ, counted from the first word lent.
    pub fn differences(&self, other: &Lent) -> Vec<(isize, u64, u64)> {
        let pairs = self.words.iter().zip(&other.words).enumerate();
        pairs
            .filter(|(_, (a, b))| a != b)
            .map(|(i, (a, b))| (i as isize - GUARD as isize, *a, *b))
            .collect()
    }
}

/// The buffers of a call, in the order of its arguments.
#[derive(Clone, Debug, PartialEq)]
pub struct Memory {
    pub lent: Vec<Lent>,
}

fn indices(list: &List) -> Lent {
    let mut lent = Lent::blank("indices", list.indices.len());
    for (k, i) in list.indices.iter().enumerate() {
        lent.put_word(k, *i as u64);
    }
    lent
}

fn kinds(list: &[u32]) -> Lent {
    let mut lent = Lent::shorts("kinds", list.len());
    for (k, kind) in list.iter().enumerate() {
        lent.put_short(k, *kind);
    }
    lent
}

fn sizes(name: &'static str, list: &[usize]) -> Lent {
    let mut lent = Lent::blank(name, list.len());
    for (k, size) in list.iter().enumerate() {
        lent.put_word(k, *size as u64);
    }
    lent
}

fn word(name: &'static str, value: u64) -> Lent {
    let mut lent = Lent::blank(name, 1);
    lent.put_word(0, value);
    lent
}

fn room(lent: &mut Vec<Lent>, room: &Room) {
    lent.push(Lent::blank("indices", room.indices));
    lent.push(Lent::blank("records", room.records));
    lent.push(Lent::blank("count", 1));
    lent.push(Lent::blank("list_edition", 1));
    lent.push(Lent::blank("list_generation", 1));
}

fn store(lent: &mut Vec<Lent>, store: &Store) {
    lent.push(Lent::holding("rings", &store.rings));
    lent.push(word("rings_count", store.count as u64));
}

/// Where a stock's generation is raised or set.
fn generation(value: u64) -> Lent {
    word("generation", value)
}

/// Where the tests of a list of rings are told: of none of them, of all, of half of them, and with one place
/// more than there are rings.
fn tests(rings: &[f64], stamp: &Stamp) -> Lent {
    let count = rings.len() / 4;
    let len = match stamp.generation % 4 {
        0 => 0,
        1 => count,
        2 => count / 2,
        _ => count + 1,
    };
    Lent::blank("tests", len)
}

fn position() -> Lent {
    word("position", NO_POSITION)
}

impl Memory {
    /// What is lent to the call, before it.
    pub fn of(call: &Call) -> Self {
        let mut m: Vec<Lent> = vec![];
        match call {
            Call::Root { .. } => m.push(Lent::blank("root", 1)),
            Call::Length { .. } => m.push(Lent::blank("length", 1)),
            Call::Validate { .. } => m.push(Lent::blank("n", 1)),
            Call::Bin { .. } => m.extend([Lent::blank("za", 1), Lent::blank("zb", 1)]),
            Call::New {
                stamp,
                cells_len,
                blocks_len,
                ..
            } => {
                m.push(generation(stamp.generation));
                m.push(Lent::blank("cells", *cells_len));
                m.push(Lent::blank("blocks", *blocks_len));
            }
            Call::Preview {
                cells,
                segments,
                room: r,
                ..
            } => {
                m.push(Lent::holding("cells", cells));
                m.push(Lent::holding("segments", segments));
                room(&mut m, r);
            }
            Call::PreviewPolygon {
                cells,
                points,
                room: r,
                ..
            } => {
                m.push(Lent::holding("cells", cells));
                m.push(Lent::holding("points", points));
                room(&mut m, r);
            }
            Call::Cut { cells, room: r, .. } => {
                m.push(Lent::holding("cells", cells));
                room(&mut m, r);
            }
            Call::Apply {
                stamp,
                cells,
                blocks,
                list,
                ..
            } => {
                m.push(generation(stamp.generation));
                m.push(Lent::holding("cells", cells));
                m.push(Lent::holding("blocks", blocks));
                m.push(indices(list));
                m.push(Lent::holding("records", &list.records));
                m.push(position());
            }
            Call::ChangesTo {
                cells,
                after,
                room: r,
                ..
            } => {
                m.push(Lent::holding("cells", cells));
                m.push(Lent::holding("after", after));
                room(&mut m, r);
            }
            Call::RemoveRing {
                store: s,
                generation: g,
                ..
            } => {
                store(&mut m, s);
                m.push(generation(*g));
                m.push(Lent::blank("tests", 1));
                m.push(position());
            }
            Call::ApplyMove {
                stamp,
                cells,
                blocks,
                store: s,
                list,
                removed,
                ..
            } => {
                m.push(generation(stamp.generation));
                m.push(Lent::holding("cells", cells));
                m.push(Lent::holding("blocks", blocks));
                store(&mut m, s);
                m.push(indices(list));
                m.push(Lent::holding("records", &list.records));
                m.push(Lent::holding("removed", removed));
                m.push(tests(removed, stamp));
                m.push(position());
            }
            Call::FromParts {
                stamp,
                cells,
                blocks,
                given,
                rings_len,
                ..
            } => {
                m.push(generation(stamp.generation));
                m.push(Lent::holding("cells", cells));
                m.push(Lent::holding("blocks", blocks));
                m.push(Lent::holding("given", given));
                m.push(Lent::blank("rings", *rings_len));
                m.push(Lent::blank("rings_count", 1));
                m.push(tests(given, stamp));
                m.push(position());
            }
            Call::Renew { cells, blocks, .. } => {
                m.push(Lent::holding("cells", cells));
                m.push(Lent::holding("blocks", blocks));
            }
            Call::Volume { cells, store, .. } => {
                m.push(Lent::holding("cells", cells));
                m.push(Lent::holding("rings", &store.rings));
                m.extend([Lent::blank("least", 1), Lent::blank("greatest", 1)]);
            }
            Call::EnvelopeAt { cells, .. } => {
                m.push(Lent::holding("cells", cells));
                m.push(Lent::blank("found", 1));
                m.push(Lent::blank("bore_lower", 1));
                m.push(Lent::blank("outer_upper", 1));
            }
            Call::Range { cells, blocks, .. } => {
                m.push(Lent::holding("cells", cells));
                m.push(Lent::holding("blocks", blocks));
                m.push(Lent::blank("found", 1));
                m.push(Lent::blank("bore_lower", 1));
                m.push(Lent::blank("outer_upper", 1));
            }
            Call::EnvelopeOrder { points } => {
                m.push(Lent::holding("points", points));
                m.push(Lent::blank("order", 1));
            }
            Call::Within { points, .. } => {
                m.push(Lent::holding("points", points));
                m.extend([Lent::blank("first", 1), Lent::blank("count", 1)]);
            }
            Call::RadiusAt { points, .. } => {
                m.push(Lent::holding("points", points));
                m.extend([Lent::blank("found", 1), Lent::blank("radius", 1)]);
            }
            Call::RadiusRange { points, .. } => {
                m.push(Lent::holding("points", points));
                m.push(Lent::blank("found", 1));
                m.extend([Lent::blank("lowest", 1), Lent::blank("highest", 1)]);
            }
            Call::Segments {
                points,
                segments_len,
                ..
            } => {
                m.push(Lent::holding("points", points));
                m.push(Lent::blank("segments", *segments_len));
                m.push(Lent::blank("count", 1));
            }
            Call::Excess {
                points, polygon, ..
            }
            | Call::Penetration {
                points, polygon, ..
            } => {
                m.push(Lent::holding("points", points));
                m.push(Lent::holding("polygon", polygon));
                m.extend([Lent::blank("found", 1), Lent::blank("by", 1)]);
            }
            Call::Eroded { points, .. } => {
                m.push(Lent::holding("points", points));
                m.extend([Lent::blank("found", 1), Lent::blank("radius", 1)]);
            }
            Call::CheckPasses {
                cells,
                blocks,
                targets,
                passes,
                after_len,
                after_blocks_len,
                ..
            } => {
                m.push(Lent::holding("cells", cells));
                m.push(Lent::holding("blocks", blocks));
                m.push(Lent::holding("targets", targets));
                m.push(kinds(&passes.kinds));
                let one = 1_f64.to_bits();
                m.push(Lent::holding("numbers", &passes.numbers).between(one));
                m.push(sizes("parts", &passes.parts).between(0));
                m.push(Lent::holding("lists", &passes.lists).between(one));
                m.push(Lent::blank("after", *after_len));
                m.push(Lent::blank("after_blocks", *after_blocks_len));
                m.extend([Lent::blank("verdict", 1), Lent::blank("place", 1)]);
                m.push(Lent::blank("reason", 1));
                m.push(Lent::blank("after_generation", 1));
            }
            Call::ProposePasses {
                cells,
                targets,
                room,
                ..
            } => {
                m.push(Lent::holding("cells", cells));
                m.push(Lent::holding("targets", targets));
                m.push(Lent::shorts("kinds", room.kinds));
                m.push(Lent::blank("numbers", room.numbers));
                m.push(Lent::blank("parts", room.parts));
                m.push(Lent::blank("count", 1));
            }
        }
        Self { lent: m }
    }

    /// The buffer of that name, where the call is lent one.
    pub fn buffer(&self, name: &str) -> Option<&Lent> {
        self.lent.iter().find(|l| l.name == name)
    }

    /// What it is after a call with the outcome.
    pub fn after(&self, outcome: &Outcome) -> Self {
        let mut after = self.clone();
        after.write(outcome);
        after
    }

    fn named(&mut self, name: &str) -> Option<&mut Lent> {
        self.lent.iter_mut().find(|l| l.name == name)
    }

    fn put(&mut self, name: &str, numbers: &[f64]) {
        self.named(name).unwrap().put(0, numbers);
    }

    fn put_word(&mut self, name: &str, value: u64) {
        self.named(name).unwrap().put_word(0, value);
    }

    fn put_changes(&mut self, changes: &[Change], stamp: Stamp) {
        for (k, c) in changes.iter().enumerate() {
            let indices = self.named("indices").unwrap();
            indices.put_word(k, c.index as u64);
            let records = self.named("records").unwrap();
            records.put(8 * k, &c.before);
            records.put(8 * k + 4, &c.after);
        }
        self.put_word("count", changes.len() as u64);
        let edition = self.named("list_edition").unwrap();
        edition.put_half(0, stamp.edition);
        self.put_word("list_generation", stamp.generation);
    }

    /// 1 for yes, 2 with the cut's place and number, 3 with the bin's place.
    fn put_verdict(&mut self, verdict: Verdict) {
        let (said, place, reason) = match verdict {
            Verdict::Yes => (1, None, None),
            Verdict::Cut(k, number) => (2, Some(k), Some(number)),
            Verdict::Bin(i) => (3, Some(i), None),
        };
        self.named("verdict").unwrap().put_half(0, said);
        if let Some(place) = place {
            self.put_word("place", place as u64);
        }
        if let Some(reason) = reason {
            self.named("reason").unwrap().put_half(0, reason);
        }
    }

    /// Writes what the outcome writes: a refusal its position, where it has one, and an answer its values.
    pub fn write(&mut self, outcome: &Outcome) {
        match outcome {
            Ok(answer) => self.write_answer(answer),
            Err(reason) => {
                let place = reason.place.into_iter();
                place.for_each(|k| self.put_word("position", k as u64));
            }
        }
    }

    fn write_answer(&mut self, answer: &Answer) {
        match answer {
            Answer::Number(x) => self.lent[0].put(0, &[*x]),
            Answer::Bins(n) => self.put_word("n", *n as u64),
            Answer::Range(za, zb) => {
                self.put("za", &[*za]);
                self.put("zb", &[*zb]);
            }
            Answer::Changes(changes, stamp) => self.put_changes(changes, *stamp),
            Answer::Stock(cells, blocks, rings, generation, tests) => {
                if self.named("cells").is_some() {
                    self.put("cells", cells.as_flattened());
                    self.put("blocks", blocks);
                }
                if self.named("rings").is_some() {
                    self.put("rings", rings.as_flattened());
                    self.put_word("rings_count", rings.len() as u64);
                }
                if self.named("generation").is_some() {
                    self.put_word("generation", *generation);
                }
                if let Some(lent) = self.named("tests") {
                    for (k, count) in tests.iter().enumerate().take(lent.size()) {
                        lent.put_word(k, *count as u64);
                    }
                }
            }
            Answer::Blocks(blocks) => self.put("blocks", blocks),
            Answer::Volume(least, greatest) => {
                self.put("least", &[*least]);
                self.put("greatest", &[*greatest]);
            }
            Answer::Found(values) => {
                let at = self.lent.iter().position(|l| l.name == "found").unwrap();
                self.lent[at].put_half(0, values.is_some() as u32);
                for (k, x) in values.iter().flatten().enumerate() {
                    self.lent[at + 1 + k].put(0, &[*x]);
                }
            }
            Answer::Order(order) => self.named("order").unwrap().put_half(0, *order as u32),
            Answer::Part(first, count) => {
                self.put_word("first", *first as u64);
                self.put_word("count", *count as u64);
            }
            Answer::Chords(chords) => {
                self.put("segments", chords.as_flattened());
                self.put_word("count", chords.len() as u64);
            }
            Answer::Checked(verdict, cells, blocks, generation) => {
                self.put("after", cells.as_flattened());
                self.put("after_blocks", blocks);
                self.put_word("after_generation", *generation);
                self.put_verdict(*verdict);
            }
            Answer::Passes(passes) => {
                for k in 0..passes.len() {
                    self.named("kinds").unwrap().put_short(k, 0);
                    let parts = self.named("parts").unwrap();
                    parts.put_word(2 * k, 0);
                    parts.put_word(2 * k + 1, 0);
                }
                self.put("numbers", passes.as_flattened());
                self.put_word("count", passes.len() as u64);
            }
        }
    }
}
