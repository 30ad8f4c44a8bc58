//! Calls and answers as lines of text, for a replay that needs no Rust.
//!
//! A line is a call: its name, its inputs, `=`, and the number it answers, followed where that is 0
//! by what it wrote, and where it is a refusal that has a position (Req 04 of 02) by that position:
//! `= NUMBER [POSITION]`. A refusal without one ends with its number, and `*position` is then as it was;
//! so it is where a call is accepted. Fields are parted by single spaces. Every f64 is 16 hex digits in capitals,
//! everything else is decimal and never has 16 digits: the replay tells the two apart by that length. `N*M` says M fields,
//! each the one N places before it.
//!
//! ```text
//! SPEC     z_min z_max outer bore cell max_cells
//! STAMP    edition generation; of new and from_parts what the place for the generation holds before
//! NUMBERS  how many, then each
//! SIZES    how many, then each in decimal
//! CUTS     SIZES (kinds) NUMBERS SIZES (parts) NUMBERS (lists)
//! BLOCKS   NUMBERS: those kept for the blocks, as they are lent, and behind `=` as they are written
//! ROOM     indices_len records_len
//! LIST     indices_len records_len changes STAMP, then for each change its index and 8 numbers
//! STORE    rings_len rings_count, then 4 numbers for each ring stored
//! CHANGES  how many, STAMP, then for each its index and 8 numbers
//! RINGS    how many, then 4 numbers for each
//! TESTS    of each ring of the call, one a ring, how many tests of a piece against a stored ring it took
//! CHORDS   how many, then 5 numbers for each
//!
//! root x = 0 root                              length x y = 0 length
//! validate SPEC = 0 n                          bin SPEC i = 0 za zb
//! new SPEC STAMP cells_len blocks_len = 0 generation NUMBERS BLOCKS
//! preview SPEC STAMP NUMBERS side rn NUMBERS ROOM = 0 CHANGES
//! preview_polygon SPEC STAMP NUMBERS side excess NUMBERS ROOM = 0 CHANGES
//! thread_cut SPEC STAMP NUMBERS z0 z1 radius ROOM = 0 CHANGES (thread_cut_inner too)
//! drill SPEC STAMP NUMBERS tip_z radius cone ROOM = 0 CHANGES
//! apply SPEC STAMP NUMBERS BLOCKS LIST = 0 generation NUMBERS BLOCKS
//! changes_to SPEC STAMP NUMBERS NUMBERS ROOM = 0 CHANGES
//! remove_ring SPEC STORE generation z0 z1 r0 r1 = 0 generation RINGS TESTS
//! apply_move SPEC STAMP NUMBERS BLOCKS STORE LIST NUMBERS = 0 generation NUMBERS BLOCKS RINGS TESTS
//! from_parts SPEC STAMP NUMBERS BLOCKS NUMBERS rings_len = 0 generation BLOCKS RINGS TESTS
//! renew SPEC NUMBERS BLOCKS = 0 BLOCKS
//! volume SPEC NUMBERS STORE = 0 least greatest
//! envelope_at SPEC NUMBERS z = 0 found [bore_lower outer_upper]
//! range SPEC NUMBERS BLOCKS lo hi = 0 found [bore_lower outer_upper]
//! envelope_order NUMBERS = 0 order
//! within NUMBERS lo hi = 0 first count
//! radius_at NUMBERS u = 0 found [radius]
//! radius_range NUMBERS lo hi = 0 found [lowest highest]
//! segments NUMBERS tolerance segments_len = 0 CHORDS
//! excess NUMBERS tolerance NUMBERS = 0 found [by]             (penetration too)
//! eroded NUMBERS u tolerance = 0 found [radius]
//! check_passes SPEC STAMP NUMBERS BLOCKS NUMBERS (targets) CUTS after_len after_blocks_len
//!     = 0 verdict after_generation [place [reason]] NUMBERS BLOCKS
//! propose_passes SPEC NUMBERS NUMBERS (targets) rn kinds_len numbers_len parts_len
//!     = 0 count, then so many kinds, six times so many numbers and twice so many parts
//! ```
//!
//! Of a list or store whose count is beyond what is lent, no change and no ring is given. What is
//! lent beyond the count is the reader's to fill.
use crate::call::{
    Answer, Call, Change, List, Outcome, Passes, Room, Simple, Spec, Stamp, Store, Verdict,
};
use crate::generate::{self, Rng};
use crate::run::number;
use crate::{limits, oracle};
use std::collections::BTreeMap;

/// Longer lines are left out of a sample, bytes with the newline.
const LONGEST: usize = 8192;

/// The replay has room for so many fields, indices and numbers of a list, and no line at a limit has
/// so many bytes.
const LINE: usize = 131072;
const FIELDS: usize = 172032;
const INDICES: usize = 4096;
const NUMBERS: usize = 66560;

/// Lists of so many changes are left out: their lines are long.
const CHANGES: usize = 4096;

/// So far back goes a repeat, and so many fields does it say, at least and at most.
const PERIOD: usize = 32;
const WORTH: usize = 8;
const MOST: usize = 65535;

#[derive(Default)]
struct Line {
    fields: Vec<String>,
    /// A decimal of 16 digits: the replay would read it as a number's bits.
    misread: bool,
}

impl Line {
    fn field(&mut self, text: String) -> &mut Self {
        self.fields.push(text);
        self
    }
    fn size(&mut self, size: impl std::fmt::Display) -> &mut Self {
        let text = size.to_string();
        self.misread |= text.len() == 16;
        self.field(text)
    }
    fn number(&mut self, x: f64) -> &mut Self {
        self.field(format!("{:016X}", x.to_bits()))
    }
    fn each(&mut self, numbers: &[f64]) -> &mut Self {
        for x in numbers {
            self.number(*x);
        }
        self
    }
    fn numbers(&mut self, numbers: &[f64]) -> &mut Self {
        self.size(numbers.len()).each(numbers)
    }
    fn sizes<T: std::fmt::Display>(&mut self, sizes: &[T]) -> &mut Self {
        self.size(sizes.len());
        for x in sizes {
            self.size(x);
        }
        self
    }
    fn cuts(&mut self, passes: &Passes) -> &mut Self {
        self.sizes(&passes.kinds)
            .numbers(&passes.numbers)
            .sizes(&passes.parts)
            .numbers(&passes.lists)
    }
    fn verdict(&mut self, verdict: Verdict, generation: u64) -> &mut Self {
        match verdict {
            Verdict::Yes => self.size(1).size(generation),
            Verdict::Cut(k, number) => self.size(2).size(generation).size(k).size(number),
            Verdict::Bin(i) => self.size(3).size(generation).size(i),
        }
    }
    fn passes(&mut self, passes: &[[f64; 6]]) -> &mut Self {
        self.size(passes.len());
        for _ in passes {
            self.size(0);
        }
        self.each(passes.as_flattened());
        for _ in 0..2 * passes.len() {
            self.size(0);
        }
        self
    }
    fn spec(&mut self, s: &Spec) -> &mut Self {
        self.each(&[s.z_min, s.z_max, s.outer, s.bore, s.cell])
            .size(s.max_cells)
    }
    fn stamp(&mut self, stamp: &Stamp) -> &mut Self {
        self.size(stamp.edition).size(stamp.generation)
    }
    fn room(&mut self, room: &Room) -> &mut Self {
        self.size(room.indices).size(room.records)
    }
    fn list(&mut self, list: &List) -> &mut Self {
        self.size(list.indices.len())
            .size(list.records.len())
            .size(list.changes)
            .stamp(&list.stamp);
        let (records, _) = list.records.as_chunks::<8>();
        if list.changes <= list.indices.len().min(records.len()) {
            for (index, record) in list.indices.iter().zip(records).take(list.changes) {
                self.size(index).each(record);
            }
        }
        self
    }
    fn store(&mut self, store: &Store) -> &mut Self {
        self.size(store.rings.len()).size(store.count);
        if store.count <= store.rings.len() / 4 {
            self.each(&store.rings[..4 * store.count]);
        }
        self
    }
    fn changes(&mut self, changes: &[Change], stamp: &Stamp) -> &mut Self {
        self.size(changes.len()).stamp(stamp);
        for c in changes {
            self.size(c.index).each(&c.before).each(&c.after);
        }
        self
    }
    fn rings(&mut self, rings: &[[f64; 4]]) -> &mut Self {
        self.size(rings.len()).each(rings.as_flattened())
    }
    fn tests(&mut self, tests: &[usize]) -> &mut Self {
        for count in tests {
            self.size(count);
        }
        self
    }

    /// How many fields from `i` on are each the one so many places before it.
    fn again(&self, i: usize, back: usize) -> usize {
        let Some(first) = i.checked_sub(back) else {
            return 0;
        };
        let pairs = self.fields[first..].iter().zip(&self.fields[i..]);
        pairs.take(MOST).take_while(|(a, b)| a == b).count()
    }

    /// The line, with what is repeated said once.
    fn short(&self) -> String {
        let mut fields = vec![];
        let mut i = 0;
        while i < self.fields.len() {
            let repeats = (1..=PERIOD).map(|back| (self.again(i, back), back));
            match repeats.max() {
                Some((count, back)) if count >= WORTH => {
                    fields.push(format!("{back}*{count}"));
                    i += count;
                }
                _ => {
                    fields.push(self.fields[i].clone());
                    i += 1;
                }
            }
        }
        fields.join(" ")
    }
}

fn inputs(line: &mut Line, call: &Call) {
    match call {
        Call::Root { x } => line.number(*x),
        Call::Length { x, y } => line.number(*x).number(*y),
        Call::Validate { spec } => line.spec(spec),
        Call::Bin { spec, i } => line.spec(spec).size(i),
        Call::New {
            spec,
            stamp,
            cells_len,
            blocks_len,
        } => (line.spec(spec).stamp(stamp))
            .size(cells_len)
            .size(blocks_len),
        Call::Preview {
            spec,
            stamp,
            cells,
            side,
            rn,
            segments,
            room,
        } => (line.spec(spec).stamp(stamp).numbers(cells).size(side))
            .number(*rn)
            .numbers(segments)
            .room(room),
        Call::PreviewPolygon {
            spec,
            stamp,
            cells,
            side,
            excess,
            points,
            room,
        } => (line.spec(spec).stamp(stamp).numbers(cells).size(side))
            .number(*excess)
            .numbers(points)
            .room(room),
        Call::Cut {
            spec,
            stamp,
            cells,
            cut,
            room,
        } => {
            let numbers = match *cut {
                Simple::ThreadCut { z0, z1, radius } => [z0, z1, radius],
                Simple::ThreadCutInner { z0, z1, radius } => [z0, z1, radius],
                Simple::Drill {
                    tip_z,
                    radius,
                    cone,
                } => [tip_z, radius, cone],
            };
            (line.spec(spec).stamp(stamp).numbers(cells))
                .each(&numbers)
                .room(room)
        }
        Call::Apply {
            spec,
            stamp,
            cells,
            blocks,
            list,
        } => (line.spec(spec).stamp(stamp).numbers(cells))
            .numbers(blocks)
            .list(list),
        Call::ChangesTo {
            spec,
            stamp,
            cells,
            after,
            room,
        } => (line.spec(spec).stamp(stamp).numbers(cells))
            .numbers(after)
            .room(room),
        Call::RemoveRing {
            spec,
            store,
            generation,
            ring,
        } => line.spec(spec).store(store).size(generation).each(ring),
        Call::ApplyMove {
            spec,
            stamp,
            cells,
            blocks,
            store,
            list,
            removed,
        } => (line.spec(spec).stamp(stamp).numbers(cells).numbers(blocks))
            .store(store)
            .list(list)
            .numbers(removed),
        Call::FromParts {
            spec,
            stamp,
            cells,
            blocks,
            given,
            rings_len,
        } => (line.spec(spec).stamp(stamp).numbers(cells).numbers(blocks))
            .numbers(given)
            .size(rings_len),
        Call::Renew {
            spec,
            cells,
            blocks,
        } => line.spec(spec).numbers(cells).numbers(blocks),
        Call::Volume { spec, cells, store } => line.spec(spec).numbers(cells).store(store),
        Call::EnvelopeAt { spec, cells, z } => line.spec(spec).numbers(cells).number(*z),
        Call::Range {
            spec,
            cells,
            blocks,
            lo,
            hi,
        } => (line.spec(spec).numbers(cells).numbers(blocks))
            .number(*lo)
            .number(*hi),
        Call::EnvelopeOrder { points } => line.numbers(points),
        Call::Within { points, lo, hi } => line.numbers(points).number(*lo).number(*hi),
        Call::RadiusAt { points, u } => line.numbers(points).number(*u),
        Call::RadiusRange { points, lo, hi } => line.numbers(points).number(*lo).number(*hi),
        Call::Segments {
            points,
            tolerance,
            segments_len,
        } => (line.numbers(points).number(*tolerance)).size(segments_len),
        Call::Excess {
            points,
            polygon,
            tolerance,
        }
        | Call::Penetration {
            points,
            polygon,
            tolerance,
        } => line.numbers(points).number(*tolerance).numbers(polygon),
        Call::Eroded {
            points,
            u,
            tolerance,
        } => line.numbers(points).number(*u).number(*tolerance),
        Call::CheckPasses {
            spec,
            stamp,
            cells,
            blocks,
            targets,
            passes,
            after_len,
            after_blocks_len,
        } => (line.spec(spec).stamp(stamp).numbers(cells).numbers(blocks))
            .numbers(targets)
            .cuts(passes)
            .size(after_len)
            .size(after_blocks_len),
        Call::ProposePasses {
            spec,
            cells,
            targets,
            rn,
            room,
        } => (line.spec(spec).numbers(cells).numbers(targets).number(*rn))
            .size(room.kinds)
            .size(room.numbers)
            .size(room.parts),
    };
}

fn written(line: &mut Line, call: &Call, answer: &Answer) {
    match answer {
        Answer::Number(x) => line.number(*x),
        Answer::Bins(n) => line.size(n),
        Answer::Range(za, zb) => line.number(*za).number(*zb),
        Answer::Changes(changes, stamp) => line.changes(changes, stamp),
        Answer::Stock(cells, blocks, rings, generation, tests) => {
            line.size(generation);
            let cells = cells.as_flattened();
            match call {
                Call::New { .. } | Call::Apply { .. } => line.numbers(cells).numbers(blocks),
                Call::ApplyMove { .. } => line.numbers(cells).numbers(blocks).rings(rings),
                Call::FromParts { .. } => line.numbers(blocks).rings(rings),
                _ => line.rings(rings),
            }
            .tests(tests)
        }
        Answer::Blocks(blocks) => line.numbers(blocks),
        Answer::Volume(least, greatest) => line.number(*least).number(*greatest),
        Answer::Found(None) => line.size(0),
        Answer::Found(Some(values)) => line.size(1).each(values),
        Answer::Order(order) => line.size(order),
        Answer::Part(first, count) => line.size(first).size(count),
        Answer::Chords(chords) => line.size(chords.len()).each(chords.as_flattened()),
        Answer::Checked(verdict, cells, blocks, generation) => (line
            .verdict(*verdict, *generation))
        .numbers(cells.as_flattened())
        .numbers(blocks),
        Answer::Passes(passes) => line.passes(passes),
    };
}

/// The replay can lend what the call is lent. What a line gives whole is held by its fields.
fn held(call: &Call) -> bool {
    let (indices, numbers) = match call {
        Call::New {
            cells_len,
            blocks_len,
            ..
        } => (0, *cells_len.max(blocks_len)),
        Call::Preview { room, .. }
        | Call::PreviewPolygon { room, .. }
        | Call::Cut { room, .. }
        | Call::ChangesTo { room, .. } => (room.indices, room.records),
        Call::Apply { list, .. } => (list.indices.len(), list.records.len()),
        Call::ApplyMove { list, store, .. } => {
            let numbers = list.records.len().max(store.rings.len());
            (list.indices.len(), numbers)
        }
        Call::RemoveRing { store, .. } | Call::Volume { store, .. } => (0, store.rings.len()),
        Call::FromParts { rings_len, .. } => (0, *rings_len),
        Call::Segments { segments_len, .. } => (0, *segments_len),
        Call::CheckPasses {
            passes,
            after_len,
            after_blocks_len,
            ..
        } => {
            let numbers = [passes.numbers.len(), passes.lists.len()].into_iter();
            let sizes = passes.kinds.len().max(passes.parts.len());
            let rooms = [*after_len, *after_blocks_len];
            (sizes, numbers.chain(rooms).max().unwrap())
        }
        Call::ProposePasses { room, .. } => (room.kinds.max(room.parts), room.numbers),
        _ => (0, 0),
    };
    indices <= INDICES && numbers <= NUMBERS
}

fn fields(call: &Call, outcome: &Outcome) -> Line {
    let mut line = Line::default();
    line.field(call.name().into());
    inputs(&mut line, call);
    line.field("=".into());
    match outcome {
        Ok(answer) => written(line.size(0), call, answer),
        Err(reason) => {
            line.size(reason.number);
            if let Some(k) = reason.place {
                line.size(k);
            }
        }
    }
    line
}

/// The call and its outcome as a line.
pub fn line(call: &Call, outcome: &Outcome) -> String {
    fields(call, outcome).short()
}

/// The line, where the replay has room for it and can lend what the call is lent.
fn replayed(call: &Call, outcome: &Outcome, longest: usize) -> Option<String> {
    let fields = fields(call, outcome);
    if !held(call) || fields.misread || fields.fields.len() > FIELDS {
        return None;
    }
    Some(fields.short()).filter(|text| text.len() < longest)
}

/// Every call at a limit, a line each, but for lists of very many changes.
pub fn at_the_limits() -> Vec<String> {
    let few = |call: &Call| match call {
        Call::Apply { list, .. } | Call::ApplyMove { list, .. } => list.changes < CHANGES,
        _ => true,
    };
    let calls = limits::calls().into_iter().map(|(call, _)| call);
    let line = |call: Call| {
        let line = replayed(&call, &oracle::answer(&call), LINE);
        line.unwrap_or_else(|| panic!("the replay has no room for a call of {}", call.name()))
    };
    calls.filter(few).map(line).collect()
}

/// So many lines of a family, and of an insert's so many of each call.
pub fn sample(name: &str, count: usize, seed: u64) -> Option<Vec<String>> {
    let make = generate::family(name)?;
    let apart: &[Option<&str>] = match name {
        "insert" => &[Some("excess"), Some("penetration"), Some("eroded")],
        _ => &[None],
    };
    let lines = apart.iter().map(|only| drawn(make, *only, count, seed));
    Some(lines.flatten().collect())
}

/// Of each name and number no more are taken than its share, three in five for the accepted and one in
/// five for a refusal, as long as others turn up.
fn drawn(make: fn(&mut Rng) -> Call, only: Option<&str>, count: usize, seed: u64) -> Vec<String> {
    let mut rng = Rng::new(seed);
    let mut taken: BTreeMap<(&str, u32), usize> = BTreeMap::new();
    let mut lines: Vec<String> = vec![];
    let mut tries = 0;
    while lines.len() < count {
        let call = make(&mut rng);
        if only.is_some_and(|name| name != call.name()) {
            continue;
        }
        tries += 1;
        let outcome = oracle::answer(&call);
        let number = number(&outcome);
        let share = if number == 0 {
            count * 3 / 5
        } else {
            count / 5
        };
        let times = taken.entry((call.name(), number)).or_default();
        if *times > share && tries < 100 * count {
            continue;
        }
        if let Some(text) = replayed(&call, &outcome, LONGEST) {
            *times += 1;
            lines.push(text);
        }
    }
    lines
}
