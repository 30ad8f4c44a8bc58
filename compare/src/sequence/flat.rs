//! A stock as it is lent, with the lists made from it and the stocks that it was.
use super::{Action, Sequence};
use crate::call::{Call, Change, List, Room, Spec, Stamp, Store};
use crate::memory::{Lent, Memory};
use crate::oracle::MOST_RINGS;
use crate::oracle::ranges::blocks;
use crate::oracle::stock::bar;

/// What calls change.
#[derive(Clone)]
pub struct Stock {
    pub stamp: Stamp,
    pub cells: Vec<f64>,
    pub blocks: Vec<f64>,
    pub store: Store,
}

pub struct Flat {
    pub spec: Spec,
    pub now: Stock,
    pub lists: Vec<List>,
    pub earlier: Vec<Stock>,
}

/// So many back from the last, or the first.
pub fn back<T>(list: &[T], by: usize) -> Option<&T> {
    list.get(list.len().saturating_sub(1 + by))
}

impl Flat {
    pub fn new(sequence: &Sequence) -> Self {
        Self {
            spec: sequence.spec,
            now: Stock {
                stamp: sequence.stamp,
                cells: sequence.cells.clone(),
                blocks: fresh_blocks(&sequence.spec, &sequence.cells),
                store: sequence.store.clone(),
            },
            lists: vec![],
            earlier: vec![],
        }
    }

    /// The stock as it was so many changes ago.
    pub fn stock_back(&self, by: usize) -> &Stock {
        back(&self.earlier, by).unwrap_or(&self.now)
    }

    fn list_back(&self, by: usize) -> List {
        let none = || list_of(&[], self.now.stamp);
        back(&self.lists, by).cloned().unwrap_or_else(none)
    }

    /// The call that the action makes; none for a return.
    #[rustfmt::skip]
    pub fn call(&self, action: &Action) -> Option<Call> {
        let spec = self.spec;
        let Stock { stamp, cells, blocks, store } = self.now.clone();
        let bins = cells.len() / 4;
        let room = Room { indices: bins, records: 8 * bins };
        Some(match action.clone() {
            Action::Nose { side, rn, segments } => {
                Call::Preview { spec, stamp, cells, side, rn, segments, room }
            }
            Action::Polygon { side, excess, points } => {
                Call::PreviewPolygon { spec, stamp, cells, side, excess, points, room }
            }
            Action::Cut(cut) => Call::Cut { spec, stamp, cells, cut, room },
            Action::Commit { back } => Call::Apply { spec, stamp, cells, blocks, list: self.list_back(back) },
            Action::Move { back, removed } => {
                let list = self.list_back(back);
                Call::ApplyMove { spec, stamp, cells, blocks, store, list, removed }
            }
            Action::Ring(ring) => Call::RemoveRing { spec, store, generation: stamp.generation, ring },
            Action::Difference { back, from_now } => {
                let earlier = self.stock_back(back).clone();
                let (stamp, cells, after) = match from_now {
                    true => (stamp, cells, earlier.cells),
                    false => (earlier.stamp, earlier.cells, cells),
                };
                Call::ChangesTo { spec, stamp, cells, after, room }
            }
            Action::Rebuild { more, edition } => {
                let given = [&store.rings[..4 * store.count], &more].concat();
                let stamp = Stamp { edition: edition.unwrap_or(stamp.edition), ..stamp };
                // what the numbers hold is not asked: they are those of an earlier stock
                let blocks = self.stock_back(0).blocks.clone();
                Call::FromParts { spec, stamp, cells, blocks, given, rings_len: store.rings.len() }
            }
            Action::Renew => {
                let blocks = vec![f64::NAN; blocks.len()];
                Call::Renew { spec, cells, blocks }
            }
            Action::Volume => Call::Volume { spec, cells, store },
            Action::EnvelopeAt(z) => Call::EnvelopeAt { spec, cells, z },
            Action::Range { lo, hi } => Call::Range { spec, cells, blocks, lo, hi },
            Action::Check { passes, targets } => {
                let (after_len, after_blocks_len) = (cells.len(), blocks.len());
                Call::CheckPasses { spec, stamp, cells, blocks, targets, passes, after_len, after_blocks_len }
            }
            Action::Return { .. } => return None,
        })
    }

    /// Takes over what an accepted call has written.
    pub fn take(&mut self, call: &Call, memory: &Memory) {
        let numbers = |name: &str| memory.buffer(name).map(Lent::numbers);
        let word = |name: &str| memory.buffer(name).map(|lent| lent.words()[0]);
        let before = self.now.clone();
        match call {
            Call::Preview { .. }
            | Call::PreviewPolygon { .. }
            | Call::Cut { .. }
            | Call::ChangesTo { .. } => {
                self.lists.push(written_list(memory));
                return;
            }
            Call::Volume { .. } | Call::EnvelopeAt { .. } | Call::Range { .. } => return,
            Call::Renew { .. } => {
                self.now.blocks = numbers("blocks").unwrap();
                return;
            }
            Call::FromParts { stamp, .. } => self.now.stamp.edition = stamp.edition,
            Call::CheckPasses { .. } => {
                // on a no these are the old ones
                self.now.cells = numbers("after").unwrap();
                self.now.blocks = numbers("after_blocks").unwrap();
                self.now.stamp.generation = word("after_generation").unwrap();
                self.earlier.push(before);
                return;
            }
            _ => {}
        }
        if let Some(cells) = numbers("cells") {
            self.now.cells = cells;
        }
        if let Some(blocks) = numbers("blocks") {
            self.now.blocks = blocks;
        }
        if let (Some(rings), Some(count)) = (numbers("rings"), word("rings_count")) {
            let count = (count as usize).min(MOST_RINGS);
            self.now.store = Store { rings, count };
        }
        if let Some(generation) = word("generation") {
            self.now.stamp.generation = generation;
        }
        self.earlier.push(before);
    }
}

/// The kept numbers of a sequence's cells, which are accepted.
pub fn fresh_blocks(spec: &Spec, cells: &[f64]) -> Vec<f64> {
    let bar = bar(spec).expect("a sequence's bar is accepted");
    blocks(&bar, cells.as_chunks::<4>().0)
}

/// The changes that a preview or a difference has written, with all that was lent for them.
fn written_list(memory: &Memory) -> List {
    let buffer = |name: &str| memory.buffer(name).unwrap();
    List {
        indices: (buffer("indices").words().iter())
            .map(|w| *w as usize)
            .collect(),
        records: buffer("records").numbers(),
        changes: buffer("count").words()[0] as usize,
        stamp: Stamp {
            edition: buffer("list_edition").words()[0] as u32,
            generation: buffer("list_generation").words()[0],
        },
    }
}

/// Changes as they are lent, with no room over, for the stock of the stamp.
pub fn list_of(changes: &[Change], stamp: Stamp) -> List {
    let records = changes.iter().flat_map(|c| [c.before, c.after]);
    List {
        indices: changes.iter().map(|c| c.index).collect(),
        records: records.flatten().collect(),
        changes: changes.len(),
        stamp,
    }
}
