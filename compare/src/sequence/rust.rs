//! The Rust's side: one stock of camlib with 01's length, from the first call to the last.
use super::flat::{Flat, Stock, back, fresh_blocks, list_of};
use super::{Action, Sequence};
use crate::call::{Answer, Call, Change, List, Passes, Simple, Spec, Stamp, Store, Verdict};
use crate::oracle::clean;
use crate::oracle::cuts::{change_with_length, segment, stock_with_length};
use crate::oracle::passes::verdict;
use crate::oracle::queries::most_at;
use crate::oracle::ranges::most_over;
use crate::oracle::stock::bar;
use length::turning::stock::{RadiusBounds, TurnCell, TurnChange, TurnSide, TurnStock};

/// A stock at a generation of its own, which starts at 0, and the stamp at its start.
#[derive(Clone)]
struct Living {
    stock: TurnStock,
    spec: Spec,
    start: Stamp,
}

pub struct Rust {
    now: Living,
    earlier: Vec<Living>,
    /// How many numbers of rings are lent.
    rings_len: usize,
    pub flat: Flat,
}

fn living(spec: &Spec, cells: &[f64], rings: &[[f64; 4]], start: Stamp) -> Living {
    let (cells, _) = cells.as_chunks::<4>();
    let bar = bar(spec).expect("a sequence's bar is accepted");
    let stock = stock_with_length(&bar, cells);
    let cells = stock.cells().to_vec();
    let stock = TurnStock::from_parts(stock.spec().clone(), cells, rings.to_vec());
    Living {
        stock: stock.expect("a sequence's stock is accepted"),
        spec: *spec,
        start,
    }
}

fn side(side: u32) -> TurnSide {
    match side {
        0 => TurnSide::Outer,
        _ => TurnSide::Inner,
    }
}

fn cell(c: &[f64; 4]) -> TurnCell {
    let bounds = |lower_mm, upper_mm| RadiusBounds { lower_mm, upper_mm };
    TurnCell {
        outer: bounds(c[0], c[1]),
        inner: bounds(c[2], c[3]),
    }
}

fn flat_cell(c: &TurnCell) -> [f64; 4] {
    [c.outer, c.inner]
        .map(|b| [b.lower_mm, b.upper_mm].map(clean))
        .as_flattened()
        .try_into()
        .unwrap()
}

fn turn_changes(list: &List) -> Vec<TurnChange> {
    let (records, _) = list.records.as_chunks::<8>();
    let pairs = list.indices.iter().zip(records).take(list.changes);
    let change = |(index, record): (&usize, &[f64; 8])| TurnChange {
        index: *index,
        before: cell(record.first_chunk().unwrap()),
        after: cell(record.last_chunk().unwrap()),
    };
    pairs.map(change).collect()
}

fn rings(flat: &[f64]) -> Vec<[f64; 4]> {
    let (rings, _) = flat.as_chunks::<4>();
    rings.iter().map(|r| r.map(clean)).collect()
}

impl Living {
    fn cells(&self) -> Vec<[f64; 4]> {
        self.stock.cells().iter().map(flat_cell).collect()
    }

    fn flat(&self, rings_len: usize) -> Stock {
        let cells = self.cells().into_flattened();
        let stored = rings(self.stock.rings().as_flattened());
        let mut store = Store {
            rings: stored.as_flattened().to_vec(),
            count: stored.len(),
        };
        store.rings.resize(rings_len, 0.);
        Stock {
            stamp: self.stamp(),
            blocks: fresh_blocks(&self.spec, &cells),
            cells,
            store,
        }
    }

    /// The edition it started with, and its generation now.
    fn stamp(&self) -> Stamp {
        let generation = self.start.generation.wrapping_add(self.stock.generation());
        Stamp {
            generation,
            ..self.start
        }
    }

    fn answer(&self) -> Stock {
        self.flat(4 * self.stock.rings().len())
    }

    fn preview(&self, cut: &Simple) -> Vec<TurnChange> {
        match cut.to_owned() {
            Simple::ThreadCut { z0, z1, radius } => self.stock.thread_cut(z0, z1, radius),
            Simple::ThreadCutInner { z0, z1, radius } => {
                self.stock.thread_cut_inner(z0, z1, radius)
            }
            Simple::Drill {
                tip_z,
                radius,
                cone,
            } => self.stock.drill(tip_z, radius, cone),
        }
    }
}

impl Rust {
    pub fn new(sequence: &Sequence) -> Self {
        let stored = rings(&sequence.store.rings[..4 * sequence.store.count]);
        Self {
            now: living(&sequence.spec, &sequence.cells, &stored, sequence.stamp),
            earlier: vec![],
            rings_len: sequence.store.rings.len(),
            flat: Flat::new(sequence),
        }
    }

    /// What the living stock answers to an accepted call; it is changed by it.
    pub fn carry_out(&mut self, action: &Action, call: &Call) -> Answer {
        if let Some(list) = self.list(action) {
            let list: Vec<Change> = list.iter().map(change_with_length).collect();
            let stamp = self.list_stamp(action);
            self.flat.lists.push(list_of(&list, stamp));
            return Answer::Changes(list, stamp);
        }
        let stock = &self.now.stock;
        match action {
            Action::Volume => {
                let [least, greatest] = stock.volume().map(clean);
                Answer::Volume(least, greatest)
            }
            Action::EnvelopeAt(z) => {
                let cells = stock.cells();
                let z = clean(*z);
                Answer::Found(most_at(
                    &self.flat.spec,
                    cells.len(),
                    z,
                    stock.envelope_at(z),
                    |i| stock.bin(i),
                    |i| flat_cell(&cells[i]),
                ))
            }
            Action::Range { lo, hi } => {
                let bar = bar(&self.flat.spec).unwrap();
                let cells = self.now.cells();
                let (bin, own) = (|i| stock.bin(i), |z| stock.envelope_at(z));
                Answer::Found(most_over(&bar, &cells, *lo, *hi, bin, own))
            }
            Action::Renew => Answer::Blocks(self.flat.now.blocks.clone()),
            Action::Check { passes, targets } => {
                self.earlier.push(self.now.clone());
                let said = self.now.check(passes, targets);
                let Answer::Stock(cells, blocks, _, generation, _) = self.keep() else {
                    unreachable!()
                };
                Answer::Checked(said, cells, blocks, generation)
            }
            _ => {
                self.earlier.push(self.now.clone());
                self.now.change(call);
                self.keep()
            }
        }
    }

    /// The list that a preview or a difference makes.
    fn list(&self, action: &Action) -> Option<Vec<TurnChange>> {
        let stock = &self.now.stock;
        Some(match action {
            Action::Nose {
                side: s,
                rn,
                segments,
            } => {
                let (segments, _) = segments.as_chunks::<5>();
                let segments: Vec<_> = segments.iter().map(segment).collect();
                let list = stock.preview_segments(&segments, clean(*rn), side(*s));
                list.unwrap()
            }
            Action::Polygon {
                side: s,
                excess,
                points,
            } => {
                let (points, _) = points.as_chunks::<2>();
                let points: Vec<[f64; 2]> = points.iter().map(|p| p.map(clean)).collect();
                stock.preview_polygon(&points, side(*s), clean(*excess))
            }
            Action::Cut(cut) => self.now.preview(cut),
            Action::Difference { back: by, from_now } => {
                let other = &back(&self.earlier, *by).unwrap_or(&self.now).stock;
                match from_now {
                    true => stock.changes_to(other),
                    false => other.changes_to(stock),
                }
            }
            _ => return None,
        })
    }

    /// The stamp of the stock that a list is made of; of a difference the first one's.
    fn list_stamp(&self, action: &Action) -> Stamp {
        let first = match action {
            Action::Difference {
                back: by,
                from_now: false,
            } => back(&self.earlier, *by),
            _ => None,
        };
        first.unwrap_or(&self.now).stamp()
    }

    /// The stock is again an earlier one.
    pub fn go_back(&mut self, by: usize) {
        let then = back(&self.earlier, by).unwrap_or(&self.now).clone();
        self.earlier.push(std::mem::replace(&mut self.now, then));
        self.keep();
    }

    /// The flat form follows the living stock.
    fn keep(&mut self) -> Answer {
        let now = self.now.flat(self.rings_len);
        self.flat
            .earlier
            .push(std::mem::replace(&mut self.flat.now, now));
        let Stock {
            stamp,
            cells,
            blocks,
            store,
        } = self.now.answer();
        let rings = store.rings.as_chunks::<4>().0.to_vec();
        let cells = cells.as_chunks::<4>().0.to_vec();
        Answer::Stock(cells, blocks, rings, stamp.generation, vec![])
    }
}

impl Living {
    /// The verdict; on yes the stock is turned.
    fn check(&mut self, passes: &Passes, targets: &[f64]) -> Verdict {
        let mut turned = self.stock.clone();
        let (targets, _) = targets.as_chunks::<2>();
        let generation = self.stamp().generation;
        let (said, _) = verdict(&mut turned, generation, passes, targets);
        if said == Verdict::Yes {
            self.stock = turned;
        }
        said
    }

    fn change(&mut self, call: &Call) {
        match call {
            Call::Apply { list, .. } => self.stock.apply(&turn_changes(list)).unwrap(),
            Call::ApplyMove { list, removed, .. } => {
                let list = turn_changes(list);
                self.stock.apply_move(&list, &rings(removed)).unwrap();
            }
            Call::RemoveRing { ring, .. } => {
                let [z0, z1, r0, r1] = ring.map(clean);
                self.stock.remove_ring([z0, z1], [r0, r1]);
            }
            Call::FromParts {
                spec,
                stamp,
                cells,
                given,
                ..
            } => {
                let start = Stamp {
                    generation: 0,
                    ..*stamp
                };
                *self = living(spec, cells, &rings(given), start);
            }
            _ => unreachable!("{} changes no stock", call.name()),
        }
    }
}
