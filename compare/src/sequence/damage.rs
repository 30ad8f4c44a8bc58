//! One part of a call is not as it should be.
use crate::call::{Call, List, Room, Spec, Stamp, Store};

/// `at` counts from the start, and past the end from the start again.
#[derive(Clone, Debug)]
pub enum Damage {
    Spec(Spec),
    /// A number of a cell.
    Cell {
        at: usize,
        value: f64,
    },
    /// So many numbers of cells are lent.
    Cells(usize),
    /// A kept number of a block.
    Block {
        at: usize,
        value: f64,
    },
    /// A kept number one ulp more.
    Ulp(usize),
    /// The two numbers of a block, exchanged.
    Exchanged(usize),
    /// So many kept numbers are lent.
    Blocks(usize),
    /// The kept numbers of the stock before the last change.
    Earlier,
    Room(Room),
    /// A number of a record.
    Record {
        at: usize,
        value: f64,
    },
    Index {
        at: usize,
        value: usize,
    },
    /// The index of the last change.
    Last(usize),
    /// A change list is said to have so many changes.
    Changes(usize),
    /// A number of a stored ring.
    Stored {
        at: usize,
        value: f64,
    },
    /// A store is said to have so many rings.
    Count(usize),
    /// So many numbers of rings are lent.
    Rings(usize),
    /// The stock's stamp alone.
    Stamp(Stamp),
    /// The list's stamp alone.
    Listed(Stamp),
    /// The stamp of the stock and of its list.
    Both(Stamp),
}

fn put<T>(list: &mut [T], at: usize, value: T) {
    if !list.is_empty() {
        let at = at % list.len();
        list[at] = value;
    }
}

/// The parts of a call that damage may befall.
#[derive(Default)]
struct Parts<'a> {
    spec: Option<&'a mut Spec>,
    cells: Option<&'a mut Vec<f64>>,
    blocks: Option<&'a mut Vec<f64>>,
    room: Option<&'a mut Room>,
    list: Option<&'a mut List>,
    store: Option<&'a mut Store>,
    rings_len: Option<&'a mut usize>,
    stamp: Option<&'a mut Stamp>,
    generation: Option<&'a mut u64>,
}

#[rustfmt::skip]
fn parts(call: &mut Call) -> Parts<'_> {
    let none = Parts::default();
    match call {
        Call::Preview { spec, stamp, cells, room, .. }
        | Call::PreviewPolygon { spec, stamp, cells, room, .. }
        | Call::Cut { spec, stamp, cells, room, .. }
        | Call::ChangesTo { spec, stamp, cells, room, .. } => Parts {
            spec: Some(spec), stamp: Some(stamp), cells: Some(cells), room: Some(room), ..none
        },
        Call::CheckPasses { spec, stamp, cells, blocks, .. } => Parts {
            spec: Some(spec), stamp: Some(stamp), cells: Some(cells), blocks: Some(blocks), ..none
        },
        Call::Apply { spec, stamp, cells, blocks, list } => Parts {
            spec: Some(spec), stamp: Some(stamp), cells: Some(cells), blocks: Some(blocks), list: Some(list), ..none
        },
        Call::RemoveRing { spec, store, generation, .. } => {
            Parts { spec: Some(spec), store: Some(store), generation: Some(generation), ..none }
        }
        Call::ApplyMove { spec, stamp, cells, blocks, store, list, .. } => Parts {
            spec: Some(spec), stamp: Some(stamp), cells: Some(cells), blocks: Some(blocks), list: Some(list),
            store: Some(store), ..none
        },
        Call::FromParts { spec, stamp, cells, blocks, rings_len, .. } => Parts {
            spec: Some(spec), stamp: Some(stamp), cells: Some(cells), blocks: Some(blocks),
            rings_len: Some(rings_len), ..none
        },
        Call::Renew { spec, cells, blocks } | Call::Range { spec, cells, blocks, .. } => {
            Parts { spec: Some(spec), cells: Some(cells), blocks: Some(blocks), ..none }
        }
        Call::Volume { spec, cells, store } => {
            Parts { spec: Some(spec), cells: Some(cells), store: Some(store), ..none }
        }
        Call::EnvelopeAt { spec, cells, .. } => {
            Parts { spec: Some(spec), cells: Some(cells), ..none }
        }
        _ => none,
    }
}

impl Parts<'_> {
    /// The stock's stamp; of a ring's call its generation.
    fn put_stamp(self, value: Stamp) {
        self.stamp.into_iter().for_each(|s| *s = value);
        let generation = self.generation.into_iter();
        generation.for_each(|g| *g = value.generation);
    }
}

impl Damage {
    /// Befalls the call, where it has such a part; the kept numbers are those of the stock before.
    pub fn befall(&self, call: &mut Call, before: &[f64]) {
        let mut parts = parts(call);
        match self.clone() {
            Damage::Spec(value) => parts.spec.into_iter().for_each(|s| *s = value),
            Damage::Cell { at, value } => {
                let cells = parts.cells.into_iter();
                cells.for_each(|c| put(c, at, value));
            }
            Damage::Cells(len) => parts.cells.into_iter().for_each(|c| c.resize(len, 1.)),
            Damage::Block { at, value } => {
                let blocks = parts.blocks.into_iter();
                blocks.for_each(|b| put(b, at, value));
            }
            Damage::Ulp(at) => {
                let blocks = parts.blocks.into_iter();
                blocks.for_each(|b| {
                    let more = b[at % b.len()].next_up();
                    put(b, at, more);
                });
            }
            Damage::Exchanged(at) => {
                let blocks = parts.blocks.into_iter();
                blocks.for_each(|b| {
                    let at = at % b.len();
                    b.swap(at, at ^ 1);
                });
            }
            Damage::Blocks(len) => parts.blocks.into_iter().for_each(|b| b.resize(len, 0.)),
            Damage::Earlier => {
                let blocks = parts.blocks.into_iter();
                blocks.for_each(|b| *b = before.to_vec());
            }
            Damage::Room(value) => parts.room.into_iter().for_each(|r| *r = value),
            Damage::Record { at, value } => {
                let list = parts.list.into_iter();
                list.for_each(|l| put(&mut l.records, at, value));
            }
            Damage::Index { at, value } => {
                let list = parts.list.into_iter();
                list.for_each(|l| put(&mut l.indices, at, value));
            }
            Damage::Last(value) => {
                let list = parts.list.into_iter().filter(|l| l.changes > 0);
                list.for_each(|l| put(&mut l.indices, l.changes - 1, value));
            }
            Damage::Changes(value) => parts.list.into_iter().for_each(|l| l.changes = value),
            Damage::Stored { at, value } => {
                let store = parts.store.into_iter();
                store.for_each(|s| put(&mut s.rings, at, value));
            }
            Damage::Count(value) => parts.store.into_iter().for_each(|s| s.count = value),
            Damage::Rings(len) => {
                let store = parts.store.into_iter();
                store.for_each(|s| s.rings.resize(len, 0.));
                parts.rings_len.iter_mut().for_each(|l| **l = len);
            }
            Damage::Stamp(value) => parts.put_stamp(value),
            Damage::Listed(value) => parts.list.into_iter().for_each(|l| l.stamp = value),
            Damage::Both(value) => {
                parts.list.iter_mut().for_each(|l| l.stamp = value);
                parts.put_stamp(value);
            }
        }
    }

    /// Its numbers, to be made simpler.
    pub fn numbers(&mut self) -> Vec<&mut f64> {
        match self {
            Damage::Cell { value, .. }
            | Damage::Block { value, .. }
            | Damage::Record { value, .. }
            | Damage::Stored { value, .. } => vec![value],
            Damage::Spec(s) => vec![
                &mut s.z_min,
                &mut s.z_max,
                &mut s.outer,
                &mut s.bore,
                &mut s.cell,
            ],
            _ => vec![],
        }
    }
}
