//! Makes a call or a sequence smaller as long as it still shows a difference.
use crate::call::{Call, List, Passes, Simple, Spec, Stamp, Store};
use crate::oracle::MOST_CELLS;
use crate::oracle::ranges::{blocks_len, renew};
use crate::oracle::stock::bar;

/// A change that makes it smaller; false where there is nothing to change.
pub type Way<T> = Box<dyn Fn(&mut T) -> bool>;

/// How often one more is tried.
const TRIES: usize = 20_000;

/// Something that can be made smaller.
pub trait Shrink: Clone + 'static {
    /// All that it is made of.
    fn parts(&mut self) -> Parts<'_>;

    /// The ways to make it smaller, the great steps first. A way that no longer fits does nothing.
    fn ways(&self) -> Vec<Way<Self>> {
        ways_of_parts(self)
    }
}

/// The smallest found that still fails.
pub fn shrink<T: Shrink>(start: &T, fails: impl Fn(&T) -> bool) -> T {
    let mut least = start.clone();
    let mut tries = 0;
    loop {
        let mut smaller = false;
        for way in least.ways() {
            let mut next = least.clone();
            if tries < TRIES && way(&mut next) {
                tries += 1;
                if fails(&next) {
                    (least, smaller) = (next, true);
                }
            }
        }
        if !smaller {
            return least;
        }
    }
}

/// What a call or a sequence is made of, to be changed.
#[derive(Default)]
pub struct Parts<'a> {
    pub spec: Option<&'a mut Spec>,
    /// Lists with 4 numbers for each bin.
    pub cells: Vec<&'a mut Vec<f64>>,
    /// Lists with 2 numbers for each bin.
    pub pairs: Vec<&'a mut Vec<f64>>,
    /// Lists from which items can be left out.
    pub items: Vec<Items<'a>>,
    /// Single numbers.
    pub numbers: Vec<&'a mut f64>,
    /// The stock's stamp, and its list's.
    pub stamps: Vec<&'a mut Stamp>,
    pub generation: Option<&'a mut u64>,
}

/// A list and what an item of it is.
pub enum Items<'a> {
    /// So many numbers each.
    Flat(&'a mut Vec<f64>, usize),
    Store(&'a mut Store),
    Changes(Changes<'a>),
    Cuts(Cuts<'a>),
    /// Numbers none of which is left out.
    Whole(&'a mut Vec<f64>),
}

/// Proposed cuts without the lists beside them.
pub struct Cuts<'a> {
    kinds: &'a mut Vec<u32>,
    numbers: &'a mut Vec<f64>,
    parts: &'a mut Vec<usize>,
}

/// The cuts, and the lists beside them.
pub fn cut_items(passes: &mut Passes) -> [Items<'_>; 2] {
    let Passes {
        kinds,
        numbers,
        parts,
        lists,
    } = passes;
    let cuts = Cuts {
        kinds,
        numbers,
        parts,
    };
    [Items::Cuts(cuts), Items::Whole(lists)]
}

/// Takes out of a list what is there of a range.
fn take_out<T>(list: &mut Vec<T>, start: usize, end: usize) {
    let len = list.len();
    list.drain(start.min(len)..end.min(len));
}

/// A change list without its stamp.
pub struct Changes<'a> {
    indices: &'a mut Vec<usize>,
    records: &'a mut Vec<f64>,
    changes: &'a mut usize,
}

impl<'a> Items<'a> {
    fn len(&self) -> usize {
        match self {
            Items::Flat(list, size) => list.len() / size,
            Items::Store(store) => store.rings.len() / 4,
            Items::Changes(list) => list.indices.len().min(list.records.len() / 8),
            Items::Cuts(list) => list.kinds.len(),
            Items::Whole(_) => 0,
        }
    }

    /// Leaves out items; false where there are not so many.
    fn leave_out(&mut self, start: usize, count: usize) -> bool {
        let end = start + count;
        if end > self.len() {
            return false;
        }
        match self {
            Items::Flat(list, size) => drop(list.drain(start * *size..end * *size)),
            Items::Store(store) => {
                // The room of a stored ring stays, and is left out by itself.
                let stored = store.count.min(end) - store.count.min(start);
                let room = if store.count <= store.rings.len() / 4 {
                    stored
                } else {
                    0
                };
                store.rings.drain(4 * start..4 * end);
                store.rings.extend(vec![0.; 4 * room]);
                store.count -= stored;
            }
            Items::Changes(list) => {
                list.indices.drain(start..end);
                list.records.drain(8 * start..8 * end);
                let changes = &mut *list.changes;
                *changes -= (*changes).min(end) - (*changes).min(start);
            }
            Items::Cuts(list) => {
                list.kinds.drain(start..end);
                take_out(list.numbers, 6 * start, 6 * end);
                take_out(list.parts, 2 * start, 2 * end);
            }
            Items::Whole(_) => {}
        }
        true
    }

    fn numbers(self) -> &'a mut Vec<f64> {
        match self {
            Items::Flat(list, _) => list,
            Items::Store(store) => &mut store.rings,
            Items::Changes(list) => list.records,
            Items::Cuts(list) => list.numbers,
            Items::Whole(list) => list,
        }
    }
}

/// Runs of a list's items: the whole, its halves, and so on down to single ones.
pub fn runs(len: usize) -> Vec<(usize, usize)> {
    let mut runs = vec![];
    let mut size = len;
    while size > 0 {
        runs.extend((0..len).step_by(size).map(|start| (start, size)));
        size /= 2;
    }
    runs
}

/// The ways that change one of the parts.
pub fn ways_of_parts<T: Shrink>(whole: &T) -> Vec<Way<T>> {
    let mut copy = whole.clone();
    let parts = copy.parts();
    let mut ways: Vec<Way<T>> = vec![];
    for (k, items) in parts.items.iter().enumerate() {
        for (start, count) in runs(items.len()) {
            ways.push(Box::new(move |t: &mut T| {
                let mut parts = t.parts();
                let items = parts.items.get_mut(k);
                items.is_some_and(|items| items.leave_out(start, count))
            }));
        }
    }
    for way in 0..4 {
        ways.push(Box::new(move |t: &mut T| fewer_bins(t.parts(), way)));
    }
    ways.push(Box::new(|t: &mut T| plain_bar(t.parts())));
    ways.push(Box::new(|t: &mut T| {
        let generation = t.parts().generation;
        generation.is_some_and(|g| std::mem::take(g) > 0)
    }));
    for way in 0..4 {
        ways.push(Box::new(move |t: &mut T| {
            lower_stamps(t.parts().stamps, way)
        }));
    }
    for k in 0..all_numbers(parts).len() {
        for way in 0..SIMPLER {
            ways.push(Box::new(move |t: &mut T| {
                let mut numbers = all_numbers(t.parts());
                let number = numbers.get_mut(k);
                number.is_some_and(|x| simplify(x, way))
            }));
        }
    }
    ways
}

/// Lower stamps: all editions 0, all generations less by the least of them, or one stamp all 0.
fn lower_stamps(mut stamps: Vec<&mut Stamp>, way: usize) -> bool {
    let before: Vec<Stamp> = stamps.iter().map(|s| **s).collect();
    match way {
        0 => stamps.iter_mut().for_each(|s| s.edition = 0),
        1 => {
            let least = before.iter().map(|s| s.generation).min().unwrap_or(0);
            stamps.iter_mut().for_each(|s| s.generation -= least);
        }
        _ => {
            let one = stamps.get_mut(way - 2);
            one.into_iter().for_each(|s| **s = Stamp::default());
        }
    }
    stamps.iter().zip(&before).any(|(now, then)| **now != *then)
}

/// A bar of the first or the last bins: half of them, or all but one. Changes stay with the last bins.
fn fewer_bins(parts: Parts, way: usize) -> bool {
    let (Some(spec), Some(first)) = (parts.spec, parts.cells.first()) else {
        return false;
    };
    let len = first.len();
    let kept = if way < 2 {
        len / 8
    } else {
        (len / 4).saturating_sub(1)
    };
    if kept == 0 || 4 * kept == len || parts.cells.iter().any(|c| c.len() != len) {
        return false;
    }
    let last = way % 2 == 1;
    if last {
        let gone = len / 4 - kept;
        spec.z_min += gone as f64 * spec.cell;
        for items in parts.items {
            if let Items::Changes(list) = items {
                let indices = list.indices.iter_mut();
                indices.for_each(|i| *i = i.wrapping_sub(gone));
            }
        }
    } else {
        spec.z_max = spec.z_min + kept as f64 * spec.cell;
    }
    for (lists, size) in [(parts.cells, 4), (parts.pairs, 2)] {
        for list in lists {
            let gone = size * (len / 4 - kept);
            match last {
                true => take_out(list, 0, gone),
                false => list.truncate(list.len().saturating_sub(gone)),
            }
        }
    }
    true
}

/// A bar of as many bins from 0 on, each 1 long.
fn plain_bar(parts: Parts) -> bool {
    let (Some(spec), Some(cells)) = (parts.spec, parts.cells.first()) else {
        return false;
    };
    let plain = Spec {
        z_min: 0.,
        z_max: (cells.len() / 4) as f64,
        cell: 1.,
        max_cells: MOST_CELLS,
        ..*spec
    };
    let new = *spec != plain;
    *spec = plain;
    new
}

fn all_numbers(parts: Parts<'_>) -> Vec<&mut f64> {
    let mut numbers = parts.numbers;
    if let Some(s) = parts.spec {
        numbers.extend([
            &mut s.z_min,
            &mut s.z_max,
            &mut s.outer,
            &mut s.bore,
            &mut s.cell,
        ]);
    }
    let items = parts.items.into_iter().map(Items::numbers);
    let lists = parts.cells.into_iter().chain(parts.pairs);
    numbers.extend(items.chain(lists).flatten());
    numbers
}

/// How many ways there are to make a number simpler.
const SIMPLER: usize = 5;

/// Makes a number simpler by one of the ways; false where it is not.
fn simplify(x: &mut f64, way: usize) -> bool {
    let rounded = |unit: f64| (*x * unit).round() / unit;
    let next = [0., 1., x.trunc(), rounded(10.), rounded(1000.)][way];
    let simpler = rank(next) < rank(*x);
    if simpler {
        *x = next;
    }
    simpler
}

/// How plain a number is: 0, 1, whole, in tenths, in thousandths, any other.
fn rank(x: f64) -> usize {
    let whole = |unit: f64| (x * unit).round() / unit == x;
    if x.to_bits() == 0 {
        0
    } else if x == 0. || !x.is_finite() {
        5
    } else if x == 1. {
        1
    } else {
        [1., 10., 1000.]
            .iter()
            .position(|u| whole(*u))
            .map_or(5, |k| k + 2)
    }
}

/// The numbers of a thread or a drill.
pub fn simple_numbers(cut: &mut Simple) -> Vec<&mut f64> {
    match cut {
        Simple::ThreadCut { z0, z1, radius } => vec![z0, z1, radius],
        Simple::ThreadCutInner { z0, z1, radius } => vec![z0, z1, radius],
        Simple::Drill {
            tip_z,
            radius,
            cone,
        } => vec![tip_z, radius, cone],
    }
}

#[rustfmt::skip]
impl Shrink for Call {
    fn parts(&mut self) -> Parts<'_> {
        let none = Parts::default();
        match self {
            Call::Root { x } => Parts { numbers: vec![x], ..none },
            Call::Length { x, y } => Parts { numbers: vec![x, y], ..none },
            Call::Validate { spec } | Call::Bin { spec, .. } => Parts { spec: Some(spec), ..none },
            Call::New { spec, stamp, .. } => Parts { spec: Some(spec), stamps: vec![stamp], ..none },
            Call::Preview { spec, stamp, cells, rn, segments, .. } => Parts {
                spec: Some(spec), stamps: vec![stamp], cells: vec![cells],
                items: vec![Items::Flat(segments, 5)], numbers: vec![rn], ..none
            },
            Call::PreviewPolygon { spec, stamp, cells, excess, points, .. } => Parts {
                spec: Some(spec), stamps: vec![stamp], cells: vec![cells],
                items: vec![Items::Flat(points, 2)], numbers: vec![excess], ..none
            },
            Call::Cut { spec, stamp, cells, cut, .. } => Parts {
                spec: Some(spec), stamps: vec![stamp], cells: vec![cells], numbers: simple_numbers(cut), ..none
            },
            Call::Apply { spec, stamp, cells, blocks, list } => {
                let List { indices, records, changes, stamp: listed } = list;
                let list = Items::Changes(Changes { indices, records, changes });
                Parts {
                    spec: Some(spec), stamps: vec![stamp, listed], cells: vec![cells],
                    items: vec![Items::Flat(blocks, 2), list], ..none
                }
            }
            Call::ChangesTo { spec, stamp, cells, after, .. } => Parts {
                spec: Some(spec), stamps: vec![stamp], cells: vec![cells, after], ..none
            },
            Call::RemoveRing { spec, store, generation, ring } => Parts {
                spec: Some(spec), items: vec![Items::Store(store)], numbers: ring.iter_mut().collect(),
                generation: Some(generation), ..none
            },
            Call::ApplyMove { spec, stamp, cells, blocks, store, list, removed } => {
                let List { indices, records, changes, stamp: listed } = list;
                let list = Items::Changes(Changes { indices, records, changes });
                Parts {
                    spec: Some(spec), stamps: vec![stamp, listed], cells: vec![cells],
                    items: vec![Items::Flat(blocks, 2), Items::Store(store), list, Items::Flat(removed, 4)], ..none
                }
            }
            Call::FromParts { spec, stamp, cells, blocks, given, .. } => Parts {
                spec: Some(spec), stamps: vec![stamp], cells: vec![cells],
                items: vec![Items::Flat(blocks, 2), Items::Flat(given, 4)], ..none
            },
            Call::Renew { spec, cells, blocks } => Parts {
                spec: Some(spec), cells: vec![cells], items: vec![Items::Flat(blocks, 2)], ..none
            },
            Call::Volume { spec, cells, store } => Parts {
                spec: Some(spec), cells: vec![cells], items: vec![Items::Store(store)], ..none
            },
            Call::EnvelopeAt { spec, cells, z } => Parts {
                spec: Some(spec), cells: vec![cells], numbers: vec![z], ..none
            },
            Call::Range { spec, cells, blocks, lo, hi } => Parts {
                spec: Some(spec), cells: vec![cells], items: vec![Items::Flat(blocks, 2)], numbers: vec![lo, hi], ..none
            },
            Call::EnvelopeOrder { points } => Parts { items: vec![Items::Flat(points, 2)], ..none },
            Call::RadiusAt { points, u } => Parts {
                items: vec![Items::Flat(points, 2)], numbers: vec![u], ..none
            },
            Call::Within { points, lo, hi } | Call::RadiusRange { points, lo, hi } => Parts {
                items: vec![Items::Flat(points, 2)], numbers: vec![lo, hi], ..none
            },
            Call::Segments { points, tolerance, .. } => Parts {
                items: vec![Items::Flat(points, 3)], numbers: vec![tolerance], ..none
            },
            Call::Excess { points, polygon, tolerance } | Call::Penetration { points, polygon, tolerance } => Parts {
                items: vec![Items::Flat(points, 2), Items::Flat(polygon, 2)], numbers: vec![tolerance], ..none
            },
            Call::Eroded { points, u, tolerance } => Parts {
                items: vec![Items::Flat(points, 2)], numbers: vec![u, tolerance], ..none
            },
            Call::CheckPasses { spec, stamp, cells, blocks, targets, passes, .. } => {
                let [cuts, lists] = cut_items(passes);
                Parts {
                    spec: Some(spec), stamps: vec![stamp], cells: vec![cells], pairs: vec![targets],
                    items: vec![cuts, lists, Items::Flat(blocks, 2)], ..none
                }
            }
            Call::ProposePasses { spec, cells, targets, rn, .. } => Parts {
                spec: Some(spec), cells: vec![cells], pairs: vec![targets], numbers: vec![rn], ..none
            },
        }
    }

    fn ways(&self) -> Vec<Way<Self>> {
        let following = |way: Way<Self>| -> Way<Self> { Box::new(move |call| follow(call, &way)) };
        ways_of_parts(self).into_iter().map(following).collect()
    }
}

/// Spec and cells of a call that is lent kept numbers, and those.
fn kept(call: &mut Call) -> Option<(Spec, &[f64], &mut Vec<f64>)> {
    match call {
        Call::Apply {
            spec,
            cells,
            blocks,
            ..
        }
        | Call::ApplyMove {
            spec,
            cells,
            blocks,
            ..
        }
        | Call::FromParts {
            spec,
            cells,
            blocks,
            ..
        }
        | Call::Renew {
            spec,
            cells,
            blocks,
        }
        | Call::Range {
            spec,
            cells,
            blocks,
            ..
        }
        | Call::CheckPasses {
            spec,
            cells,
            blocks,
            ..
        } => Some((*spec, cells, blocks)),
        _ => None,
    }
}

/// Room for the cells after a check and for their kept numbers: as much too little or too much as before.
fn follow_room(call: &mut Call, before: &Call) {
    let (
        Call::CheckPasses {
            cells,
            after_len,
            after_blocks_len,
            ..
        },
        Call::CheckPasses { cells: old, .. },
    ) = (call, before)
    else {
        return;
    };
    let moved = |room: &mut usize, now: usize, then: usize| {
        *room = (*room + now).saturating_sub(then);
    };
    moved(after_len, cells.len(), old.len());
    let kept = |cells: &[f64]| blocks_len(cells.len() / 4);
    moved(after_blocks_len, kept(cells), kept(old));
}

/// The kept numbers of cells, where they are a stock's.
fn own(spec: &Spec, cells: &[f64]) -> Option<Vec<f64>> {
    let len = blocks_len(bar(spec).ok()?.n);
    renew(spec, cells, len).ok()
}

/// Kept numbers follow the cells: those of the smaller call's, as many too few or too many as before, and where one
/// was not its cells' own it stays, at its place or in the last block.
fn follow(call: &mut Call, way: &Way<Call>) -> bool {
    let before = kept(call).map(|(spec, cells, blocks)| (spec, cells.to_vec(), blocks.clone()));
    let whole = matches!(call, Call::CheckPasses { .. }).then(|| call.clone());
    let smaller = way(call);
    if let (true, Some(whole)) = (smaller, whole) {
        follow_room(call, &whole);
    }
    if let (true, Some((spec, cells, lent))) = (smaller, before) {
        renewed(call, own(&spec, &cells), &lent);
    }
    smaller
}

fn renewed(call: &mut Call, own_before: Option<Vec<f64>>, lent: &[f64]) -> Option<()> {
    let (spec, cells, blocks) = kept(call)?;
    let (own, now) = (own_before?, own(&spec, cells)?);
    let bits = |list: &[f64]| -> Vec<u64> { list.iter().map(|x| x.to_bits()).collect() };
    if bits(lent) != bits(blocks) {
        // the way has changed them by itself
        return None;
    }
    blocks.clone_from(&now);
    blocks.resize((now.len() + lent.len()).saturating_sub(own.len()), 0.);
    for (k, (x, y)) in lent.iter().zip(&own).enumerate() {
        let place = blocks.get_mut(k.min(now.len() - 2 + k % 2));
        if let (true, Some(place)) = (x.to_bits() != y.to_bits(), place) {
            *place = *x;
        }
    }
    Some(())
}
