//! Change lists: the room that is lent for one, its stamp, its commit, the difference of two stocks.
use super::Rng;
use super::blocks::{base_or_blocks, damaged_blocks, patchy_cells};
use super::numbers::{any, outside};
use super::stock::{base, damaged_cells, damaged_spec, good_cells, some_cut};
use crate::call::{Answer, Call, Change, List, Room, Stamp};
use crate::oracle::answer;
use crate::oracle::stock::Bar;

/// Room for so many changes, as a rule with something over in one of the two lists.
fn room_for(rng: &mut Rng, changes: usize) -> Room {
    let over = rng.below(3);
    let odd = rng.below(8);
    match rng.below(2) {
        0 => Room {
            indices: changes + over,
            records: 8 * changes + odd,
        },
        _ => Room {
            indices: changes,
            records: 8 * (changes + over) + odd,
        },
    }
}

/// Gives the call room: for every cell, for exactly its changes, or for one fewer.
pub fn with_room(rng: &mut Rng, mut call: Call, n: usize) -> Call {
    let found = match answer(&call) {
        Ok(Answer::Changes(changes, _)) => changes.len(),
        _ => 0,
    };
    let given = match rng.below(6) {
        0 => found,
        1 => found.saturating_sub(1),
        2 => rng.below(found + 1),
        _ => n,
    };
    let given = room_for(rng, given);
    match &mut call {
        Call::Cut { room, .. }
        | Call::Preview { room, .. }
        | Call::PreviewPolygon { room, .. }
        | Call::ChangesTo { room, .. } => *room = given,
        _ => unreachable!(),
    }
    call
}

/// Room for a change of every cell.
pub fn plenty(n: usize) -> Room {
    Room {
        indices: n,
        records: 8 * n,
    }
}

pub fn changes_to(rng: &mut Rng) -> Call {
    let base = base(rng);
    let cells = good_cells(rng, &base);
    let mut after = match rng.below(3) {
        0 => good_cells(rng, &base),
        _ => cells.clone(),
    };
    for change in some_changes(rng, &base, &after) {
        after[change.index] = change.after;
    }
    let call = Call::ChangesTo {
        spec: damaged_spec(rng, &base),
        stamp: stamp(rng),
        cells: damaged_cells(rng, &base, &cells),
        after: damaged_cells(rng, &base, &after),
        room: plenty(base.n),
    };
    with_room(rng, call, base.n)
}

/// Changes that some cut proposes.
pub fn some_changes(rng: &mut Rng, base: &Bar, cells: &[[f64; 4]]) -> Vec<Change> {
    let call = some_cut(rng, base, cells.as_flattened().to_vec());
    match answer(&call) {
        Ok(Answer::Changes(changes, _)) => changes,
        _ => vec![],
    }
}

/// A change list as lent for the stock of the stamp, now and then damaged.
pub fn damaged_changes(rng: &mut Rng, base: &Bar, mut changes: Vec<Change>, of: Stamp) -> List {
    match rng.below(10) {
        0 => faults(rng, base, &mut changes),
        _ => (0..rng.below(3)).for_each(|_| damage(rng, base, &mut changes)),
    }
    let mut list = List {
        indices: changes.iter().map(|c| c.index).collect(),
        records: changes
            .iter()
            .flat_map(|c| [c.before, c.after])
            .flatten()
            .collect(),
        changes: changes.len(),
        stamp: spoiled(rng, of),
    };
    if rng.once_in(4) {
        // More is lent than is used.
        list.indices.extend([0; 3].map(|_| rng.word() as usize));
        list.records.extend([0.; 11].map(|_| any(rng)));
    }
    let lent = list.indices.len().min(list.records.len() / 8);
    match rng.below(60) {
        0 => list.changes = lent + 1,
        1 => list.changes = rng.below(lent + 1),
        2 => list.changes = rng.pick(&[usize::MAX, usize::MAX / 8 + 1, 1 << 61]),
        3 => drop(list.indices.pop()),
        4 => drop(list.records.pop()),
        _ => {}
    }
    list
}

/// The next number up or down.
fn ulp_beside(rng: &mut Rng, x: f64) -> f64 {
    match rng.below(2) {
        0 => x.next_up(),
        _ => x.next_down(),
    }
}

/// Two faults or three, in one change or in several: each of them alone would be refused with a
/// position, so that number and position show which comes first.
fn faults(rng: &mut Rng, base: &Bar, changes: &mut [Change]) {
    let len = changes.len();
    if len == 0 {
        return;
    }
    let ends = [0, 1.min(len - 1), len - 1];
    let at = match rng.below(2) {
        0 => rng.pick(&ends),
        _ => rng.below(len),
    };
    for _ in 0..2 + rng.below(2) {
        let k = match rng.below(3) {
            0 => rng.below(len),
            1 => (at + 1).min(len - 1),
            _ => at,
        };
        fault(rng, base, changes, k);
    }
}

/// A fault of change k: 7, 8, 21, 22 or 23, where nothing else is wrong with it.
fn fault(rng: &mut Rng, base: &Bar, changes: &mut [Change], k: usize) {
    let bound = rng.below(4);
    let index = changes[k.saturating_sub(1)].index;
    let c = &mut changes[k];
    match rng.below(8) {
        0 => c.index = rng.pick(&[index, index.saturating_sub(1)]),
        1 => c.after[bound] = rng.pick(&[f64::NAN, base.spec.outer.next_up(), -0.]),
        2 => c.index = rng.pick(&[base.n, base.n + 1, usize::MAX]),
        3 => c.index = c.index.saturating_add(base.n),
        4 => c.before[bound] = ulp_beside(rng, c.before[bound]),
        5 => c.before[bound] = rng.pick(&[f64::NAN, f64::INFINITY, f64::NEG_INFINITY]),
        6 => (c.before, c.after) = (c.after, c.before),
        _ => {
            let more = [f64::next_up, f64::next_down][bound / 2];
            c.after = c.before;
            c.after[bound] = more(c.after[bound]);
        }
    }
}

fn damage(rng: &mut Rng, base: &Bar, changes: &mut [Change]) {
    let len = changes.len();
    if len == 0 {
        return;
    }
    let (at, other, bound) = (rng.below(len), rng.below(len), rng.below(4));
    let c = &mut changes[at];
    match rng.below(36) {
        0 => changes.swap(at, other),
        1 => changes[at].index = changes[other].index,
        2 => c.index = rng.pick(&[base.n, base.n + 1, usize::MAX]),
        3 => changes[len - 1].index = rng.pick(&[base.n, base.n + 7, usize::MAX]),
        4 => c.before[bound] = outside(rng),
        5 => c.before[bound] = ulp_beside(rng, c.before[bound]),
        6 => c.after[bound] = outside(rng),
        7 => c.after[bound] = rng.pick(&[base.spec.outer.next_up(), base.spec.bore.next_down()]),
        8 => c.after.swap(bound & 2, bound | 1),
        9 => c.after[bound] = -0.,
        10 => {
            for x in c.before.iter_mut().filter(|x| **x == 0.) {
                *x = -0.;
            }
        }
        11 => (c.before, c.after) = (c.after, c.before),
        12 => c.after = c.before,
        13 | 16 => c.after[bound] = c.before[bound].next_up(),
        14 | 17 => c.after[bound] = c.before[bound].next_down(),
        15 => c.index = c.index.wrapping_add(1),
        _ => {}
    }
}

/// A generation, now and then about to pass its end, or the first.
pub fn generation(rng: &mut Rng) -> u64 {
    match rng.below(16) {
        0 => u64::MAX,
        1 => u64::MAX - rng.below(6) as u64,
        2 => rng.word(),
        3 | 4 => 0,
        _ => rng.below(1000) as u64,
    }
}

/// An edition: the first, the last, a small one or any.
pub fn edition(rng: &mut Rng) -> u32 {
    match rng.below(4) {
        0 => 0,
        1 => u32::MAX,
        2 => rng.below(4) as u32,
        _ => rng.word() as u32,
    }
}

pub fn stamp(rng: &mut Rng) -> Stamp {
    Stamp {
        edition: edition(rng),
        generation: generation(rng),
    }
}

/// A list's stamp: that of the stock, and once in five another one.
pub fn spoiled(rng: &mut Rng, of: Stamp) -> Stamp {
    if rng.once_in(5) { other(rng, of) } else { of }
}

/// A stamp beside another one: the edition, the generation or both are not its.
pub fn other(rng: &mut Rng, of: Stamp) -> Stamp {
    let mut list = of;
    let which = 1 + rng.below(3);
    if which & 1 != 0 {
        list.edition = match rng.below(4) {
            0 => of.edition.wrapping_sub(1),
            1 => of.edition.wrapping_add(1),
            2 => of.edition ^ 1 << rng.below(32),
            _ => edition(rng),
        };
    }
    if which & 2 != 0 {
        list.generation = match rng.below(6) {
            // as a list has it that is kept over one commit, or over some
            0 => of.generation.wrapping_sub(1),
            1 => of.generation.wrapping_sub(1 + rng.below(9) as u64),
            2 => of.generation.wrapping_add(1),
            3 => of.generation ^ 1 << rng.below(64),
            4 => of.generation & u32::MAX as u64,
            _ => generation(rng),
        };
    }
    if list == of {
        list.generation ^= 1;
    }
    list
}

pub fn apply(rng: &mut Rng) -> Call {
    let base = base_or_blocks(rng);
    let cells = patchy_cells(rng, &base);
    let changes = some_changes(rng, &base, &cells);
    let stamp = stamp(rng);
    Call::Apply {
        spec: damaged_spec(rng, &base),
        stamp,
        cells: damaged_cells(rng, &base, &cells),
        blocks: damaged_blocks(rng, &base, &cells),
        list: damaged_changes(rng, &base, changes, stamp),
    }
}
