//! Stores of rings, moves, parts, volumes.
use super::Rng;
use super::blocks::{any_blocks, base_or_blocks, damaged_blocks, own, patchy_cells};
use super::changes::{damaged_changes, generation, some_changes, stamp};
use super::numbers::{any, edge, outside};
use super::stock::{base, damaged_cells, damaged_spec, good_cells, r_near, z_near};
use crate::call::{Answer, Call, Stamp, Store};
use crate::oracle::rings::stored;
use crate::oracle::stock::{Bar, fresh};
use crate::oracle::{MOST_RINGS, answer};

type Ring = [f64; 4];

/// A ring on the bar, as a rule not empty.
pub fn ring(rng: &mut Rng, base: &Bar) -> Ring {
    let (z, w) = (z_near(rng, base), z_near(rng, base));
    let (r, q) = (r_near(rng, base), r_near(rng, base));
    [z.min(w), z.max(w), r.min(q), r.max(q)]
}

/// A ring by its parts of the bar's length and of its radius.
fn at(base: &Bar, part: Ring) -> Ring {
    let s = base.spec;
    let z = |t: f64| s.z_min + t * (s.z_max - s.z_min);
    let r = |t: f64| t * s.outer;
    [z(part[0]), z(part[1]), r(part[2]), r(part[3])]
}

/// A row of squares, slats across or a few squares above, and bands over all but those rows.
///
/// A ring over the whole bar is cut by each square into three pieces more, by each slat and each
/// square above into one more, and the bands then take all but those of the rows: so the pieces in
/// hand go about the limit and the store does not.
fn comb(rng: &mut Rng, base: &Bar, squares: usize, more: usize) -> Vec<Ring> {
    let slats = if rng.once_in(2) { more } else { 0 };
    let width = 1. / (2 * (squares + slats) + 1) as f64;
    let column = |k: usize| (width * (2 * k + 1) as f64, width * (2 * k + 2) as f64);
    let at_column = |k: usize, r0: f64, r1: f64| [column(k).0, column(k).1, r0, r1];
    let mut rings: Vec<Ring> = (0..squares).map(|k| at_column(k, 0.4, 0.5)).collect();
    rings.extend((squares..squares + slats).map(|k| at_column(k, 0., 1.)));
    let above = more - slats;
    rings.extend((0..above).map(|k| at_column(k, 0.7, 0.8)));
    let end = column(squares).0;
    let bands = [
        [0., end, 0., 0.4],
        [0., end, 0.5, 0.7],
        [0., end, 0.8, 1.],
        [width * (2 * above) as f64, end, 0.7, 0.8],
    ];
    match rng.below(3) {
        0 => {}
        1 => rings.extend(bands),
        _ => drop(rings.splice(0..0, bands)),
    }
    if rng.once_in(3) {
        for k in (1..rings.len()).rev() {
            rings.swap(k, rng.below(k + 1));
        }
    }
    rings.iter().map(|r| at(base, *r)).collect()
}

/// A comb whose pieces in hand come to about 256, and the ring over the whole bar.
pub fn about_the_limit(rng: &mut Rng, base: &Bar) -> (Vec<Ring>, Ring) {
    let goal = 252 + rng.below(8);
    let squares = (goal - 1) / 3 - rng.below(4);
    let more = goal - 1 - 3 * squares;
    let rings = comb(rng, base, squares, more);
    (rings, at(base, [0., 1., 0., 1.]))
}

/// What a rebuild stores of the rings, as far as it takes them.
fn disjoint(base: &Bar, given: Vec<Ring>) -> Vec<Ring> {
    let mut given = given;
    let store = Store {
        rings: given.as_flattened().to_vec(),
        count: given.len(),
    };
    if stored(base, &store).is_ok() {
        // Rings that can be stored as they are, are.
        return given;
    }
    let cells = fresh(base);
    loop {
        let call = Call::FromParts {
            spec: base.spec,
            stamp: Stamp::default(),
            cells: cells.as_flattened().to_vec(),
            blocks: own(base, &cells),
            given: given.as_flattened().to_vec(),
            rings_len: 4 * MOST_RINGS,
        };
        match answer(&call) {
            Ok(Answer::Stock(_, _, rings, _, _)) => return rings,
            _ if given.is_empty() => return vec![],
            _ => given.truncate(given.len() / 2),
        }
    }
}

/// So many rings that touch and do not overlap.
pub fn side_by_side(base: &Bar, count: usize) -> Vec<Ring> {
    let width = 1. / count as f64;
    let slat = |k: usize| at(base, [width * k as f64, width * (k + 1) as f64, 0.1, 0.6]);
    (0..count).map(slat).collect()
}

/// Stored rings and one more to take away.
fn stored_and_next(rng: &mut Rng, base: &Bar) -> (Vec<Ring>, Ring) {
    let next = ring(rng, base);
    match rng.below(24) {
        0 => comb_stored(rng, base),
        1 => {
            // A store that is full, or has nearly no room left.
            let count = 250 + rng.below(7);
            let (rings, covered) = row_stored(base, count, next);
            (rings, rng.pick(&[covered, next]))
        }
        _ => few_stored(rng, base, next),
    }
}

/// Stored rings at a limit, and one more that comes to it or passes it.
pub fn limit_stored(rng: &mut Rng, base: &Bar) -> (Vec<Ring>, Ring) {
    if rng.once_in(2) {
        return comb_stored(rng, base);
    }
    let next = ring(rng, base);
    let count = rng.pick(&[250, 253, 254, 255, 255, 256, 256]);
    let (rings, covered) = row_stored(base, count, next);
    // Beside the row, so that it is one ring more.
    let apart = at(base, [0., 1., 0.7, 0.8]);
    (rings, rng.pick(&[covered, apart, next]))
}

/// A comb that cuts the ring over the whole bar into about 256 pieces in hand, and that ring.
fn comb_stored(rng: &mut Rng, base: &Bar) -> (Vec<Ring>, Ring) {
    let (rings, whole) = about_the_limit(rng, base);
    (disjoint(base, rings), whole)
}

/// So many rings side by side, and one that they cover; where there is none, the next.
fn row_stored(base: &Bar, count: usize, next: Ring) -> (Vec<Ring>, Ring) {
    let rings = disjoint(base, side_by_side(base, count));
    let covered = rings.first().copied().unwrap_or(next);
    (rings, covered)
}

/// No ring or a few, and the next one, which may be covered.
pub fn few_stored(rng: &mut Rng, base: &Bar, next: Ring) -> (Vec<Ring>, Ring) {
    let count = rng.pick(&[0, 0, 1, 1, 2, 3, 4, 6, 10]);
    let rings = (0..count)
        .map(|_| ring(rng, base))
        .filter(nonempty)
        .collect();
    let rings = disjoint(base, rings);
    let covered = rings.first().copied().unwrap_or(next);
    let next = if rng.once_in(10) { covered } else { next };
    (rings, next)
}

pub fn nonempty(ring: &Ring) -> bool {
    ring[0] < ring[1] && ring[2] < ring[3]
}

/// The rings as lent with room for some more, now and then damaged.
fn damaged_store(rng: &mut Rng, base: &Bar, rings: &[Ring], more: usize) -> Store {
    let mut store = Store {
        rings: rings.as_flattened().to_vec(),
        count: rings.len(),
    };
    let len = store.rings.len();
    let k = rng.below(rings.len().max(1));
    if len > 0 {
        match rng.below(100) {
            0 => store.rings[rng.below(len)] = outside(rng),
            1 => store.rings[rng.below(len)] = -0.,
            2 => store.rings[rng.below(len)] = edge(rng),
            3 => store.rings.swap(4 * k, 4 * k + 1),
            4 => store.rings[4 * k + 1] = base.spec.z_max.next_up(),
            5 => store.rings[4 * k] = base.spec.z_min.next_down(),
            6 => store.rings[4 * k + 3] = base.spec.outer.next_up(),
            7 => store.rings[4 * k + 2] = -f64::from_bits(1),
            8 => store.rings[4 * k + 3] = store.rings[4 * k + 3].next_up(),
            9 => store.rings[4 * k + 1] = store.rings[4 * k + 1].next_up(),
            10 => store.rings[4 * k + 2] = store.rings[4 * k + 3],
            11 => {
                let again = store.rings[4 * k..4 * k + 4].to_vec();
                store.rings.extend(again);
                store.count += 1;
            }
            _ => {}
        }
    }
    let room = match rng.below(8) {
        0 => more,
        1 => more.saturating_sub(1),
        2 => 0,
        3 => 64,
        4 => MOST_RINGS + 44,
        _ => MOST_RINGS.saturating_sub(store.count),
    };
    let odd = rng.below(4);
    store.rings.extend((0..4 * room + odd).map(|_| any(rng)));
    let lent = store.rings.len() / 4;
    match rng.below(100) {
        0 => store.count = lent + 1,
        1 => store.count = rng.pick(&[usize::MAX, usize::MAX / 4 + 1, MOST_RINGS + 1]),
        2 => store.count = rng.below(store.count + 1),
        _ => {}
    }
    store
}

/// How many rings a ring adds to those stored.
fn added(base: &Bar, rings: &[Ring], next: &[Ring]) -> usize {
    let mut all = rings.to_vec();
    all.extend(next);
    disjoint(base, all).len().saturating_sub(rings.len())
}

/// Any finite edge in the place of one.
pub fn far_edge(rng: &mut Rng, ring: &mut Ring) {
    let k = rng.below(4);
    ring[k] = match rng.below(4) {
        0 => rng.pick(&[1e300, -1e300, f64::MAX, f64::MIN]),
        1 => -0.,
        2 => edge(rng),
        _ => rng.between(-1e7, 1e7),
    };
}

pub fn remove_ring(rng: &mut Rng) -> Call {
    let base = base(rng);
    let (rings, mut next) = stored_and_next(rng, &base);
    let more = added(&base, &rings, &[next]);
    match rng.below(40) {
        0 => next[rng.below(4)] = rng.pick(&[f64::NAN, f64::INFINITY, f64::NEG_INFINITY]),
        1 => next.swap(0, 1),
        2 => next.swap(2, 3),
        3 | 4 => far_edge(rng, &mut next),
        5 => next = [next[0], next[1], base.spec.outer, base.spec.outer + 1.],
        _ => {}
    }
    Call::RemoveRing {
        spec: damaged_spec(rng, &base),
        store: damaged_store(rng, &base, &rings, more),
        generation: generation(rng),
        ring: next,
    }
}

/// The rings of a move or of parts, now and then damaged.
pub fn damaged_rings(rng: &mut Rng, mut rings: Vec<Ring>) -> Vec<f64> {
    // now and then two are damaged, so that the first of them shows
    let times = if rng.once_in(20) { 2 } else { 1 };
    let often = if times == 2 { 5 } else { 40 };
    for _ in 0..if rings.is_empty() { 0 } else { times } {
        let k = rng.below(rings.len());
        let ring = &mut rings[k];
        match rng.below(often) {
            0 => ring[rng.below(4)] = rng.pick(&[f64::NAN, f64::INFINITY, f64::NEG_INFINITY]),
            1 => ring.swap(0, 1),
            2 => ring[3] = ring[2],
            3 => far_edge(rng, ring),
            4 => *ring = [-0., 0., 1., 2.],
            _ => {}
        }
    }
    let mut flat = rings.as_flattened().to_vec();
    match rng.below(80) {
        0 => flat.extend([1.; 3].iter().take(1 + rng.below(3))),
        1 => flat.truncate(flat.len().saturating_sub(1 + rng.below(3))),
        _ => {}
    }
    flat
}

pub fn apply_move(rng: &mut Rng) -> Call {
    let base = base_or_blocks(rng);
    let cells = patchy_cells(rng, &base);
    let changes = some_changes(rng, &base, &cells);
    let (rings, next) = stored_and_next(rng, &base);
    let mut removed = vec![];
    for _ in 0..rng.below(4) {
        removed.push(ring(rng, &base));
    }
    removed.retain(nonempty);
    if nonempty(&next) && rng.below(3) > 0 {
        removed.insert(rng.below(removed.len() + 1), next);
    }
    if rng.once_in(150) && !removed.is_empty() {
        // The list may be longer than a store: what is covered takes no room.
        removed.extend(vec![removed[0]; 254 + rng.below(5)]);
    }
    let more = added(&base, &rings, &removed);
    let stamp = stamp(rng);
    Call::ApplyMove {
        spec: damaged_spec(rng, &base),
        stamp,
        cells: damaged_cells(rng, &base, &cells),
        blocks: damaged_blocks(rng, &base, &cells),
        store: damaged_store(rng, &base, &rings, more),
        list: damaged_changes(rng, &base, changes, stamp),
        removed: damaged_rings(rng, removed),
    }
}

pub fn from_parts(rng: &mut Rng) -> Call {
    let base = base_or_blocks(rng);
    let cells = patchy_cells(rng, &base);
    let mut given = match rng.below(20) {
        0 => {
            let (mut rings, whole) = about_the_limit(rng, &base);
            rings.push(whole);
            rings
        }
        1 => (0..40 + rng.below(300)).map(|_| ring(rng, &base)).collect(),
        2 => side_by_side(&base, 254 + rng.below(5)),
        3 => vec![ring(rng, &base); 254 + rng.below(5)],
        _ => (0..rng.below(9)).map(|_| ring(rng, &base)).collect(),
    };
    given.retain(nonempty);
    let kept = added(&base, &[], &given);
    let room = match rng.below(6) {
        0 => kept,
        1 => kept.saturating_sub(1),
        2 => rng.pick(&[0, 64, 300]),
        _ => MOST_RINGS,
    };
    Call::FromParts {
        spec: damaged_spec(rng, &base),
        stamp: stamp(rng),
        cells: damaged_cells(rng, &base, &cells),
        blocks: any_blocks(rng, &base, &cells),
        given: damaged_rings(rng, given),
        rings_len: 4 * room + rng.below(4),
    }
}

pub fn volume(rng: &mut Rng) -> Call {
    let base = base(rng);
    let cells = good_cells(rng, &base);
    let (rings, _) = stored_and_next(rng, &base);
    Call::Volume {
        spec: damaged_spec(rng, &base),
        cells: damaged_cells(rng, &base, &cells),
        store: damaged_store(rng, &base, &rings, 0),
    }
}
