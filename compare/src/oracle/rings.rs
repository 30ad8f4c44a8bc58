//! Rings, moves, rebuilding.
//!
//! camlib bounds neither the pieces nor the store, so 11 is decided here, on pieces counted by 01's
//! steps. Then camlib does the work, and its rings must be the ones counted.
use super::changes::{acceptable, lent_changes, of_this_stock};
use super::ranges::{self, blocks, kept};
use super::stock::{Bar, bar, camlib_stock, cells, change_to_camlib, fresh, from_camlib};
use super::{GENERATION, MOST_PIECES, MOST_RINGS, PIECES, RING, STORED};
use super::{clean, demand, demand_at, storable};
use crate::call::{Answer, List, Outcome, Reason, Spec, Stamp, Store};

/// A ring is z0, z1, r0, r1.
type Ring = [f64; 4];

/// How many rings the lent numbers have room for.
fn room(rings_len: usize) -> usize {
    (rings_len / 4).min(MOST_RINGS)
}

fn empty(ring: &Ring) -> bool {
    ring[1] <= ring[0] || ring[3] <= ring[2]
}

/// The part of `a` that lies in `b`.
fn common(a: &Ring, b: &Ring) -> Ring {
    [
        a[0].max(b[0]),
        a[1].min(b[1]),
        a[2].max(b[2]),
        a[3].min(b[3]),
    ]
}

/// 4: the stored rings.
pub fn stored(bar: &Bar, store: &Store) -> Result<Vec<Ring>, Reason> {
    demand(store.count <= room(store.rings.len()), STORED)?;
    let (rings, _) = store.rings.as_chunks::<4>();
    let rings = &rings[..store.count];
    for (k, ring) in rings.iter().enumerate() {
        demand(ring.iter().all(|x| storable(*x)), STORED)?;
        demand(!empty(ring), STORED)?;
        demand(
            bar.spec.z_min <= ring[0] && ring[1] <= bar.spec.z_max,
            STORED,
        )?;
        demand(0. <= ring[2] && ring[3] <= bar.spec.outer, STORED)?;
        let apart = |other: &Ring| empty(&common(ring, other));
        demand(rings[..k].iter().all(apart), STORED)?;
    }
    Ok(rings.to_vec())
}

/// 10 for a move or parts: finite and not empty as given, at the first that is not; after them at the
/// one broken off, where the numbers end within a ring.
fn given_rings(numbers: &[f64]) -> Result<Vec<Ring>, Reason> {
    let (rings, broken_off) = numbers.as_chunks::<4>();
    for (k, ring) in rings.iter().enumerate() {
        demand_at(ring.iter().all(|x| x.is_finite()), RING, k)?;
        demand_at(!empty(ring), RING, k)?;
    }
    demand_at(broken_off.is_empty(), RING, rings.len())?;
    Ok(rings.iter().map(|r| r.map(clean)).collect())
}

/// The ring within the stock's extent; it may be empty.
fn clip(bar: &Bar, ring: &Ring) -> Ring {
    common(ring, &[bar.spec.z_min, bar.spec.z_max, 0., bar.spec.outer])
}

/// What one stored ring leaves of the pieces, in 000's order.
fn less(pieces: &[Ring], ring: &Ring) -> Vec<Ring> {
    let mut left = vec![];
    for p in pieces {
        let c = common(p, ring);
        if empty(&c) {
            left.push(*p);
            continue;
        }
        let parts = [
            [p[0], c[0], p[2], p[3]],
            [c[1], p[1], p[2], p[3]],
            [c[0], c[1], p[2], c[2]],
            [c[0], c[1], c[3], p[3]],
        ];
        left.extend(parts.iter().filter(|q| !empty(q)));
    }
    left
}

/// 11: stores what is left of the ring, where neither the pieces in hand nor the room run over. Tells how
/// many tests that took: each stored ring is tested against the pieces in hand before it.
fn store_ring(rings: &mut Vec<Ring>, room: usize, bar: &Bar, ring: &Ring) -> Result<usize, Reason> {
    let clipped = clip(bar, ring);
    if empty(&clipped) {
        return Ok(0);
    }
    let mut pieces = vec![clipped];
    let mut tests = 0;
    for stored in rings.iter() {
        tests += pieces.len();
        pieces = less(&pieces, stored);
        demand(pieces.len() <= MOST_PIECES, PIECES)?;
    }
    demand(rings.len() + pieces.len() <= room, PIECES)?;
    rings.extend(pieces);
    Ok(tests)
}

/// Rings as they are stored, held against the ones that were counted.
fn agreed(camlib: &[Ring], counted: &[Ring]) -> Vec<Ring> {
    assert_eq!(camlib, counted, "camlib's rings are those counted");
    camlib.iter().map(|r| r.map(clean)).collect()
}

/// 1, 2, 4, 10, 12, 11; what is empty after clipping skips 12 and 11.
pub fn remove_ring(spec: &Spec, store: &Store, generation: u64, ring: Ring) -> Outcome {
    let bar = bar(spec)?;
    let rings = stored(&bar, store)?;
    demand_at(ring.iter().all(|x| x.is_finite()), RING, 0)?;
    let ring = ring.map(clean);
    if empty(&clip(&bar, &ring)) {
        return Ok(Answer::Stock(vec![], vec![], rings, generation, vec![0]));
    }
    demand(generation < u64::MAX, GENERATION)?;
    let mut counted = rings.clone();
    let tests = store_ring(&mut counted, room(store.rings.len()), &bar, &ring)?;
    let mut stock = camlib_stock(&bar, &fresh(&bar), &rings);
    stock.remove_ring([ring[0], ring[1]], [ring[2], ring[3]]);
    let rings = agreed(stock.rings(), &counted);
    let generation = generation + stock.generation();
    let tests = vec![tests];
    Ok(Answer::Stock(vec![], vec![], rings, generation, tests))
}

/// 1, 2, 3, 6 for changes beyond what is lent, 4, 19, 20, 10, 7, 8/21/22/23, 12, 11.
pub fn apply_move(
    spec: &Spec,
    stamp: Stamp,
    lent: &[f64],
    lent_blocks: &[f64],
    store: &Store,
    list: &List,
    removed: &[f64],
) -> Outcome {
    let bar = bar(spec)?;
    let cells = cells(&bar, lent)?;
    let changes = lent_changes(list)?;
    let rings = stored(&bar, store)?;
    of_this_stock(stamp, list)?;
    kept(&bar, &cells, lent_blocks)?;
    let removed = given_rings(removed)?;
    acceptable(&bar, &cells, &changes)?;
    let steps = 1 + removed.iter().filter(|r| !empty(&clip(&bar, r))).count() as u64;
    demand(stamp.generation <= u64::MAX - steps, GENERATION)?;
    let mut counted = rings.clone();
    let mut tests = vec![];
    for ring in &removed {
        let room = room(store.rings.len());
        tests.push(store_ring(&mut counted, room, &bar, ring)?);
    }
    let mut stock = camlib_stock(&bar, &cells, &rings);
    let changes: Vec<_> = changes.iter().map(change_to_camlib).collect();
    stock.apply_move(&changes, &removed).unwrap();
    assert_eq!(stock.generation(), steps);
    let cells: Vec<_> = stock.cells().iter().map(from_camlib).collect();
    let renewed = blocks(&bar, &cells);
    let rings = agreed(stock.rings(), &counted);
    let generation = stamp.generation + steps;
    Ok(Answer::Stock(cells, renewed, rings, generation, tests))
}

/// 1, 2, 3, 20 for the count alone, 10, 11.
pub fn from_parts(
    spec: &Spec,
    lent: &[f64],
    lent_blocks: &[f64],
    given: &[f64],
    rings_len: usize,
) -> Outcome {
    let bar = bar(spec)?;
    let cells = cells(&bar, lent)?;
    ranges::counted(&bar, lent_blocks.len())?;
    let given = given_rings(given)?;
    let mut counted = vec![];
    let mut tests = vec![];
    for ring in &given {
        tests.push(store_ring(&mut counted, room(rings_len), &bar, ring)?);
    }
    let camlib = plain::turning::stock::TurnStock::from_parts(
        super::stock::camlib_spec(&bar.spec),
        cells.iter().map(super::stock::to_camlib).collect(),
        given,
    )
    .unwrap();
    let own = blocks(&bar, &cells);
    let rings = agreed(camlib.rings(), &counted);
    let generation = camlib.generation();
    Ok(Answer::Stock(cells, own, rings, generation, tests))
}
