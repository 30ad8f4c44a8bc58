//! Rings, moves, stocks from their parts, volumes.
use super::{bar_of, kept_of, lent, pair};
use crate::bench::library_sides;
use crate::bench::queries;
use crate::bench::rows::spec;
use crate::bench::time::{Sides, side};
use crate::call::{Call, List, Spec, Stamp};
use crate::generate::Rng;
use crate::oracle::stock::{Bar, bar, camlib_spec, camlib_stock, fresh, to_camlib};
use plain::turning::stock::TurnStock;
use std::hint::black_box;

/// So many stored rings in a row on a bar of 8 bins, and one more that may be empty after clipping.
fn ring(stored: usize, ring: [f64; 4]) -> Sides<'static> {
    ring_of(&bar(&spec(8, 10., 0.)).unwrap(), stored, ring)
}

/// The same on any fresh bar.
pub fn ring_of(bar: &Bar, stored: usize, ring: [f64; 4]) -> Sides<'static> {
    let kept = queries::row_of_rings(bar, stored);
    let stock = camlib_stock(bar, &fresh(bar), &kept);
    let [z0, z1, r0, r1] = ring;
    let go = move || {
        let mut stock = stock.clone();
        stock.remove_ring(black_box([z0, z1]), [r0, r1]);
        stock
    };
    let call = Call::RemoveRing {
        spec: bar.spec,
        store: queries::store(&kept),
        generation: 0,
        ring,
    };
    pair(go, call)
}

/// A ring that meets none of those stored.
pub fn remove_ring(stored: usize) -> Sides<'static> {
    ring(stored, [0., 1., 6., 7.])
}

/// So many rings anywhere on a bar, of a fiftieth to a fifth of its length and of its radius.
fn scattered(spec: &Spec, count: usize) -> Vec<[f64; 4]> {
    let mut rng = Rng::new(1);
    let mut part = |whole: f64| {
        let size = rng.between(0.02, 0.2) * whole;
        let start = rng.between(0., whole - size);
        [start, start + size]
    };
    (0..count)
        .map(|_| {
            let ([z0, z1], [r0, r1]) = (part(spec.z_max), part(spec.outer));
            [z0, z1, r0, r1]
        })
        .collect()
}

/// So many rings anywhere, some over others, removed one by one from a bar without rings: all calls are
/// one row.
pub fn rings_in_turn(count: usize) -> Sides<'static> {
    let bar = bar(&spec(8, 10., 0.)).unwrap();
    let rings = scattered(&bar.spec, count);
    let stock = camlib_stock(&bar, &fresh(&bar), &[]);
    let call = |ring: &[f64; 4]| Call::RemoveRing {
        spec: bar.spec,
        store: queries::store(&[]),
        generation: 0,
        ring: *ring,
    };
    let calls: Vec<Call> = rings.iter().map(call).collect();
    let go = move || {
        let mut stock = stock.clone();
        for [z0, z1, r0, r1] in black_box(&rings) {
            stock.remove_ring([*z0, *z1], [*r0, *r1]);
        }
        stock
    };
    [side(1, go), None, library_sides(calls)]
}

/// A ring that is empty after clipping: of the library, the checks 1, 2, 4, 10 alone.
pub fn remove_nothing(stored: usize) -> Sides<'static> {
    let bar = bar(&spec(8, 10., 0.)).unwrap();
    let mut stock = camlib_stock(&bar, &fresh(&bar), &queries::row_of_rings(&bar, stored));
    let mut sides = ring(stored, [0., 1., 10., 11.]);
    // Nothing is changed, so camlib needs no clone.
    sides[0] = side(1, move || {
        stock.remove_ring(black_box([0., 1.]), [10., 11.]);
    });
    sides
}

/// No change, and three rings that meet none of those stored.
pub fn apply_move(stored: usize) -> Sides<'static> {
    let bar = bar(&spec(8, 10., 0.)).unwrap();
    let kept = queries::row_of_rings(&bar, stored);
    let stock = camlib_stock(&bar, &fresh(&bar), &kept);
    let removed = [[0., 1., 6., 7.], [0., 1., 7., 8.], [0., 1., 1., 2.]];
    let room = 256 - stored;
    let removed = removed[..room.min(3)].to_vec();
    let flat = removed.as_flattened().to_vec();
    let go = move || {
        let mut stock = stock.clone();
        stock.apply_move(&[], black_box(&removed)).unwrap();
        stock
    };
    let call = Call::ApplyMove {
        spec: bar.spec,
        stamp: Stamp::default(),
        cells: lent(&bar),
        blocks: kept_of(&bar),
        store: queries::store(&kept),
        list: List::default(),
        removed: flat,
    };
    pair(go, call)
}

/// So many rings apart.
pub fn from_parts(rings: usize) -> Sides<'static> {
    let bar = bar(&spec(8, 10., 0.)).unwrap();
    let given = queries::row_of_rings(&bar, rings);
    let flat = given.as_flattened().to_vec();
    let cells: Vec<_> = fresh(&bar).iter().map(to_camlib).collect();
    let go = move || TurnStock::from_parts(camlib_spec(&bar.spec), cells.clone(), given.clone());
    let call = Call::FromParts {
        spec: bar.spec,
        stamp: Stamp::default(),
        cells: lent(&bar),
        blocks: kept_of(&bar),
        given: flat,
        rings_len: 1024,
    };
    pair(go, call)
}

fn volume(bins: usize, rings: usize) -> Sides<'static> {
    let bar = bar_of(bins);
    let kept = queries::row_of_rings(&bar, rings);
    let stock = camlib_stock(&bar, &fresh(&bar), &kept);
    let go = move || black_box(&stock).volume();
    let call = Call::Volume {
        spec: bar.spec,
        cells: lent(&bar),
        store: queries::store(&kept),
    };
    pair(go, call)
}

/// No rings.
pub fn volume_bins(bins: usize) -> Sides<'static> {
    volume(bins, 0)
}

/// Over 64 bins.
pub fn volume_rings(rings: usize) -> Sides<'static> {
    volume(64, rings)
}
