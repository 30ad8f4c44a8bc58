//! Envelopes of points.
use super::pair;
use crate::bench::time::Sides;
use crate::call::Call;
use length::turning::profile as opened;
use plain::turning::profile::Envelope;
use std::hint::black_box;

/// So many points that rise, and a range about their middle.
fn rising(points: usize) -> (Vec<[f64; 2]>, f64, f64) {
    let point = |k: usize| [k as f64 * 0.25, 20. + (k as f64 * 0.1).sin()];
    let middle = (points - 1) as f64 * 0.125;
    let list = (0..points).map(point).collect();
    (list, middle * 0.99, middle * 1.01)
}

pub fn envelope_order(points: usize) -> Sides<'static> {
    let (list, ..) = rising(points);
    let points = list.as_flattened().to_vec();
    let go = move || Envelope::new(black_box(&list).clone());
    pair(go, Call::EnvelopeOrder { points })
}

/// The Rust's: an envelope is made, and then asked.
pub fn within(points: usize) -> Sides<'static> {
    let (list, lo, hi) = rising(points);
    let points = list.as_flattened().to_vec();
    let go = move || opened::Envelope::new(black_box(&list).clone()).within(lo, hi);
    pair(go, Call::Within { points, lo, hi })
}

pub fn radius_at(points: usize) -> Sides<'static> {
    let (list, u, _) = rising(points);
    let points = list.as_flattened().to_vec();
    let made = Envelope::new(list);
    let go = move || black_box(&made).radius_at(black_box(u));
    pair(go, Call::RadiusAt { points, u })
}

pub fn radius_range(points: usize) -> Sides<'static> {
    let (list, lo, hi) = rising(points);
    let points = list.as_flattened().to_vec();
    let made = Envelope::new(list);
    let go = move || black_box(&made).radius_range(black_box(lo), hi);
    pair(go, Call::RadiusRange { points, lo, hi })
}

/// As many points, the first two changed about, so that they have no order.
fn in_no_order(points: usize) -> (Vec<[f64; 2]>, f64, f64) {
    let (mut list, lo, hi) = rising(points);
    list.swap(0, 1);
    (list, lo, hi)
}

pub fn radius_at_no_order(points: usize) -> Sides<'static> {
    let (list, u, _) = in_no_order(points);
    let points = list.as_flattened().to_vec();
    let made = Envelope::new(list);
    let go = move || black_box(&made).radius_at(black_box(u));
    pair(go, Call::RadiusAt { points, u })
}

pub fn radius_range_no_order(points: usize) -> Sides<'static> {
    let (list, lo, hi) = in_no_order(points);
    let points = list.as_flattened().to_vec();
    let made = Envelope::new(list);
    let go = move || black_box(&made).radius_range(black_box(lo), hi);
    pair(go, Call::RadiusRange { points, lo, hi })
}

/// A square insert of so many points over the middle of as many that rise.
fn insert(points: usize, count: usize) -> (Vec<[f64; 2]>, Vec<[f64; 2]>) {
    let (list, lo, hi) = rising(points);
    let side = |k: usize| (k as f64 / count as f64 * 4.).fract();
    let corner = |k: usize| match 4 * k / count {
        0 => [lo + (hi - lo) * side(k), 18.],
        1 => [hi, 18. + 6. * side(k)],
        2 => [hi - (hi - lo) * side(k), 24.],
        _ => [lo, 24. - 6. * side(k)],
    };
    (list, (0..count).map(corner).collect())
}

pub fn excess(points: usize) -> Sides<'static> {
    let (list, polygon) = insert(points, if points < 64 { 4 } else { 64 });
    let call = Call::Excess {
        points: list.as_flattened().to_vec(),
        polygon: polygon.as_flattened().to_vec(),
        tolerance: 0.05,
    };
    let made = Envelope::new(list);
    pair(
        move || black_box(&made).excess(black_box(&polygon), 0.05),
        call,
    )
}

pub fn penetration(points: usize) -> Sides<'static> {
    let (list, polygon) = insert(points, if points < 64 { 4 } else { 64 });
    let call = Call::Penetration {
        points: list.as_flattened().to_vec(),
        polygon: polygon.as_flattened().to_vec(),
        tolerance: 0.05,
    };
    let made = Envelope::new(list);
    pair(
        move || black_box(&made).penetration(black_box(&polygon), 0.05),
        call,
    )
}

pub fn eroded(points: usize) -> Sides<'static> {
    let (list, u, _) = rising(points);
    let points = list.as_flattened().to_vec();
    let made = opened::Envelope::new(list);
    let go = move || black_box(&made).eroded(black_box(u), 0.05);
    pair(
        go,
        Call::Eroded {
            points,
            u,
            tolerance: 0.05,
        },
    )
}
