//! Envelopes of profiles and queries of them.
use super::Rng;
use super::numbers::{damaged, edge, outside};
use crate::call::Call;
use crate::oracle::{MILLION, MOST_ENVELOPE_POINTS};

/// How many points.
fn count(rng: &mut Rng) -> usize {
    match rng.below(40) {
        0 => MOST_ENVELOPE_POINTS - rng.below(2),
        1 => MOST_ENVELOPE_POINTS + 1,
        2 => rng.below(MOST_ENVELOPE_POINTS),
        3 => 0,
        4 => 1,
        _ => 2 + rng.below(9),
    }
}

/// 1 for u that rises, -1 for u that falls, else either.
fn sign(rng: &mut Rng, way: usize) -> f64 {
    match way {
        0 | 1 => 1.,
        2 | 3 => -1.,
        _ => rng.pick(&[1., -1.]),
    }
}

/// Points (u, radius) whose u rises, falls, or does neither, with some repeated.
pub fn points(rng: &mut Rng) -> Vec<[f64; 2]> {
    let count = count(rng);
    let way = rng.below(5);
    let mut u = rng.written(-20., 20.);
    let mut radius = rng.written(0., 20.);
    let mut list = vec![];
    for _ in 0..count {
        list.push([u, radius]);
        let size = match rng.below(4) {
            0 => 0.,
            1 => rng.pick(&[1., 0.5, 2.]),
            _ => rng.between(0., 3.),
        };
        u += sign(rng, way) * size;
        radius = match rng.below(6) {
            0 => radius,
            1 => edge(rng),
            2 => rng.written(0., 20.),
            _ => rng.between(-2., 20.),
        };
    }
    if rng.once_in(12) {
        list.iter_mut().for_each(|p| p[0] = 3.);
    }
    if rng.once_in(12) && !list.is_empty() {
        let k = rng.below(list.len());
        list[k][0] = edge(rng);
    }
    list
}

/// Points whose u stand at nine places, so that most are met again by a query: about 0, of any size
/// from the least number above 0 to the edges of the domain.
pub fn gridded(rng: &mut Rng) -> Vec<[f64; 2]> {
    let least = f64::from_bits(1);
    let unit = rng.pick(&[
        1.,
        0.5,
        0.1,
        MILLION / 4.,
        f64::MIN_POSITIVE,
        3. * least,
        least,
    ]);
    let count = count(rng).min(MOST_ENVELOPE_POINTS);
    let way = rng.below(6);
    let mut place = if way < 4 { -4. * sign(rng, way) } else { 0. };
    let mut list = vec![];
    for _ in 0..count {
        let zero = rng.pick(&[0., -0.]);
        let u = if place == 0. { zero } else { place * unit };
        let radius = rng.pick(&[0., -0., 1., 2., 3., 4., 5., -1., MILLION]);
        list.push([u, radius]);
        let step = rng.pick(&[0., 0., 1., 1., 2.]);
        place = (place + sign(rng, way) * step).clamp(-4., 4.);
    }
    list
}

/// A u at a point, between two, beside one, or past the ends.
pub fn place(rng: &mut Rng, points: &[[f64; 2]]) -> f64 {
    let Some(last) = points.len().checked_sub(1) else {
        return rng.written(-5., 5.);
    };
    let k = rng.below(last + 1);
    let (p, next) = (points[k][0], points[last.min(k + 1)][0]);
    let q = points[rng.below(last + 1)][0];
    let u = match rng.below(10) {
        0..3 => p,
        3 => p.next_up(),
        4 => p.next_down(),
        5 => rng.written(-25., 25.),
        6 | 7 => rng.between(p.min(next), p.max(next)),
        _ => rng.between(p.min(q), p.max(q)),
    };
    u.clamp(-MILLION, MILLION)
}

pub fn envelope_call(rng: &mut Rng) -> Call {
    let list = match rng.below(3) {
        0 => gridded(rng),
        _ => points(rng),
    };
    let (a, b) = (place(rng, &list), place(rng, &list));
    let (lo, hi) = match rng.below(8) {
        0 => (a.max(b), a.min(b)),
        1 => (a, a),
        _ => (a.min(b), a.max(b)),
    };
    let (lo, hi) = (damaged(rng, lo), damaged(rng, hi));
    let mut points = list.as_flattened().to_vec();
    let len = points.len();
    match rng.below(60) {
        0 => points.push(1.),
        1 => drop(points.pop()),
        2 if len > 0 => points[rng.below(len)] = outside(rng),
        3 if len > 0 => points[rng.below(len)] = -0.,
        _ => {}
    }
    match rng.below(7) {
        0 => Call::EnvelopeOrder { points },
        1 | 2 => Call::Within { points, lo, hi },
        3 | 4 => Call::RadiusAt { points, u: lo },
        _ => Call::RadiusRange { points, lo, hi },
    }
}
