//! Profiles: arcs of shop size, coarse places near a million, tiny bulges, tolerances at a sag's own bits, and damage.
use super::Rng;
use super::cuts::damaged_list;
use super::numbers::{damaged, edge, outside};
use crate::call::Call;
use crate::oracle::profile::{Point, sag, segments};
use crate::oracle::{MILLION, MOST_PROFILE_POINTS};

/// Rooms for more chords are rare: a profile may have 261,120.
const OFTEN: usize = 600;

/// How many points.
fn count(rng: &mut Rng) -> usize {
    match rng.below(200) {
        0 => MOST_PROFILE_POINTS,
        1 => MOST_PROFILE_POINTS + 1,
        2 => MOST_PROFILE_POINTS - 1,
        3 => rng.below(MOST_PROFILE_POINTS),
        4 => 1,
        5 => 0,
        _ => 2 + rng.below(4),
    }
}

/// A bulge from -1 to 1.
fn bulge(rng: &mut Rng) -> f64 {
    let x = match rng.below(12) {
        0 => rng.pick(&[0., -0.]),
        1 => 1.,
        2 => rng.pick(&[f64::from_bits(1), f64::from_bits(2), f64::from_bits(3)]),
        3 => rng.pick(&[f64::MIN_POSITIVE, 1e-300, 1e-160, 1e-17, 1e-9]),
        4 => 1_f64.next_down(),
        5 => edge(rng).abs().min(1.),
        6 => rng.written(0., 1.),
        _ => rng.between(0., 1.),
    };
    if rng.once_in(2) { -x } else { x }
}

/// The place after p: somewhere, or near it, or hardly apart.
fn next(rng: &mut Rng, p: Point, coarse: bool) -> Point {
    let [r, z, _] = p;
    let [r, z] = match rng.below(60) {
        0 => [r, z + 1e-9],
        1 => [r, z + rng.pick(&[1e-9_f64.next_up(), 1.2e-9, 2e-9])],
        2 => [r + rng.between(0., 1e-8), z],
        3 => [r, z],
        4..10 => [r, z + rng.written(-10., 10.)],
        10..16 => [rng.written(0., 50.), z],
        16..20 => [rng.pick(&[0., -0.]), z + 1.],
        _ if coarse => [
            r + rng.between(-8., 8.).round() * 2_f64.powi(-30),
            z + rng.between(-8., 8.).round() * 2_f64.powi(-33),
        ],
        _ => [rng.written(0., 50.), z + rng.between(-20., 20.)],
    };
    [r.clamp(0., MILLION), z.clamp(-MILLION, MILLION), bulge(rng)]
}

fn points(rng: &mut Rng) -> Vec<Point> {
    let coarse = rng.once_in(5);
    let mut p = match rng.below(10) {
        _ if coarse => [
            MILLION - rng.between(0., 9.).round() * 2_f64.powi(-30),
            rng.pick(&[1., -1.]) * (MILLION - rng.between(0., 9.)),
            bulge(rng),
        ],
        0 => [0., rng.pick(&[0., -0., -f64::from_bits(1)]), bulge(rng)],
        1 => [
            rng.between(0., MILLION),
            rng.between(-MILLION, MILLION),
            bulge(rng),
        ],
        _ => [rng.written(0., 50.), rng.written(-40., 40.), bulge(rng)],
    };
    let mut list = vec![];
    for _ in 0..count(rng) {
        list.push(p);
        p = next(rng, p, coarse);
    }
    list
}

/// A tolerance that leaves few chords or many, or is a sag's own bits or one beside: of a whole arc, or of a half by
/// the oracle.
fn tolerance(rng: &mut Rng, list: &[Point]) -> f64 {
    let k = rng.below(list.len().max(2) - 1);
    let Some(w) = list.get(k..k + 2) else {
        return rng.written(0., 1.);
    };
    let whole = sag([w[0][0], w[0][1]], [w[1][0], w[1][1]], w[0][2]);
    let beside = |rng: &mut Rng, x: f64| match rng.below(3) {
        0 => x.next_up(),
        1 => x.next_down().max(0.),
        _ => x,
    };
    match rng.below(10) {
        0 if rng.once_in(3) => rng.pick(&[0., -0.]),
        1 => beside(rng, whole),
        2..5 => {
            // A chord of the halved arc tells the tolerance.
            let part = whole * rng.pick(&[0.3, 0.07, 0.02, 0.001]);
            let flat: Vec<f64> = w.as_flattened().to_vec();
            match segments(&flat, part.min(MILLION), 5 * OFTEN) {
                Ok(chords) => {
                    let sag = chords[rng.below(chords.len())][4];
                    beside(rng, sag)
                }
                Err(_) => rng.written(0., 1.),
            }
        }
        5 => whole * rng.pick(&[2_f64.powi(-20), 2_f64.powi(-18), 2_f64.powi(-9)]),
        6 => rng.between(0., 0.01),
        7 if rng.once_in(3) => edge(rng).abs(),
        _ => rng.between(0., 1.),
    }
}

/// As much room as the chords need, one short, or more.
fn room(rng: &mut Rng, points: &[f64], tolerance: f64) -> usize {
    let most = if rng.once_in(300) { 16 * OFTEN } else { OFTEN };
    let needs = match segments(points, tolerance, 5 * most) {
        Ok(chords) => 5 * chords.len(),
        Err(_) => 5 * rng.below(20),
    };
    match rng.below(24) {
        0..4 => needs,
        4 => needs.saturating_sub(1),
        5 => needs + 4,
        6 => rng.below(needs + 6),
        7 => rng.pick(&[0, 4, 5]),
        _ => needs + rng.below(30),
    }
}

pub fn segments_call(rng: &mut Rng) -> Call {
    let list = points(rng);
    let tolerance = tolerance(rng, &list);
    let mut numbers = damaged_list(rng, list.as_flattened().to_vec());
    if rng.once_in(40) && !numbers.is_empty() {
        // A bulge, the last one too.
        let k = rng.below(numbers.len() / 3 + 1);
        let at = (3 * k + 2).min(numbers.len() - 1);
        let far = outside(rng);
        numbers[at] = rng.pick(&[1., -1., 1_f64.next_up(), -1_f64.next_up(), 1000., far]);
    }
    let tolerance = damaged(rng, tolerance);
    Call::Segments {
        segments_len: room(rng, &numbers, tolerance),
        points: numbers,
        tolerance,
    }
}
