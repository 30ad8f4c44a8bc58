//! Inserts against envelopes: polygons on breakpoints, beside them by the tolerance, and past both ends.
use super::Rng;
use super::envelope::{gridded, place, points};
use super::numbers::{damaged, edge, outside};
use crate::call::Call;
use crate::oracle::{MILLION, MOST_POINTS};

/// An envelope. A long one has an order, and few of its points stand at one u: else each query looks at
/// many of them, and there are as many queries as points and candidates.
fn chain(rng: &mut Rng) -> Vec<[f64; 2]> {
    let grid = rng.below(3) == 0;
    let mut list = if grid { gridded(rng) } else { points(rng) };
    let up = list.is_sorted_by(|p, q| p[0] <= q[0]);
    let down = list.is_sorted_by(|p, q| p[0] >= q[0]);
    let long = (up || down) && !grid && rng.once_in(50) && !(up && down);
    if list.len() > 24 && !long {
        list.truncate(2 + rng.below(23));
    }
    list
}

fn tolerance(rng: &mut Rng) -> f64 {
    match rng.below(12) {
        0 | 1 => 0.,
        2 => f64::from_bits(1 + rng.below(3) as u64),
        3 => MILLION,
        4 => rng.written(0., 30.),
        5..8 => rng.pick(&[0.05, 0.1, 0.5, 1.]),
        _ => rng.written(0., 2.),
    }
}

/// A u where something changes: at a place of the envelope, by the tolerance beside it, or one ulp from that.
fn corner(rng: &mut Rng, list: &[[f64; 2]], t: f64) -> f64 {
    let u = place(rng, list);
    let u = match rng.below(8) {
        0 => u + t,
        1 => u - t,
        2 => (u + t).next_up(),
        3 => (u - t).next_down(),
        4 => rng.written(-30., 30.),
        _ => u,
    };
    u.clamp(-MILLION, MILLION)
}

fn polygon(rng: &mut Rng, list: &[[f64; 2]], t: f64) -> Vec<[f64; 2]> {
    let count = match rng.below(40) {
        0 => 0,
        1 | 2 => 1,
        3 | 4 => 2,
        5 => MOST_POINTS,
        6 => MOST_POINTS + rng.below(2),
        _ => 3 + rng.below(4),
    };
    let mut made = vec![];
    for _ in 0..count {
        let u = corner(rng, list, t);
        let v = match rng.below(8) {
            0 => edge(rng),
            1 => rng.pick(&[0., -0., 1., 2., 3., 4., 5., -1.]),
            2 if !list.is_empty() => list[rng.below(list.len())][1],
            _ => rng.written(-5., 20.),
        };
        made.push([u, v]);
    }
    if rng.once_in(20) {
        made = vec![made.first().copied().unwrap_or([0., 0.]); made.len()];
    }
    made
}

fn damage(rng: &mut Rng, numbers: &mut Vec<f64>) {
    let len = numbers.len();
    match rng.below(80) {
        0 => numbers.push(1.),
        1 => drop(numbers.pop()),
        2 if len > 0 => numbers[rng.below(len)] = outside(rng),
        3 if len > 0 => numbers[rng.below(len)] = -0.,
        _ => {}
    }
}

pub fn insert_call(rng: &mut Rng) -> Call {
    let list = chain(rng);
    let t = tolerance(rng);
    let insert = polygon(rng, &list, t);
    let u = corner(rng, &list, t);
    let (u, tolerance) = (damaged(rng, u), damaged(rng, t));
    let mut points = list.as_flattened().to_vec();
    let mut polygon = insert.as_flattened().to_vec();
    damage(rng, &mut points);
    damage(rng, &mut polygon);
    match rng.below(5) {
        0 => Call::Eroded {
            points,
            u,
            tolerance,
        },
        1 | 2 => Call::Excess {
            points,
            polygon,
            tolerance,
        },
        _ => Call::Penetration {
            points,
            polygon,
            tolerance,
        },
    }
}
