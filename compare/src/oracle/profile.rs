//! Arcs in a profile: Req 07 of 02 a second time, with the processor's root. camlib has no halving.
use super::numbers::length;
use super::{CHORDS, MOST_PROFILE_POINTS, PROFILE, clean, demand, usable};
use crate::call::Reason;

/// How often an arc is halved.
const HALVINGS: u32 = 10;

/// A point (radius, z, bulge).
pub type Point = [f64; 3];

/// The points of a profile that is not refused with 17, -0.0 read as +0.0.
pub fn points(numbers: &[f64], tolerance: f64) -> Result<Vec<Point>, Reason> {
    demand(usable(tolerance) && tolerance >= 0., PROFILE)?;
    let (points, rest) = numbers.as_chunks::<3>();
    demand(rest.is_empty(), PROFILE)?;
    demand((2..=MOST_PROFILE_POINTS).contains(&points.len()), PROFILE)?;
    demand(numbers.iter().all(|x| usable(*x)), PROFILE)?;
    let points: Vec<Point> = points.iter().map(|p| p.map(clean)).collect();
    let good = |p: &Point| p[0] >= 0. && p[2].abs() <= 1.;
    demand(points.iter().all(good), PROFILE)?;
    let apart = |w: &[Point]| length(w[1][1] - w[0][1], w[1][0] - w[0][0]).is_ok_and(|l| l > 1e-9);
    demand(points.windows(2).all(apart), PROFILE)?;
    Ok(points)
}

/// How far the arc from a to b, in (r, z), strays from its chord.
pub fn sag(a: [f64; 2], b: [f64; 2], bulge: f64) -> f64 {
    let long = length(b[1] - a[1], b[0] - a[0]).expect("the ends are finite");
    bulge.abs() * (long / 2.)
}

/// The chords of an arc behind those that there are, as long as there is room.
fn chop(
    a: [f64; 2],
    b: [f64; 2],
    bulge: f64,
    tolerance: f64,
    levels: u32,
    room: usize,
    chords: &mut Vec<[f64; 5]>,
) -> Result<(), Reason> {
    let sag = sag(a, b, bulge);
    if sag <= tolerance {
        demand(chords.len() < room, CHORDS)?;
        chords.push([a[0], a[1], b[0], b[1], sag]);
        return Ok(());
    }
    demand(levels > 0, CHORDS)?;
    let [dr, dz] = [b[0] - a[0], b[1] - a[1]];
    let h = bulge / 2.;
    let middle = [
        clean((a[0] + b[0]) / 2. + h * -dz),
        clean((a[1] + b[1]) / 2. + h * dr),
    ];
    let half = bulge / (1. + (1. + bulge * bulge).sqrt());
    chop(a, middle, half, tolerance, levels - 1, room, chords)?;
    chop(middle, b, half, tolerance, levels - 1, room, chords)
}

/// The chords of a profile: 17, then 18.
pub fn segments(numbers: &[f64], tolerance: f64, lent: usize) -> Result<Vec<[f64; 5]>, Reason> {
    let points = points(numbers, tolerance)?;
    let mut chords = vec![];
    for w in points.windows(2) {
        let ([a, b], bulge) = ([[w[0][0], w[0][1]], [w[1][0], w[1][1]]], w[0][2]);
        chop(
            a,
            b,
            bulge,
            clean(tolerance),
            HALVINGS,
            lent / 5,
            &mut chords,
        )?;
    }
    Ok(chords)
}
