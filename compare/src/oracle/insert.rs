//! Whether an insert touches: 14, or an answer. Where camlib gives minus infinity nothing touches, and
//! so with a polygon that has no points, of which camlib is not asked: it may panic.
use super::envelope::points;
use super::{ENVELOPE, MOST_POINTS, clean, demand, usable};
use crate::call::Reason;
use length::turning::profile as opened;
use plain::turning::profile as camlib;

/// 14: the polygon and the tolerance.
fn polygon(numbers: &[f64], tolerance: f64) -> Result<Vec<[f64; 2]>, Reason> {
    demand(numbers.len().is_multiple_of(2), ENVELOPE)?;
    demand(numbers.len() / 2 <= MOST_POINTS, ENVELOPE)?;
    demand(numbers.iter().all(|x| usable(*x)), ENVELOPE)?;
    demand(tolerance >= 0., ENVELOPE)?;
    let (points, _) = numbers.as_chunks::<2>();
    Ok(points.iter().map(|p| p.map(clean)).collect())
}

type How = fn(&camlib::Envelope, &[[f64; 2]], f64) -> f64;

fn touch(
    numbers: &[f64],
    insert: &[f64],
    tolerance: f64,
    how: How,
) -> Result<Option<Vec<f64>>, Reason> {
    let points = points(numbers, &[tolerance])?;
    let polygon = polygon(insert, tolerance)?;
    if polygon.is_empty() {
        return Ok(None);
    }
    let by = how(&camlib::Envelope::new(points), &polygon, clean(tolerance));
    Ok((by > f64::NEG_INFINITY).then(|| vec![by]))
}

pub fn excess(
    numbers: &[f64],
    polygon: &[f64],
    tolerance: f64,
) -> Result<Option<Vec<f64>>, Reason> {
    touch(numbers, polygon, tolerance, camlib::Envelope::excess)
}

pub fn penetration(
    numbers: &[f64],
    polygon: &[f64],
    tolerance: f64,
) -> Result<Option<Vec<f64>>, Reason> {
    touch(numbers, polygon, tolerance, camlib::Envelope::penetration)
}

pub fn eroded(numbers: &[f64], u: f64, tolerance: f64) -> Result<Option<Vec<f64>>, Reason> {
    let points = points(numbers, &[u, tolerance])?;
    demand(tolerance >= 0., ENVELOPE)?;
    let found = opened::Envelope::new(points).eroded(clean(u), clean(tolerance));
    Ok(found.map(|r| vec![r]))
}
