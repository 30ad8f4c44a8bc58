//! The envelope of a profile: 14, or an answer.
use super::{ENVELOPE, MOST_ENVELOPE_POINTS, clean, demand, usable};
use crate::call::{Answer, Outcome, Reason};
use length::turning::profile as opened;
use plain::turning::profile as camlib;

/// 14: the points and the numbers of the query.
pub fn points(numbers: &[f64], query: &[f64]) -> Result<Vec<[f64; 2]>, Reason> {
    demand(numbers.len().is_multiple_of(2), ENVELOPE)?;
    demand(numbers.len() / 2 <= MOST_ENVELOPE_POINTS, ENVELOPE)?;
    demand(numbers.iter().chain(query).all(|x| usable(*x)), ENVELOPE)?;
    let (points, _) = numbers.as_chunks::<2>();
    Ok(points.iter().map(|p| p.map(clean)).collect())
}

pub fn order(numbers: &[f64]) -> Result<i32, Reason> {
    let points = points(numbers, &[])?;
    Ok(opened::Envelope::new(points).order.into())
}

/// lo > hi is an empty part at the start.
pub fn within(numbers: &[f64], lo: f64, hi: f64) -> Outcome {
    let points = points(numbers, &[lo, hi])?;
    if lo > hi {
        return Ok(Answer::Part(0, 0));
    }
    let part = opened::Envelope::new(points).within(clean(lo), clean(hi));
    Ok(Answer::Part(part.start, part.len()))
}

pub fn radius_at(numbers: &[f64], u: f64) -> Result<Option<Vec<f64>>, Reason> {
    let points = points(numbers, &[u])?;
    let found = camlib::Envelope::new(points).radius_at(clean(u));
    Ok(found.map(|r| vec![clean(r)]))
}

/// lo > hi answers none.
pub fn radius_range(numbers: &[f64], lo: f64, hi: f64) -> Result<Option<Vec<f64>>, Reason> {
    let points = points(numbers, &[lo, hi])?;
    if lo > hi {
        return Ok(None);
    }
    let found = camlib::Envelope::new(points).radius_range(clean(lo), clean(hi));
    Ok(found.map(|r| r.map(clean).to_vec()))
}
