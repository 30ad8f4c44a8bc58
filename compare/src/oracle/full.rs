//! The two envelope queries a second time: every segment, one after the other, with no part of the
//! points and no order of them. Written from 001's text; nothing of camlib is called.
use super::clean;
use super::envelope::points;
use crate::call::Reason;

/// The v at u on the line from p to q.
fn across([pu, pv]: [f64; 2], [qu, qv]: [f64; 2], u: f64) -> f64 {
    let t = (u - pu) / (qu - pu);
    pv + t * (qv - pv)
}

fn lesser(a: f64, b: f64) -> f64 {
    if b < a { b } else { a }
}

fn greater(a: f64, b: f64) -> f64 {
    if b > a { b } else { a }
}

/// The highest radius at u.
pub fn radius_at(numbers: &[f64], u: f64) -> Result<Option<Vec<f64>>, Reason> {
    let points = points(numbers, &[u])?;
    let u = clean(u);
    let mut highest: Option<f64> = None;
    for pair in points.windows(2) {
        let (p, q) = (pair[0], pair[1]);
        if u < lesser(p[0], q[0]) || u > greater(p[0], q[0]) {
            continue;
        }
        let v = match q[0] == p[0] {
            true => greater(p[1], q[1]),
            false => across(p, q, u),
        };
        highest = Some(highest.map_or(v, |h| greater(h, v)));
    }
    Ok(highest.map(|v| vec![v]))
}

/// The lowest and the highest radius over lo..hi; none where lo > hi.
pub fn radius_range(numbers: &[f64], lo: f64, hi: f64) -> Result<Option<Vec<f64>>, Reason> {
    let points = points(numbers, &[lo, hi])?;
    let (lo, hi) = (clean(lo), clean(hi));
    let mut radii = vec![];
    for pair in points.windows(2) {
        let (p, q) = (pair[0], pair[1]);
        let a = greater(lesser(p[0], q[0]), lo);
        let b = lesser(greater(p[0], q[0]), hi);
        if a > b || lo > hi {
            continue;
        }
        radii.extend(match q[0] == p[0] {
            true => [p[1], q[1]],
            false => [across(p, q, a), across(p, q, b)],
        });
    }
    let lowest = radii.iter().copied().reduce(lesser);
    let highest = radii.iter().copied().reduce(greater);
    Ok(lowest.zip(highest).map(|(low, high)| vec![low, high]))
}
