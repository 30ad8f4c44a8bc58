//! Threads, drills, noses, polygons.
use super::{bar_of, lent, pair, stock_of};
use crate::bench::library_side;
use crate::bench::rows::room;
use crate::bench::time::{Sides, side};
use crate::call::{Call, Simple, Stamp};
use crate::oracle::cuts::{segment, stock_with_length};
use crate::oracle::stock::{Bar, fresh};
use length::turning::stock as with_length;
use plain::motion::Curve;
use plain::turning::stock::TurnSide;
use std::hint::black_box;

/// A single cut on a fresh bar.
pub fn simple(bar: &Bar, cut: Simple) -> Call {
    Call::Cut {
        spec: bar.spec,
        stamp: Stamp::default(),
        cells: lent(bar),
        cut,
        room: room(bar.n),
    }
}

pub fn thread_cut(bins: usize) -> Sides<'static> {
    let bar = bar_of(bins);
    let (z0, z1, radius) = (0., bar.spec.z_max, 40.);
    let stock = stock_of(&bar);
    let go = move || stock.thread_cut(black_box(z0), z1, radius);
    pair(go, simple(&bar, Simple::ThreadCut { z0, z1, radius }))
}

pub fn thread_cut_inner(bins: usize) -> Sides<'static> {
    let bar = bar_of(bins);
    let (z0, z1, radius) = (0., bar.spec.z_max, 40.);
    let stock = stock_of(&bar);
    let go = move || stock.thread_cut_inner(black_box(z0), z1, radius);
    pair(go, simple(&bar, Simple::ThreadCutInner { z0, z1, radius }))
}

pub fn drill(bins: usize) -> Sides<'static> {
    let bar = bar_of(bins);
    let (tip_z, radius, cone) = (-1., 8., 3.);
    let stock = stock_of(&bar);
    let go = move || stock.drill(black_box(tip_z), radius, cone);
    let cut = Simple::Drill {
        tip_z,
        radius,
        cone,
    };
    pair(go, simple(&bar, cut))
}

/// A nose along segments on a fresh bar. The untouched Rust has it where there is one segment with no sag.
pub fn nose_of(bar: &Bar, rn: f64, outside: bool, links: &[[f64; 5]]) -> Sides<'static> {
    let [a_r, a_z, b_r, b_z, sag] = links[0];
    let line = Curve::Line {
        start: [a_r, 0., a_z],
        end: [b_r, 0., b_z],
    };
    let (plain, with) = if outside {
        (TurnSide::Outer, with_length::TurnSide::Outer)
    } else {
        (TurnSide::Inner, with_length::TurnSide::Inner)
    };
    let stock = stock_of(bar);
    let untouched = side(1, move || stock.preview(black_box(&line), rn, plain, 0.));
    let list: Vec<_> = links.iter().map(segment).collect();
    let ruled = stock_with_length(bar, &fresh(bar));
    [
        untouched.filter(|_| links.len() == 1 && sag == 0.),
        side(1, move || {
            ruled.preview_segments(black_box(&list), rn, with)
        }),
        library_side(Call::Preview {
            spec: bar.spec,
            stamp: Stamp::default(),
            cells: lent(bar),
            side: if outside { 0 } else { 1 },
            rn,
            segments: links.as_flattened().to_vec(),
            room: room(bar.n),
        }),
    ]
}

/// A nose of 0.8 over the whole bar, as a chain of so many segments.
fn nose(bins: usize, segments: usize) -> Sides<'static> {
    let bar = bar_of(bins);
    let at = |j: usize| {
        let part = j as f64 / segments as f64;
        [38. + 3. * (j as f64 * 0.7).sin(), bar.spec.z_max * part]
    };
    let link = |k: usize| {
        let [a, b] = [at(k), at(k + 1)];
        [a[0], a[1], b[0], b[1], 0.]
    };
    let links: Vec<[f64; 5]> = (0..segments).map(link).collect();
    nose_of(&bar, 0.8, true, &links)
}

/// One segment over so many bins.
pub fn preview_bins(bins: usize) -> Sides<'static> {
    nose(bins, 1)
}

/// A chain of so many segments over 1,024 bins.
pub fn preview_segments(segments: usize) -> Sides<'static> {
    nose(1024, segments)
}

/// A polygon on the outside of a fresh bar.
pub fn polygon_of(bar: &Bar, points: &[[f64; 2]]) -> Sides<'static> {
    let flat = points.as_flattened().to_vec();
    let (stock, points) = (stock_of(bar), points.to_vec());
    let go = move || stock.preview_polygon(black_box(&points), TurnSide::Outer, 0.01);
    let call = Call::PreviewPolygon {
        spec: bar.spec,
        stamp: Stamp::default(),
        cells: lent(bar),
        side: 0,
        excess: 0.01,
        points: flat,
        room: room(bar.n),
    };
    pair(go, call)
}

/// Half a circle below and a straight top, over the whole bar.
fn polygon(bins: usize, count: usize) -> Sides<'static> {
    let bar = bar_of(bins);
    let half = bar.spec.z_max / 2. + 1.;
    let point = |k: usize| {
        let t = std::f64::consts::PI * (1. + k as f64 / (count - 1) as f64);
        [half - 1. + half * t.cos(), 60. + 20. * t.sin()]
    };
    let points: Vec<[f64; 2]> = (0..count).map(point).collect();
    polygon_of(&bar, &points)
}

/// Four points over so many bins.
pub fn polygon_bins(bins: usize) -> Sides<'static> {
    polygon(bins, 4)
}

/// So many points over 1,024 bins.
pub fn polygon_points(points: usize) -> Sides<'static> {
    polygon(1024, points)
}
