//! Passes checked and proposed. The Rust's side of a check is camlib's own loop on a clone of the stock: each cut previewed and
//! applied, and then every bin held against its target. That of a proposal is the rule in plain Rust.
use super::{bar_of, kept_of, lent, stock_of};
use crate::bench::time::{Side, Sides, side};
use crate::bench::{library_side, refused_side};
use crate::call::{Call, PassRoom, Passes, Stamp};
use crate::library::c;
use crate::oracle::cuts::stock_with_length;
use crate::oracle::passes::levels;
use crate::oracle::stock::{Bar, fresh};
use length::turning::stock as with_length;
use plain::motion::Curve;
use plain::turning::stock::{TurnSide, TurnStock};
use std::hint::black_box;

const CUTS: usize = 128;
const RN: f64 = 0.8;

/// A line from (r, a) to (r, b).
type Level = [f64; 3];

/// Level lines, each a little deeper than the one before: over the whole bar, or each over its part of it.
fn lines(bar: &Bar, whole: bool) -> Vec<Level> {
    let part = bar.spec.z_max / CUTS as f64;
    let line = |k: usize| {
        let r = 49. + RN - k as f64 / 16.;
        match whole {
            true => [r, 0., bar.spec.z_max],
            false => [r, part * k as f64, part * (k + 1) as f64],
        }
    };
    (0..CUTS).map(line).collect()
}

fn passes_of(lines: &[Level]) -> Passes {
    let mut passes = Passes::default();
    for [r, a, b] in lines {
        passes.push(0, [RN, 0., *r, *a, *r, *b], &[]);
    }
    passes
}

/// Targets that the bins meet, so that all of them are looked at.
fn targets(bar: &Bar) -> Vec<f64> {
    [0., 50.].repeat(bar.n)
}

fn call(bar: &Bar, passes: Passes) -> Call {
    Call::CheckPasses {
        spec: bar.spec,
        stamp: Stamp::default(),
        cells: lent(bar),
        blocks: kept_of(bar),
        targets: targets(bar),
        passes,
        after_len: 4 * bar.n,
        after_blocks_len: kept_of(bar).len(),
    }
}

/// The untouched Rust: each line as a curve.
fn untouched(bar: &Bar, lines: &[Level]) -> Option<Side<'static>> {
    let curve = |[r, a, b]: &Level| Curve::Line {
        start: [*r, 0., *a],
        end: [*r, 0., *b],
    };
    let curves: Vec<Curve> = lines.iter().map(curve).collect();
    let (start, targets) = (stock_of(bar), targets(bar));
    side(1, move || {
        let mut stock: TurnStock = start.clone();
        for curve in black_box(&curves) {
            let changes = stock.preview(curve, RN, TurnSide::Outer, 0.).unwrap();
            stock.apply(&changes).unwrap();
        }
        let outer = stock.cells().iter().map(|c| c.outer);
        let met = outer.zip(targets.as_chunks::<2>().0);
        let miss = met
            .map(|(o, t)| o.lower_mm < t[0] || o.upper_mm > t[1])
            .position(|miss| miss);
        (miss, stock)
    })
}

/// The Rust with 01's length.
fn ruled(bar: &Bar, lines: &[Level]) -> Option<Side<'static>> {
    let segment = |[r, a, b]: &Level| [([*r, *a], [*r, *b], 0.)];
    let segments: Vec<_> = lines.iter().map(segment).collect();
    let (start, targets) = (stock_with_length(bar, &fresh(bar)), targets(bar));
    side(1, move || {
        let mut stock = start.clone();
        for segment in black_box(&segments) {
            let outer = with_length::TurnSide::Outer;
            let changes = stock.preview_segments(segment, RN, outer).unwrap();
            stock.apply(&changes).unwrap();
        }
        let outer = stock.cells().iter().map(|c| c.outer);
        let met = outer.zip(targets.as_chunks::<2>().0);
        let miss = met
            .map(|(o, t)| o.lower_mm < t[0] || o.upper_mm > t[1])
            .position(|miss| miss);
        (miss, stock)
    })
}

fn checked(bins: usize, whole: bool) -> Sides<'static> {
    let bar = bar_of(bins);
    let lines = lines(&bar, whole);
    let ours = library_side(call(&bar, passes_of(&lines)));
    [untouched(&bar, &lines), ruled(&bar, &lines), ours]
}

/// This library's own previews and commits, one after the other.
fn one_by_one(bar: &Bar, lines: &[Level]) -> Option<Side<'static>> {
    let (spec, n, lines) = (bar.spec, bar.n, lines.to_vec());
    let (start, kept) = (lent(bar), kept_of(bar));
    let (mut cells, mut blocks) = (start.clone(), kept.clone());
    let (mut indices, mut records) = (vec![0_usize; n], vec![0_f64; 8 * n]);
    side(1, move || {
        cells.copy_from_slice(&start);
        blocks.copy_from_slice(&kept);
        let (mut generation, mut count, mut edition, mut at) = (0, 0, 0, 0);
        for [r, a, b] in black_box(&lines) {
            let segment = [*r, *a, *r, *b, 0.];
            let (is, xs) = (indices.as_mut_ptr(), records.as_mut_ptr());
            let (z, max) = ([spec.z_min, spec.z_max], spec.max_cells);
            // SAFETY: every pointer is to a list of the length beside it, or to one number.
            let numbers = unsafe {
                let own = cells.as_mut_ptr();
                let preview = c::turning_preview(
                    z[0],
                    z[1],
                    spec.outer,
                    spec.bore,
                    spec.cell,
                    max,
                    0,
                    generation,
                    own,
                    4 * n,
                    0,
                    RN,
                    segment.as_ptr(),
                    5,
                    is,
                    n,
                    xs,
                    8 * n,
                    &mut count,
                    &mut edition,
                    &mut at,
                );
                let (mut place, kept) = (0, blocks.as_mut_ptr());
                let commit = c::turning_apply(
                    z[0],
                    z[1],
                    spec.outer,
                    spec.bore,
                    spec.cell,
                    max,
                    0,
                    &mut generation,
                    own,
                    4 * n,
                    kept,
                    blocks.len(),
                    is,
                    n,
                    xs,
                    8 * n,
                    count,
                    edition,
                    at,
                    &mut place,
                );
                [preview, commit]
            };
            assert_eq!(numbers, [0, 0]);
        }
        generation
    })
}

/// The long lines, beside this library's own previews and commits.
pub fn check_own(bins: usize) -> Sides<'static> {
    let bar = bar_of(bins);
    let lines = lines(&bar, true);
    let ours = library_side(call(&bar, passes_of(&lines)));
    [one_by_one(&bar, &lines), None, ours]
}

/// 128 lines, each over the whole bar.
pub fn check_long(bins: usize) -> Sides<'static> {
    checked(bins, true)
}

/// 128 lines, each over its part of the bar.
pub fn check_short(bins: usize) -> Sides<'static> {
    checked(bins, false)
}

/// The first of the long lines has no radius: a no by its first cut.
pub fn check_bad_cut(bins: usize) -> Sides<'static> {
    let bar = bar_of(bins);
    let mut passes = passes_of(&lines(&bar, true));
    passes.numbers[0] = f64::NAN;
    [None, None, library_side(call(&bar, passes))]
}

/// The last of the long lines has no radius: a no by its last cut.
pub fn check_bad_last(bins: usize) -> Sides<'static> {
    let bar = bar_of(bins);
    let mut passes = passes_of(&lines(&bar, true));
    passes.numbers[6 * (CUTS - 1)] = f64::NAN;
    [None, None, library_side(call(&bar, passes))]
}

/// The last is an inside cut: 25.
pub fn check_inside(bins: usize) -> Sides<'static> {
    let bar = bar_of(bins);
    let mut passes = passes_of(&lines(&bar, true));
    passes.kinds[CUTS - 1] = 8;
    [None, None, refused_side(call(&bar, passes), 25)]
}

/// No cuts: what is asked first, the bins, and the cells handed back.
pub fn check_nothing(bins: usize) -> Sides<'static> {
    let bar = bar_of(bins);
    [None, None, library_side(call(&bar, Passes::default()))]
}

/// 128 steps.
pub fn propose_passes(bins: usize) -> Sides<'static> {
    let bar = bar_of(bins);
    let step = |i: usize| (i * CUTS / bins) as f64 / 8.;
    let pairs: Vec<[f64; 2]> = (0..bins)
        .map(|i| [20. + step(i), 20.01 + step(i)])
        .collect();
    let room = PassRoom {
        kinds: CUTS,
        numbers: 6 * CUTS,
        parts: 2 * CUTS,
    };
    let ours = library_side(Call::ProposePasses {
        spec: bar.spec,
        cells: lent(&bar),
        targets: pairs.as_flattened().to_vec(),
        rn: RN,
        room,
    });
    let (cells, stock) = (fresh(&bar), stock_of(&bar));
    let go = move || levels(&bar, black_box(&cells), &pairs, RN, |i| stock.bin(i));
    [side(1, go), None, ours]
}
