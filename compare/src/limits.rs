//! Calls at document 01's limits and one beyond, each with the number that 01 gives; kept numbers and
//! ranges over one bin to the most; lengths at the corners of their rule; envelope queries at the corners where a look at a part of the points could
//! miss a segment; profiles at the corners of theirs; and passes, in `passes`. Those that say where they fail are in
//! `positions`; calls that change every bin of a long bar are in `bins`.
mod bins;
mod passes;

pub use bins::all_bins;
pub use passes::{checks, pass_bar, proposals, two_steps};

use crate::call::{Answer, Call, List, Outcome, Reason, Room, Simple, Spec, Stamp, Store};
use crate::oracle::ranges::{blocks, blocks_len};
use crate::oracle::stock::Bar;
use crate::oracle::{
    ARGUMENT, BLOCKS, CELLS, CHORDS, COUNT, ENVELOPE, GENERATION, MANY_CELLS, MILLION, MOST_CELLS,
    MOST_ENVELOPE_POINTS, MOST_POINTS, MOST_PROFILE_POINTS, MOST_RINGS, MOST_SEGMENTS, NO_BIN,
    PIECES, PROFILE, ROOM, SPEC, STORED,
};
use crate::positions;
use crate::run::number;

type Ring = [f64; 4];

/// Bars of about as many bins as a call's shorter lists are for, and of the most.
const LONG_BARS: [usize; 3] = [MANY_CELLS, MANY_CELLS + 1, MOST_CELLS];
/// As much as is ever recorded.
const ALL: Room = room(MANY_CELLS);
/// What stocks and their lists carry where it is no limit.
const STAMP: Stamp = stamp(7);
const CELL: [f64; 4] = [10., 10., 0., 0.];
const TURNED: [f64; 4] = [4., 5., 0., 0.];

const fn room(changes: usize) -> Room {
    Room {
        indices: changes,
        records: 8 * changes,
    }
}

const fn stamp(generation: u64) -> Stamp {
    Stamp {
        edition: 2,
        generation,
    }
}

/// A bar of n bins of 1 mm, radii 0..10.
fn bar(n: usize) -> Spec {
    Spec {
        z_min: 0.,
        z_max: n as f64,
        outer: 10.,
        bore: 0.,
        cell: 1.,
        max_cells: MOST_CELLS,
    }
}

fn whole(n: usize) -> Vec<f64> {
    [CELL].repeat(n).into_flattened()
}

/// The kept numbers of the cells of such a bar.
fn kept(cells: &[f64]) -> Vec<f64> {
    let (cells, _) = cells.as_chunks::<4>();
    let (spec, n) = (bar(cells.len()), cells.len());
    blocks(&Bar { spec, n }, cells)
}

fn specs() -> Vec<(Call, u32)> {
    let most = bar(MOST_CELLS);
    let over = bar(MOST_CELLS + 1);
    let wide = |spec: Spec| Spec {
        max_cells: usize::MAX,
        ..spec
    };
    let narrow = Spec {
        max_cells: MOST_CELLS - 1,
        ..most
    };
    let far = |z_max: f64| Spec {
        z_max,
        cell: MILLION,
        ..most
    };
    let mut calls = vec![];
    for (spec, number) in [
        (bar(MANY_CELLS), 0),
        (bar(MANY_CELLS + 1), 0),
        (most, 0),
        (over, COUNT),
        (wide(most), 0),
        (wide(over), COUNT),
        (narrow, COUNT),
        (far(MILLION), 0),
        (far(MILLION.next_up()), SPEC),
    ] {
        calls.push((Call::Validate { spec }, number));
    }
    for (spec, i, number) in [
        (bar(MANY_CELLS + 1), MANY_CELLS, 0),
        (most, MOST_CELLS - 1, 0),
        (most, MOST_CELLS, NO_BIN),
        (most, MOST_CELLS + 1, NO_BIN),
        (most, usize::MAX, NO_BIN),
        (over, 0, COUNT),
    ] {
        calls.push((Call::Bin { spec, i }, number));
    }
    for (spec, cells_len, number) in [
        (most, 4 * MOST_CELLS, 0),
        (most, 4 * MOST_CELLS - 1, CELLS),
        (most, 4 * MOST_CELLS + 4, CELLS),
        (over, 4 * MOST_CELLS + 4, COUNT),
    ] {
        let call = Call::New {
            spec,
            stamp: STAMP,
            cells_len,
            blocks_len: blocks_len(MOST_CELLS),
        };
        calls.push((call, number));
    }
    calls
}

/// So many chords along z from bin 7 on, at radius 9, and their points in (z, r).
fn chords(count: usize) -> (Vec<f64>, Vec<f64>) {
    let z = |k: usize| 7. + k as f64 / 8.;
    let segments = (0..count).map(|k| [9., z(k), 9., z(k + 1), 0.]);
    let points = (0..count).map(|k| [z(k), 4. + (k % 2) as f64]);
    (segments.flatten().collect(), points.flatten().collect())
}

/// The numbers of a nose and of a polygon, whether the cut is a nose's, a million and beyond.
fn listed() -> Vec<(Call, u32)> {
    let mut calls = vec![];
    for n in [64, MANY_CELLS, MANY_CELLS + 1, MOST_CELLS] {
        for (over, number) in [(0, 0), (1, ARGUMENT)] {
            for side in [0, 1] {
                let (spec, cells) = (bar(n), whole(n));
                let points = chords(MOST_POINTS + over).1;
                calls.push((polygon(spec, cells, side, 0.5, points), number));
            }
        }
        for side in [0, 1] {
            let segments = chords(64).0;
            calls.push((nose(bar(n), &whole(n), side, 1., segments, ALL), 0));
        }
    }
    // The most segments, and one more: a chord that is gone again and again, so that a recorded line stays short.
    for (count, number) in [
        (MOST_SEGMENTS - 1, 0),
        (MOST_SEGMENTS, 0),
        (MOST_SEGMENTS + 1, ARGUMENT),
    ] {
        for side in [0, 1] {
            let segments = chords(1).0.repeat(count);
            calls.push((nose(bar(64), &whole(64), side, 1., segments, ALL), number));
        }
    }
    for (x, number) in [(MILLION, 0), (MILLION.next_up(), ARGUMENT)] {
        let (spec, cells) = (bar(4), whole(4));
        let segments = vec![x, -x, 9., 2., x];
        calls.push((nose(spec, &cells, 0, x, segments, ALL), number));
        calls.push((polygon(spec, cells, 0, x, vec![-x, x, 2., 9.]), number));
    }
    calls
}

fn nose(spec: Spec, cells: &[f64], side: u32, rn: f64, segments: Vec<f64>, room: Room) -> Call {
    Call::Preview {
        spec,
        stamp: STAMP,
        cells: cells.to_vec(),
        side,
        rn,
        segments,
        room,
    }
}

fn polygon(spec: Spec, cells: Vec<f64>, side: u32, excess: f64, points: Vec<f64>) -> Call {
    Call::PreviewPolygon {
        spec,
        stamp: STAMP,
        cells,
        side,
        excess,
        points,
        room: ALL,
    }
}

fn single() -> Vec<(Call, u32)> {
    LONG_BARS.iter().flat_map(|n| single_of(*n)).collect()
}

/// Each cut of no list changes seven bins, the last ones: room for them, and for one fewer.
fn single_of(n: usize) -> Vec<(Call, u32)> {
    let (spec, cells) = (bar(n), whole(n));
    let end = n as f64;
    let (z0, z1) = (end - 7., end);
    let mut calls = vec![];
    for (room, number) in [(ALL, 0), (room(7), 0), (room(6), ROOM)] {
        let mut cut = |cut: Simple| {
            let (spec, cells) = (spec, cells.clone());
            let call = Call::Cut {
                spec,
                stamp: STAMP,
                cells,
                cut,
                room,
            };
            calls.push((call, number));
        };
        cut(Simple::ThreadCut { z0, z1, radius: 8. });
        cut(Simple::ThreadCutInner {
            z0: z1,
            z1: z0,
            radius: 8.,
        });
        cut(Simple::Drill {
            tip_z: end - 7.,
            radius: 4.,
            cone: 2.,
        });
        let mut after = cells.clone();
        after[4 * (n - 7)..].copy_from_slice([TURNED].repeat(7).as_flattened());
        let (spec, cells) = (spec, cells.clone());
        calls.push((
            Call::ChangesTo {
                spec,
                stamp: STAMP,
                cells,
                after,
                room,
            },
            number,
        ));
    }
    calls
}

/// One change, of cell i, for the stock of the stamp.
fn change(i: usize, stamp: Stamp) -> List {
    List {
        indices: vec![i],
        records: [CELL, TURNED].as_flattened().to_vec(),
        changes: 1,
        stamp,
    }
}

/// Stocks of the first and the last stamps: previews and differences carry them, and there is no last
/// generation for them; a new stock and a rebuilt one are of their edition at generation 0.
fn stamps() -> Vec<(Call, u32)> {
    let (spec, room) = (bar(2), room(2));
    let mut calls = vec![];
    for (edition, generation) in [
        (0, 0),
        (0, u64::MAX),
        (u32::MAX, 0),
        (u32::MAX, u64::MAX),
        (1 << 31, 1 << 63),
        (1, u64::MAX - 1),
    ] {
        let stamp = Stamp {
            edition,
            generation,
        };
        let cells = || whole(2);
        let mut at = |call: Call| calls.push((call, 0));
        at(Call::New {
            spec,
            stamp,
            cells_len: 8,
            blocks_len: 2,
        });
        at(Call::FromParts {
            spec,
            stamp,
            cells: cells(),
            blocks: vec![f64::NAN; 2],
            given: vec![0., 1., 2., 3.],
            rings_len: 4,
        });
        at(Call::Preview {
            spec,
            stamp,
            cells: cells(),
            side: 0,
            rn: 1.,
            segments: vec![9., 0., 9., 1., 0.],
            room,
        });
        at(Call::PreviewPolygon {
            spec,
            stamp,
            cells: cells(),
            side: 0,
            excess: 0.,
            points: vec![0., 4., 1., 4.],
            room,
        });
        let (z0, z1, radius) = (0., 1., 5.);
        for cut in [
            Simple::ThreadCut { z0, z1, radius },
            Simple::ThreadCutInner { z0, z1, radius },
            Simple::Drill {
                tip_z: 1.,
                radius,
                cone: 0.,
            },
        ] {
            at(Call::Cut {
                spec,
                stamp,
                cells: cells(),
                cut,
                room,
            });
        }
        at(Call::ChangesTo {
            spec,
            stamp,
            cells: cells(),
            after: [CELL, TURNED].as_flattened().to_vec(),
            room,
        });
    }
    calls
}

fn commits() -> Vec<(Call, u32)> {
    let mut calls = vec![];
    let (many, last) = (MANY_CELLS, MOST_CELLS - 1);
    for (n, i, generation, number) in [
        (many, many - 1, 0, 0),
        (many + 1, many, 0, 0),
        (MOST_CELLS, 0, 0, 0),
        (MOST_CELLS, last, u64::MAX - 1, 0),
        (MOST_CELLS, last, u64::MAX, GENERATION),
    ] {
        let (spec, cells) = (bar(n), whole(n));
        let stamp = stamp(generation);
        let list = change(i, stamp);
        let call = Call::Apply {
            spec,
            stamp,
            blocks: kept(&cells),
            cells,
            list,
        };
        calls.push((call, number));
    }
    calls
}

/// About as many bins as blocks have, and the fewest and the most.
const BINS: [usize; 11] = [
    1,
    63,
    64,
    65,
    127,
    128,
    130,
    MANY_CELLS,
    MANY_CELLS + 1,
    MOST_CELLS - 1,
    MOST_CELLS,
];

/// Two cells by turns, so that a recorded line says them once; every second one holds no material.
fn turns(n: usize) -> Vec<f64> {
    let two = [[4., 8., 1., 2.], [1., 2., 3., 4.]];
    let cells = two.iter().cycle().take(n).copied();
    cells.collect::<Vec<_>>().into_flattened()
}

/// Kept numbers over so many bins.
fn kept_numbers() -> Vec<(Call, u32)> {
    let of = |n: &usize| [counts(*n), renewals(*n)].concat();
    BINS.iter().flat_map(of).collect()
}

/// Numbers to be filled: as many as there are, and one number and one block too few and too many.
fn counts(n: usize) -> Vec<(Call, u32)> {
    let (spec, stamp, len) = (bar(n), STAMP, blocks_len(n));
    let mut calls = vec![];
    for lent in [len, len - 2, len - 1, len + 1, len + 2] {
        let (cells, blocks) = (turns(n), vec![f64::NAN; lent]);
        let new = Call::New {
            spec,
            stamp,
            cells_len: 4 * n,
            blocks_len: lent,
        };
        let rebuilt = Call::FromParts {
            spec,
            stamp,
            cells: cells.clone(),
            blocks: blocks.clone(),
            given: vec![0., 1., 2., 3.],
            rings_len: 4,
        };
        let renewed = Call::Renew {
            spec,
            cells,
            blocks,
        };
        let number = if lent == len { 0 } else { BLOCKS };
        calls.extend([new, rebuilt, renewed].map(|call| (call, number)));
    }
    calls
}

/// Commits in the first and in the last bin, with the numbers of the cells and with others.
fn renewals(n: usize) -> Vec<(Call, u32)> {
    let len = blocks_len(n);
    let mut calls = vec![];
    let mut at = |bend: &dyn Fn(&mut Vec<f64>), number| {
        for i in if n > 130 { n - 1..n } else { 0..n }.step_by((n - 1).max(1)) {
            let (spec, stamp, cells) = (bar(n), STAMP, whole(n));
            let mut blocks = kept(&cells);
            bend(&mut blocks);
            let list = change(i, stamp);
            let call = Call::Apply {
                spec,
                stamp,
                cells,
                blocks,
                list,
            };
            calls.push((call, number));
        }
    };
    at(&|_| {}, 0);
    at(&|b| b[1] = -0., 0);
    at(&|b| b[0] = b[0].next_down(), BLOCKS);
    at(&|b| b[len - 1] = f64::from_bits(1), BLOCKS);
    at(&|b| b.swap(len - 2, len - 1), BLOCKS);
    at(&|b| b[len - 2] = f64::NAN, BLOCKS);
    at(&|b| b[0] = f64::INFINITY, BLOCKS);
    at(&|b| b.truncate(len - 2), BLOCKS);
    at(&|b| b.extend([0., 10.]), BLOCKS);
    calls
}

/// A range over a bar with the kept numbers of its cells.
fn over(cells: &[f64], lo: f64, hi: f64) -> Call {
    Call::Range {
        spec: bar(cells.len() / 4),
        cells: cells.to_vec(),
        blocks: kept(cells),
        lo,
        hi,
    }
}

/// Ranges over so many bins, by name.
pub fn ranges() -> Vec<(&'static str, Call, u32)> {
    let of = |n: &usize| [range_ends(*n), about_blocks(*n)].concat();
    let accepted = BINS.iter().flat_map(of).map(|(name, call)| (name, call, 0));
    accepted.chain(refused_ranges()).collect()
}

/// The ends of the bar, and ends that are outside, infinite, reversed or no number.
#[rustfmt::skip]
fn range_ends(n: usize) -> Vec<(&'static str, Call)> {
    let (new, end, far) = (whole(n), n as f64, f64::INFINITY);
    let none = [1., 2., 3., 4.].repeat(n);
    vec![
        ("the whole bar", over(&new, 0., end)),
        ("all heights", over(&turns(n), -far, far)),
        ("no material", over(&none, -far, far)),
        ("reversed", over(&new, end, 0.)),
        ("no number", over(&new, f64::NAN, end)),
        ("no number", over(&new, 0., f64::NAN)),
        ("outside", over(&new, end.next_up(), far)),
        ("outside", over(&new, -far, -LEAST)),
        ("the first edge", over(&new, -9., -0.)),
        ("the last edge", over(&new, end, 9e9)),
        ("the far ends", over(&new, far, far)),
        ("the far ends", over(&new, -far, -far)),
    ]
}

/// One bin has more than the others, at each place about a block's ends: ranges up to it and from it on, and one ulp beside.
fn about_blocks(n: usize) -> Vec<(&'static str, Call)> {
    let places: &[usize] = match n {
        ..=130 => &[0, 1, 62, 63, 64, 65, 126, 127, 128, n - 1],
        _ => &[64, n - 1],
    };
    let mut list = vec![];
    for i in places.iter().filter(|i| **i < n) {
        let mut cells = turns(n);
        cells[4 * i..][..4].copy_from_slice(&[4., 9., 0.5, 2.]);
        let (lo, hi, end) = (*i as f64, *i as f64 + 1., n as f64);
        list.extend([
            ("up to it", over(&cells, 0., lo)),
            ("up to below it", over(&cells, 0., lo.next_down())),
            ("from it on", over(&cells, hi, end)),
            ("from above it on", over(&cells, hi.next_up(), end)),
            ("it alone", over(&cells, lo.next_up(), hi.next_down())),
            ("one height of it", over(&cells, lo + 0.5, lo + 0.5)),
        ]);
    }
    list
}

/// 1, 2, 3, 20 in their order, before an end that is no number.
#[rustfmt::skip]
fn refused_ranges() -> Vec<(&'static str, Call, u32)> {
    let spec = bar(65);
    let at = |name, spec, cells, blocks, number| {
        let call = Call::Range { spec, cells, blocks, lo: f64::NAN, hi: 3. };
        (name, call, number)
    };
    let good = || kept(&whole(65));
    let mut bad = whole(65);
    bad[5] = f64::NAN;
    vec![
        at("1 first", Spec { cell: 0., ..spec }, bad.clone(), vec![], SPEC),
        at("2 then", Spec { max_cells: 64, ..spec }, bad.clone(), vec![], COUNT),
        at("3 then", spec, bad, vec![], CELLS),
        at("3 of a length", spec, whole(64), good(), CELLS),
        at("20 then", spec, whole(65), vec![], BLOCKS),
        at("20 of one number", spec, whole(65), vec![10., 0., 10., 10.], BLOCKS),
        at("nothing", spec, whole(65), good(), 0),
    ]
}

/// Rings side by side, one a bin, and room for so many.
fn row(count: usize, most: usize) -> Store {
    let ring = |k: usize| [k as f64, k as f64 + 1., 2., 3.];
    let mut rings: Vec<f64> = (0..count).flat_map(ring).collect();
    rings.resize(4 * most, 0.);
    Store { rings, count }
}

/// So many squares in a row, one slat across where there are any, and over all but the row two bands.
/// A ring over the whole bar is then cut into 1 + 3 * squares + slats pieces before the bands take
/// most of them.
fn comb(squares: usize, slats: usize) -> Store {
    let at = |k: usize, r0: f64, r1: f64| [2. * k as f64 + 1., 2. * k as f64 + 2., r0, r1];
    let mut rings: Vec<Ring> = (0..squares).map(|k| at(k, 4., 5.)).collect();
    rings.extend((squares..squares + slats).map(|k| at(k, 0., 10.)));
    let end = 2. * squares as f64 + 0.5;
    rings.extend([[0., end, 0., 4.], [0., end, 5., 10.]]);
    let count = rings.len();
    rings.resize(MOST_RINGS, [0.; 4]);
    Store {
        rings: rings.into_flattened(),
        count,
    }
}

const NEXT: Ring = [300., 301., 2., 3.];
const OVER_ALL: Ring = [0., 512., 0., 10.];
const OUTSIDE: Ring = [1., 2., 10., 12.];

fn rings() -> Vec<(Call, u32)> {
    let most = MOST_RINGS;
    let covered = [3., 4., 2., 3.];
    let mut calls = vec![];
    for (store, generation, ring, number) in [
        (row(most - 1, most), 0, NEXT, 0),
        (row(most, most), 0, NEXT, PIECES),
        (row(most, most + 1), 0, NEXT, PIECES),
        (row(most, most), 0, covered, 0),
        (row(7, 8), 0, NEXT, 0),
        (row(7, 7), 0, NEXT, PIECES),
        (row(most + 1, most + 1), 0, NEXT, STORED),
        (comb(85, 0), 0, OVER_ALL, 0),
        (comb(85, 1), 0, OVER_ALL, PIECES),
        (comb(86, 0), 0, OVER_ALL, PIECES),
        (row(7, 8), u64::MAX - 1, NEXT, 0),
        (row(7, 8), u64::MAX, NEXT, GENERATION),
        (row(7, 7), u64::MAX, OUTSIDE, 0),
    ] {
        let spec = bar(512);
        // The commit of a move raises the generation too.
        let stamp = stamp(generation.saturating_sub(1));
        let call = Call::ApplyMove {
            spec,
            stamp,
            cells: whole(512),
            blocks: kept(&whole(512)),
            store: store.clone(),
            list: change(511, stamp),
            removed: ring.to_vec(),
        };
        calls.push((call, number));
        let call = Call::RemoveRing {
            spec,
            store,
            generation,
            ring,
        };
        calls.push((call, number));
    }
    calls
}

fn parts() -> Vec<(Call, u32)> {
    let most = MOST_RINGS;
    let mut calls = vec![];
    for (given, room, number) in [
        (most, most, 0),
        (most, most + 1, 0),
        (most, most - 1, PIECES),
        (most + 1, most + 1, PIECES),
    ] {
        let (spec, cells) = (bar(MOST_CELLS), whole(MOST_CELLS));
        let call = Call::FromParts {
            spec,
            stamp: STAMP,
            blocks: kept(&cells),
            cells,
            given: row(given, given).rings,
            rings_len: 4 * room,
        };
        calls.push((call, number));
    }
    for (store, number) in [
        (row(most, most), 0),
        (row(most + 1, most + 1), STORED),
        (comb(85, 0), 0),
    ] {
        let (spec, cells) = (bar(MOST_CELLS), whole(MOST_CELLS));
        calls.push((Call::Volume { spec, cells, store }, number));
    }
    let end = MOST_CELLS as f64;
    for z in [0., end - 0.5, end, end.next_up(), -f64::from_bits(1)] {
        let (spec, cells) = (bar(MOST_CELLS), whole(MOST_CELLS));
        calls.push((Call::EnvelopeAt { spec, cells, z }, 0));
    }
    calls.extend(unnamed(edges()));
    calls
}

fn unnamed(calls: Vec<(&'static str, Call, u32)>) -> Vec<(Call, u32)> {
    let calls = calls.into_iter();
    calls.map(|(_, call, number)| (call, number)).collect()
}

/// What is asked of heights on the edge between two bins, by name: which bins are looked at there.
pub fn edges() -> Vec<(&'static str, Call, u32)> {
    let spec = |z_min, z_max, cell| Spec {
        z_min,
        z_max,
        outer: 10.,
        bore: 0.,
        cell,
        max_cells: MOST_CELLS,
    };
    // Bins that can be told apart: outer 1, 2, 3, .. and bore 1/8, 2/8, ..
    let steps = |n: usize| -> Vec<f64> {
        let cell = |i: usize| [0.5, 1. + (i % 8) as f64, (i % 4) as f64 / 8., 0.5];
        (0..n).flat_map(cell).collect()
    };
    let empty = |n: usize| [1., 1., 2., 2.].repeat(n);
    let mut list = vec![];
    let mut at = |name, spec, cells: Vec<f64>, z: &[f64], number| {
        for z in z {
            let (cells, z) = (cells.clone(), *z);
            list.push((name, Call::EnvelopeAt { spec, cells, z }, number));
        }
    };
    let q = spec(0., 9., 3.);
    at("both bins of an edge", q, steps(3), &[3., 6.], 0);
    at(
        "one ulp beside it",
        q,
        steps(3),
        &[3f64.next_up(), 3f64.next_down()],
        0,
    );
    at("the ends of the bar", q, steps(3), &[0., -0., 9.], 0);
    at(
        "one ulp outside",
        q,
        steps(3),
        &[-f64::from_bits(1), 9f64.next_up()],
        0,
    );
    at(
        "no number, and infinite",
        q,
        steps(3),
        &[f64::NAN, f64::INFINITY, f64::NEG_INFINITY],
        0,
    );
    at(
        "a neighbour without material",
        q,
        [[4., 5., 0., 0.], [1., 1., 2., 2.], [4., 7., 0., 0.]]
            .as_flattened()
            .to_vec(),
        &[3., 6., 4.],
        0,
    );
    at("no material anywhere", q, empty(3), &[3., 4.], 0);
    at(
        "bore and outer of two bins",
        q,
        [[4., 5., 2., 2.], [3., 4., 1., 1.], [4., 7., 0., 0.]]
            .as_flattened()
            .to_vec(),
        &[3., 6.],
        0,
    );
    at(
        "a bin of z that does not hold it",
        spec(-0.524, 28.976, 1.),
        steps(30),
        &[0.4759999999999999],
        0,
    );
    at(
        "an empty last bin",
        spec(0.1, 0.4, 0.1),
        steps(4),
        &[0.4, 0.4f64.next_down(), 0.30000000000000004],
        0,
    );
    at(
        "a last bin turned about",
        spec(-0.002, 0.007, 0.003),
        steps(4),
        &[0.007, 0.007f64.next_down(), 0.006999999999999999],
        0,
    );
    at(
        "bins below an ulp",
        spec(1., 1.0000000000000002, 2f64.powi(-54)),
        steps(4),
        &[1., 1.0000000000000002],
        0,
    );
    at("one bin", spec(0., 1., 1.), steps(1), &[0., 0.5, 1.], 0);
    at(
        "a cell with -0.0",
        spec(0., 1., 1.),
        vec![1., 1., -0., 0.],
        &[1.],
        CELLS,
    );
    at("too few cells", q, steps(2), &[3.], CELLS);
    at(
        "no cells allowed",
        Spec { max_cells: 0, ..q },
        steps(3),
        &[3.],
        COUNT,
    );
    // Two bins by turns, so that a recorded line says them once.
    let turns = [[0.5, 1., 0., 0.5], [0.5, 2., 0.125, 0.5]];
    let long = spec(0., MOST_CELLS as f64, 1.);
    at(
        "the last edge of the longest bar",
        long,
        turns.as_flattened().repeat(MOST_CELLS / 2),
        &[(MOST_CELLS - 1) as f64],
        0,
    );
    list
}

/// So many points of an envelope, u rising, falling or back and forth.
fn envelope(count: usize, order: i32) -> Vec<f64> {
    let u = |k: usize| match order {
        1 => k as f64 / 4.,
        -1 => (count - k) as f64 / 4.,
        _ => (7 * k % 256) as f64,
    };
    let r = |k: usize| 3. + (k % 5) as f64 / 3.;
    (0..count).flat_map(|k| [u(k), r(k)]).collect()
}

/// Inserts with so many points and such a tolerance.
fn inserts() -> Vec<(Call, u32)> {
    let points = || vec![0., 10., 2., 10., 2., 6., 5., 6., 5., 10., 8., 10.];
    let around = |count: usize| -> Vec<f64> {
        (0..count)
            .flat_map(|k| [3. + (k % 7) as f64 / 8., 5. + (k % 5) as f64 / 4.])
            .collect()
    };
    let over = MILLION.next_up();
    let mut calls = vec![];
    for (polygon, tolerance, number) in [
        (around(MOST_POINTS), 0.1, 0),
        (around(MOST_POINTS + 1), 0.1, ENVELOPE),
        (around(4), MILLION, 0),
        (around(4), over, ENVELOPE),
        (around(4), -f64::from_bits(1), ENVELOPE),
        (around(4), -0., 0),
        (vec![MILLION, 1., -MILLION, 1.], 0.1, 0),
        (vec![over, 1.], 0.1, ENVELOPE),
        (vec![1., 1., 1.], 0.1, ENVELOPE),
        (vec![], 0.1, 0),
    ] {
        calls.push((
            Call::Excess {
                points: points(),
                polygon: polygon.clone(),
                tolerance,
            },
            number,
        ));
        calls.push((
            Call::Penetration {
                points: points(),
                polygon,
                tolerance,
            },
            number,
        ));
    }
    for (u, tolerance, number) in [
        (MILLION, MILLION, 0),
        (over, 0.1, ENVELOPE),
        (3.5, over, ENVELOPE),
        (3.5, -1., ENVELOPE),
    ] {
        calls.push((
            Call::Eroded {
                points: points(),
                u,
                tolerance,
            },
            number,
        ));
    }
    calls
}

fn queries() -> Vec<(Call, u32)> {
    let mut calls = vec![];
    for (count, number) in [
        (MOST_ENVELOPE_POINTS, 0),
        (MOST_ENVELOPE_POINTS + 1, ENVELOPE),
    ] {
        for order in [1, -1, 0] {
            let points = envelope(count, order);
            let (lo, hi, u) = (100.1, 100.6, 100.3);
            let again = || points.clone();
            calls.push((Call::EnvelopeOrder { points: again() }, number));
            calls.push((
                Call::Within {
                    points: again(),
                    lo,
                    hi,
                },
                number,
            ));
            calls.push((Call::RadiusAt { points: again(), u }, number));
            calls.push((
                Call::Eroded {
                    points: again(),
                    u,
                    tolerance: 0.1,
                },
                number,
            ));
            let polygon = vec![100.1, 2., 100.6, 2., 100.6, 9., 100.1, 9.];
            calls.push((
                Call::Excess {
                    points: again(),
                    polygon: polygon.clone(),
                    tolerance: 0.1,
                },
                number,
            ));
            calls.push((
                Call::Penetration {
                    points: again(),
                    polygon,
                    tolerance: 0.1,
                },
                number,
            ));
            calls.push((Call::RadiusRange { points, lo, hi }, number));
        }
    }
    calls.extend(inserts());
    calls
}

/// A query of an envelope and what it answers: the highest radius at lo, and the lowest and the
/// highest over lo..hi.
struct Corner {
    name: &'static str,
    points: &'static [[f64; 2]],
    query: [f64; 2],
    at: Result<Option<f64>, u32>,
    over: Result<Option<[f64; 2]>, u32>,
}

/// A corner that is accepted.
const fn corner(
    name: &'static str,
    points: &'static [[f64; 2]],
    query: [f64; 2],
    at: Option<f64>,
    over: Option<[f64; 2]>,
) -> Corner {
    Corner {
        name,
        points,
        query,
        at: Ok(at),
        over: Ok(over),
    }
}

/// One that is refused.
const fn refused(name: &'static str, points: &'static [[f64; 2]], query: [f64; 2]) -> Corner {
    Corner {
        name,
        points,
        query,
        at: Err(ENVELOPE),
        over: Err(ENVELOPE),
    }
}

const LEAST: f64 = f64::from_bits(1);
const PEAK: &[[f64; 2]] = &[[0., 1.], [2., 3.], [4., 1.]];
const FALLING: &[[f64; 2]] = &[[4., 1.], [2., 3.], [0., 1.]];
const STEPPED: &[[f64; 2]] = &[[0., 1.], [2., 3.], [2., 5.], [4., 5.]];
const FALLING_STEP: &[[f64; 2]] = &[[4., 5.], [2., 5.], [2., 3.], [0., 1.]];
const UPRIGHT: &[[f64; 2]] = &[[2., 3.], [2., 5.], [2., 1.]];
const BACK: &[[f64; 2]] = &[[0., 1.], [2., 1.], [0., 3.]];
const ZEROS: &[[f64; 2]] = &[[-0., -0.], [2., 2.]];
const SHORT: &[[f64; 2]] = &[[0., 0.], [LEAST, 2.]];
const LONG: &[[f64; 2]] = &[[-MILLION, 1.], [MILLION, 3.]];
const STEEP: &[[f64; 2]] = &[[0., MILLION], [1., 1e-11], [2., 1e-11]];

#[rustfmt::skip]
const CORNERS: &[Corner] = &[
    corner("no points", &[], [0., 1.], None, None),
    corner("one point", &[[2., 3.]], [2., 2.], None, None),
    corner("all u equal", UPRIGHT, [2., 2.], Some(5.), Some([1., 5.])),
    corner("all u equal, to hi", UPRIGHT, [1., 2.], None, Some([1., 5.])),
    corner("all u equal, beside", UPRIGHT, [0., 1.], None, None),
    corner("u repeated at lo", STEPPED, [2., 3.], Some(5.), Some([3., 5.])),
    corner("u repeated at hi", STEPPED, [1., 2.], Some(2.), Some([2., 5.])),
    corner("u repeated at lo, falling", FALLING_STEP, [2., 3.], Some(5.), Some([3., 5.])),
    corner("u repeated at hi, falling", FALLING_STEP, [1., 2.], Some(2.), Some([2., 5.])),
    corner("lo is hi", PEAK, [1., 1.], Some(2.), Some([2., 2.])),
    corner("lo is hi at a shared end", PEAK, [2., 2.], Some(3.), Some([3., 3.])),
    corner("lo is hi at the first point", PEAK, [0., 0.], Some(1.), Some([1., 1.])),
    corner("lo is hi at the last point", PEAK, [4., 4.], Some(1.), Some([1., 1.])),
    corner("left of the points", PEAK, [-2., -1.], None, None),
    corner("right of the points", PEAK, [5., 6.], None, None),
    corner("left of the points, falling", FALLING, [-2., -1.], None, None),
    corner("right of the points, falling", FALLING, [5., 6.], None, None),
    corner("between two points", PEAK, [2.5, 3.], Some(2.5), Some([2., 2.5])),
    corner("between two points, falling", FALLING, [2.5, 3.], Some(2.5), Some([2., 2.5])),
    corner("over all points", PEAK, [-9., 9.], None, Some([1., 3.])),
    corner("over all points, falling", FALLING, [-9., 9.], None, Some([1., 3.])),
    corner("a segment runs back", BACK, [1., 1.], Some(2.), Some([1., 2.])),
    corner("a segment runs back to lo", BACK, [0., 0.], Some(3.), Some([1., 3.])),
    corner("beside points in no order", BACK, [3., 4.], None, None),
    corner("-0.0 as u and v", ZEROS, [0., 1.], Some(0.), Some([0., 1.])),
    corner("-0.0 as lo", ZEROS, [-0., 1.], Some(0.), Some([0., 1.])),
    corner("-0.0 as hi", ZEROS, [-1., -0.], None, Some([0., 0.])),
    corner("a subnormal u", SHORT, [LEAST, 1.], Some(2.), Some([2., 2.])),
    corner("a subnormal step", SHORT, [0., LEAST], Some(0.), Some([0., 2.])),
    corner("from -1e6 to 1e6", LONG, [-MILLION, MILLION], Some(1.), Some([1., 3.])),
    corner("an end that rounds away", STEEP, [1., 1.], Some(1e-11), Some([0., 1e-11])),
    corner("lo over hi", PEAK, [3., 1.], Some(2.), None),
    corner("lo over hi, falling", FALLING, [3., 1.], Some(2.), None),
    corner("lo over hi, in no order", BACK, [2., 0.], Some(1.), None),
    refused("lo no number", PEAK, [f64::NAN, 1.]),
    refused("lo infinite", PEAK, [f64::NEG_INFINITY, 1.]),
    refused("an infinite u", &[[0., 1.], [f64::INFINITY, 1.]], [0., 1.]),
    refused("a v that is no number", &[[0., 1.], [1., f64::NAN]], [0., 1.]),
];

/// Each corner by its name: its two calls, with what they answer.
pub fn corners() -> Vec<(&'static str, Call, Outcome)> {
    let mut calls = vec![];
    for corner in CORNERS {
        let points = corner.points.as_flattened().to_vec();
        let [lo, hi] = corner.query;
        let at = (corner.at)
            .map_err(Reason::only)
            .map(|v| Answer::Found(v.map(|v| vec![v])));
        let over = (corner.over)
            .map_err(Reason::only)
            .map(|v| Answer::Found(v.map(|v| v.to_vec())));
        let again = points.clone();
        calls.push((corner.name, Call::RadiusAt { points, u: lo }, at));
        let points = again;
        calls.push((corner.name, Call::RadiusRange { points, lo, hi }, over));
    }
    calls
}

fn at_corners() -> Vec<(Call, u32)> {
    let calls = corners().into_iter();
    calls
        .map(|(_, call, outcome)| (call, number(&outcome)))
        .collect()
}

/// A length at each corner of its rule: 2^-400, below which both parts are scaled, the least value, a
/// part that is no number or infinite, and squares that overflow.
fn lengths() -> Vec<(Call, u32)> {
    let tiny = 2_f64.powi(-400);
    let parts = [
        (tiny, 0., 0),
        (tiny.next_down(), 0., 0),
        (tiny.next_down(), -tiny.next_down(), 0),
        (LEAST, 0., 0),
        (LEAST, LEAST, 0),
        (tiny, LEAST, 0),
        (LEAST, -tiny, 0),
        (-0., 0., 0),
        (f64::NAN, LEAST, ARGUMENT),
        (LEAST, f64::NAN, ARGUMENT),
        (f64::INFINITY, 0., ARGUMENT),
        (LEAST, f64::NEG_INFINITY, ARGUMENT),
        (1e154, 1e200, ARGUMENT),
    ];
    parts
        .map(|(x, y, number)| (Call::Length { x, y }, number))
        .to_vec()
}

/// A profile of two points.
fn arc(a: [f64; 3], b: [f64; 3]) -> Vec<f64> {
    [a, b].as_flattened().to_vec()
}

/// So many points in a row, each the start of a semicircle.
fn semicircles(count: usize) -> Vec<f64> {
    let point = |k: usize| [1., 2. * k as f64, 1.];
    (0..count).flat_map(point).collect()
}

/// Profiles at the corners of Req 07 of 02, by name: the points, the tolerance, the room in numbers, and how many
/// chords they have or their refusal.
pub fn profiles() -> Vec<(&'static str, Call, Result<usize, u32>)> {
    let bits = f64::from_bits;
    let semi = || arc([1., 0., 1.], [1., 2., 0.]);
    let line = |z: f64| arc([1., 0., 0.], [1., z, 0.]);
    let three = || {
        [
            [20., 0., 0.3],
            [20., 10., 0.3],
            [20., 20., 0.3],
            [20., 30., 0.],
        ]
        .as_flattened()
        .to_vec()
    };
    let many = 5 * 1024;
    let mut list = vec![];
    let mut at = |name, points: Vec<f64>, tolerance, segments_len, outcome| {
        let call = Call::Segments {
            points,
            tolerance,
            segments_len,
        };
        list.push((name, call, outcome));
    };
    at(
        "ten halvings reach it",
        semi(),
        bits(0x3EB3BD3C88CDCBE7),
        many,
        Ok(1024),
    );
    at(
        "ten halvings do not",
        semi(),
        bits(0x3EB3BD3C88CDCBE6),
        many,
        Err(CHORDS),
    );
    at(
        "tolerance 0 of an arc",
        arc([1., 0., 0.5], [1., 2., 0.]),
        0.,
        many,
        Err(CHORDS),
    );
    at(
        "a half bulge that rounds to 0",
        arc([1., 0., LEAST], [1., 2., 0.]),
        0.,
        100,
        Ok(2),
    );
    at(
        "the same to the other side",
        arc([1., 0., -LEAST], [1., 2., 0.]),
        0.,
        100,
        Ok(2),
    );
    at("a line", line(2.), 0., 100, Ok(1));
    at(
        "a line by -0.0",
        arc([1., 0., -0.], [1., 2., -0.]),
        -0.,
        100,
        Ok(1),
    );
    at(
        "halves of unequal depth",
        arc([9., 0., 0.3], [1., 7., 0.]),
        bits(0x3FDA0FD9955EBE9A),
        100,
        Ok(3),
    );
    let near = arc([700000., 900000., 0.1], [700000., 900000.0000000016, 0.]);
    at("chords that are points", near, 1e-12, 100, Ok(16));
    at(
        "below the axis",
        arc([0., 0., 1.], [0., 2., 0.]),
        0.5,
        100,
        Ok(2),
    );
    at(
        "past a million",
        arc([1e6, 0., -1.], [1e6, 2., 0.]),
        0.5,
        100,
        Ok(2),
    );
    at(
        "-0.0 in a middle",
        arc([1., -LEAST, -LEAST], [3., 0., 0.]),
        0.,
        100,
        Ok(2),
    );
    at("exact room", three(), 0.1, 60, Ok(12));
    at("four numbers over", three(), 0.1, 64, Ok(12));
    at("one number short", three(), 0.1, 59, Err(CHORDS));
    at("one chord short", three(), 0.1, 55, Err(CHORDS));
    at("no chord's room", three(), 0.1, 4, Err(CHORDS));
    at("no room", three(), 0.1, 0, Err(CHORDS));
    at("distance 1e-9", line(1e-9), 0.1, 100, Err(PROFILE));
    at(
        "the next distance",
        line(1e-9_f64.next_up()),
        0.1,
        100,
        Ok(1),
    );
    at("equal neighbours", line(0.), 0.1, 100, Err(PROFILE));
    at(
        "a last bulge over 1",
        arc([1., 0., 0.], [1., 2., 1_f64.next_up()]),
        0.1,
        100,
        Err(PROFILE),
    );
    at(
        "bulges of 1",
        arc([1., 0., 1.], [1., 2., -1.]),
        1.,
        100,
        Ok(1),
    );
    at(
        "a bulge over 1",
        arc([1., 0., -1_f64.next_up()], [1., 2., 0.]),
        9.,
        100,
        Err(PROFILE),
    );
    at(
        "a radius below 0",
        arc([-LEAST, 0., 0.], [1., 2., 0.]),
        0.1,
        100,
        Err(PROFILE),
    );
    at(
        "a radius of -0.0",
        arc([-0., 0., 0.], [1., 2., 0.]),
        0.1,
        100,
        Ok(1),
    );
    for x in [
        f64::NAN,
        f64::INFINITY,
        f64::NEG_INFINITY,
        MILLION.next_up(),
        -MILLION.next_up(),
    ] {
        for place in 0..6 {
            let mut points = line(2.);
            points[place] = x;
            at(
                "a number that is not usable",
                points,
                0.1,
                100,
                Err(PROFILE),
            );
        }
        at(
            "a tolerance that is not usable",
            line(2.),
            x,
            100,
            Err(PROFILE),
        );
    }
    at(
        "a million everywhere",
        arc([MILLION, -MILLION, 0.], [MILLION, MILLION, 0.]),
        MILLION,
        100,
        Ok(1),
    );
    at("a negative tolerance", line(2.), -LEAST, 100, Err(PROFILE));
    for len in [0, 3, 5, 7] {
        at(
            "no whole points, or one",
            line(2.).repeat(2)[..len].to_vec(),
            0.1,
            100,
            Err(PROFILE),
        );
    }
    let most = MOST_PROFILE_POINTS;
    at(
        "the most points",
        semicircles(most),
        1.,
        5 * most,
        Ok(most - 1),
    );
    at(
        "one point more",
        semicircles(most + 1),
        1.,
        5 * most,
        Err(PROFILE),
    );
    let fine = bits(0x3EB3BD3C88CDCBE7);
    at(
        "261,120 chords into a small room",
        semicircles(most),
        fine,
        100,
        Err(CHORDS),
    );
    at(
        "17 before 18",
        arc([1., 0., 0.5], [1., 2., 2.]),
        0.,
        0,
        Err(PROFILE),
    );
    list
}

fn arcs() -> Vec<(Call, u32)> {
    let calls = profiles().into_iter();
    calls
        .map(|(_, call, outcome)| (call, outcome.err().unwrap_or(0)))
        .collect()
}

/// Every call at a limit or a corner, with why it is refused.
pub fn calls() -> Vec<(Call, Option<Reason>)> {
    let numbered = [
        lengths(),
        specs(),
        listed(),
        single(),
        stamps(),
        commits(),
        kept_numbers(),
        unnamed(ranges()),
        rings(),
        parts(),
        queries(),
        at_corners(),
        arcs(),
        passes::numbered(),
    ];
    let numbered = numbered.concat().into_iter();
    let placed = [
        positions::commits(),
        positions::rings(),
        positions::stale(),
        positions::blocks(),
    ];
    let placed = placed.concat();
    let placed = placed.into_iter().map(|(_, call, reason)| (call, reason));
    let refused = |number: u32| (number > 0).then(|| Reason::only(number));
    numbered
        .map(|(call, number)| (call, refused(number)))
        .chain(placed)
        .collect()
}
