//! Calls that change every bin of a bar, about the sizes where a call takes longer lists of its own and at the most (Req 14
//! of 02): each cut, its changes committed at once, and what is asked of the stock afterwards. No recording has them: their
//! lists are long.
use super::passes::on_bar;
use super::{CELL, STAMP, bar, kept, nose, over, polygon, room, row, whole};
use crate::call::{Call, List, PassRoom, Passes, Room, Simple};
use crate::oracle::ranges::blocks_len;
use crate::oracle::{MANY_CELLS, MOST_CELLS, MOST_PASSES, ROOM};

/// Two sizes of a call's own lists and one bin more, and the most bins.
const SIZES: [usize; 5] = [512, 513, MANY_CELLS, MANY_CELLS + 1, MOST_CELLS];

/// Every call over all bins of a bar, with its number.
pub fn all_bins() -> Vec<(Call, u32)> {
    let of = |n: &usize| [cuts(*n), commits(*n), asked(*n), checks(*n), proposals(*n)].concat();
    SIZES.iter().flat_map(of).collect()
}

/// A bin's cell afterwards, told apart from its neighbours'.
fn turned(i: usize) -> [f64; 4] {
    let x = (i % 509) as f64 / 1024.;
    [4. + x, 8. + x, 1. - x, 2. - x]
}

fn all_turned(n: usize) -> Vec<f64> {
    (0..n).flat_map(turned).collect()
}

/// Each cut of every bin: room for all changes, for one fewer, and one number short.
fn cuts(n: usize) -> Vec<(Call, u32)> {
    let (spec, cells, end) = (bar(n), whole(n), n as f64);
    let short = Room {
        records: 8 * n - 1,
        ..room(n)
    };
    let mut calls = vec![];
    for (room, number) in [(room(n), 0), (room(n - 1), ROOM), (short, ROOM)] {
        // from one end of the bar to the other, at radii that fall and that rise
        for (side, segments) in [
            (0, vec![9., 0., 3., end, 0.25]),
            (0, vec![3., 0., 6., end / 2., 0., 6., end / 2., 5., end, 0.]),
            (1, vec![1., 0., 6., end, 0.25]),
        ] {
            calls.push((nose(spec, &cells, side, 1., segments, room), number));
        }
        for (side, r) in [(0, [4., 7., 30., 20.]), (1, [0., 1., 6., 5.])] {
            let points = vec![-1., r[0], end + 1., r[1], end + 1., r[2], -1., r[3]];
            let mut call = polygon(spec, cells.clone(), side, 0.25, points);
            if let Call::PreviewPolygon { room: lent, .. } = &mut call {
                *lent = room;
            }
            calls.push((call, number));
        }
        let (z0, z1) = (end, 0.);
        for cut in [
            Simple::ThreadCut { z0, z1, radius: 3. },
            Simple::ThreadCutInner { z0, z1, radius: 6. },
            Simple::Drill {
                tip_z: 0.,
                radius: 4.,
                cone: end / 2.,
            },
        ] {
            let call = Call::Cut {
                spec,
                stamp: STAMP,
                cells: cells.clone(),
                cut,
                room,
            };
            calls.push((call, number));
        }
        let call = Call::ChangesTo {
            spec,
            stamp: STAMP,
            cells: cells.clone(),
            after: all_turned(n),
            room,
        };
        calls.push((call, number));
    }
    calls
}

/// A change of every bin.
fn list(n: usize) -> List {
    let records = |i: usize| [CELL, turned(i)].concat();
    List {
        indices: (0..n).collect(),
        records: (0..n).flat_map(records).collect(),
        changes: n,
        stamp: STAMP,
    }
}

/// All changes in one commit, and in one with a ring in the last bin; of a list with an index or a number too few 6.
fn commits(n: usize) -> Vec<(Call, u32)> {
    let (spec, stamp, cells) = (bar(n), STAMP, whole(n));
    let (mut index, mut number) = (list(n), list(n));
    index.indices.pop();
    number.records.pop();
    let mut calls = vec![];
    for (list, said) in [(list(n), 0), (index, ROOM), (number, ROOM)] {
        let (cells, blocks) = (cells.clone(), kept(&cells));
        let last = vec![n as f64 - 1., n as f64, 2., 3.];
        calls.push((
            Call::ApplyMove {
                spec,
                stamp,
                cells: cells.clone(),
                blocks: blocks.clone(),
                store: row(7, 9),
                list: list.clone(),
                removed: [vec![2., n as f64, 2., 3.], last].concat(),
            },
            said,
        ));
        calls.push((
            Call::Apply {
                spec,
                stamp,
                cells,
                blocks,
                list,
            },
            said,
        ));
    }
    calls
}

/// The stock afterwards rebuilt, its volume, its kept numbers, and what may remain at its last edges.
fn asked(n: usize) -> Vec<(Call, u32)> {
    let (spec, cells, end) = (bar(n), all_turned(n), n as f64);
    let (first, last) = (0_f64, end - 1.);
    let mut calls = vec![
        Call::FromParts {
            spec,
            stamp: STAMP,
            cells: cells.clone(),
            blocks: vec![f64::NAN; blocks_len(n)],
            given: row(256, 256).rings,
            rings_len: 4 * 256,
        },
        Call::Volume {
            spec,
            cells: cells.clone(),
            store: row(256, 256),
        },
        Call::Renew {
            spec,
            cells: cells.clone(),
            blocks: vec![f64::NAN; blocks_len(n)],
        },
    ];
    for z in [first, last - 1., last, last.next_down(), end, end.next_up()] {
        let cells = cells.clone();
        calls.push(Call::EnvelopeAt { spec, cells, z });
    }
    for (lo, hi) in [
        (0., end),
        (first.next_up(), last.next_down()),
        (last, end),
        (end, end),
        (last.next_up(), f64::INFINITY),
        (end.next_up(), f64::INFINITY),
    ] {
        calls.push(over(&cells, lo, hi));
    }
    calls.into_iter().map(|call| (call, 0)).collect()
}

/// Lines over all bins, 1, 2 and the most: every bin within its target, and one that is not.
fn checks(n: usize) -> Vec<(Call, u32)> {
    let end = n as f64;
    let lines = |count: usize| {
        let mut passes = Passes::default();
        for k in 0..count {
            let r = 9. - k as f64 / 64.;
            passes.push(0, [0.5, 0., r, 0., r, end], &[]);
        }
        passes
    };
    let mut calls = vec![];
    for count in [1, 2, MOST_PASSES] {
        let deep = 9. - (count - 1) as f64 / 64. - 0.5;
        let within = [deep, 10.].repeat(n);
        let mut first = within.clone();
        first[0] = deep.next_up();
        let mut last = within.clone();
        last[2 * n - 2] = deep.next_up();
        for targets in [within, first, last] {
            calls.push((on_bar(n, targets, lines(count)), 0));
        }
    }
    calls
}

/// Steps that fall along the whole bar: as many as there may be, and a step a bin.
fn proposals(n: usize) -> Vec<(Call, u32)> {
    let mut calls = vec![];
    for steps in [1, 2, 100, MOST_PASSES, MOST_PASSES + 1, n] {
        let target = |i: usize| [1. + 8. * ((i * steps / n) as f64) / steps as f64; 2];
        calls.push((
            Call::ProposePasses {
                spec: bar(n),
                cells: whole(n),
                targets: (0..n).flat_map(target).collect(),
                rn: 0.25,
                room: PassRoom {
                    kinds: MOST_PASSES,
                    numbers: 6 * MOST_PASSES,
                    parts: 2 * MOST_PASSES,
                },
            },
            0,
        ));
    }
    calls
}
