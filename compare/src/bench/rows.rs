//! The rows of the table: numbers, cells, cuts; the rest is in `queries`.
use super::queries::{envelopes, rings, volumes};
use super::sides::{length_side, nose_of, polygon_of, root_side, ruled_length};
use super::{Table, cleared_side, library_side, side};
use crate::call::{Call, List, Room, Simple, Spec, Stamp};
use crate::generate::Rng;
use crate::generate::numbers::{parts, radicand};
use crate::guess;
use crate::oracle::MOST_CELLS;
use crate::oracle::ranges::blocks;
use crate::oracle::stock::{Bar, bar, camlib_spec, camlib_stock, fresh, to_camlib};
use plain::turning::stock::TurnStock;
use std::hint::black_box;

/// A bar of so many bins of 0.125, of which neighbours share their edge to the bit.
pub fn spec(cells: usize, outer: f64, bore: f64) -> Spec {
    spec_of(0.125, cells as f64 * 0.125, outer, bore)
}

pub fn spec_of(cell: f64, z_max: f64, outer: f64, bore: f64) -> Spec {
    Spec {
        z_min: 0.,
        z_max,
        outer,
        bore,
        cell,
        max_cells: MOST_CELLS,
    }
}

pub fn room(n: usize) -> Room {
    Room {
        indices: n,
        records: 8 * n,
    }
}

pub fn all(table: &Table) {
    numbers(table);
    let bar = bar(&spec(4096, 50., 0.)).unwrap();
    cells(table, &bar);
    noses(table, &bar, "");
    let uneven = crate::oracle::stock::bar(&spec_of(0.1, 409.6, 50., 0.)).unwrap();
    noses(table, &uneven, ", cell 0.1");
    many_segments(table, &bar);
    polygons(table, &bar);
    rings(table);
    volumes(table, &bar);
    envelopes(table);
}

fn numbers(table: &Table) {
    let mut rng = Rng::new(1);
    const MANY: usize = 1024;
    let mut xs: Vec<f64> = vec![];
    while xs.len() < MANY {
        let x = radicand(&mut rng);
        if x.is_normal() && x > 0. {
            xs.push(x);
        }
    }
    let shop: Vec<f64> = (0..MANY).map(|_| rng.between(0.01, 2500.)).collect();
    let missed = guess::missed(MANY);
    for (name, xs) in [
        ("root, every exponent", &xs),
        ("root, shop sizes", &shop),
        ("root, values that the guess misses", &missed),
    ] {
        table.row(name, || {
            [
                side(MANY, || {
                    xs.iter().map(|x| black_box(*x).sqrt()).sum::<f64>()
                }),
                None,
                root_side(xs.clone()),
            ]
        });
    }
    let pairs: Vec<(f64, f64)> = (0..MANY).map(|_| parts(&mut rng)).collect();
    let shop: Vec<(f64, f64)> = (0..MANY)
        .map(|_| (rng.between(-50., 50.), rng.between(-400., 400.)))
        .collect();
    for (name, xs) in [("length, any parts", &pairs), ("length, shop sizes", &shop)] {
        table.row(name, || {
            let hypot = |p: &(f64, f64)| black_box(p.0).hypot(p.1);
            [
                side(MANY, move || xs.iter().map(hypot).sum::<f64>()),
                side(MANY, move || xs.iter().map(ruled_length).sum::<f64>()),
                length_side(xs.clone()),
            ]
        });
    }
}

/// The fit of all cells.
fn fit(table: &Table, bar: &Bar, count: &str) {
    let cells = fresh(bar);
    let camlib_cells: Vec<_> = cells.iter().map(to_camlib).collect();
    let name = format!("fit of {count} cells: apply of no changes, from_parts");
    table.row(&name, || {
        [
            side(1, || {
                TurnStock::from_parts(camlib_spec(&bar.spec), camlib_cells.clone(), vec![])
            }),
            None,
            library_side(Call::Apply {
                spec: bar.spec,
                stamp: Stamp::default(),
                cells: cells.as_flattened().to_vec(),
                blocks: blocks(bar, &cells),
                list: List::default(),
            }),
        ]
    });
}

/// The fit of the cells, threads, the drill.
fn cells(table: &Table, bar: &Bar) {
    fit(table, bar, "4,096");
    let most = crate::oracle::stock::bar(&spec(MOST_CELLS, 50., 0.)).unwrap();
    fit(table, &most, "16,384");
    let cells = fresh(bar);
    let lent = || cells.as_flattened().to_vec();
    let stock = camlib_stock(bar, &cells, &[]);
    table.row("changes_to, 4,096 cells, none differ", || {
        [
            side(1, || stock.changes_to(black_box(&stock))),
            None,
            library_side(Call::ChangesTo {
                spec: bar.spec,
                stamp: Stamp::default(),
                cells: lent(),
                after: lent(),
                room: room(bar.n),
            }),
        ]
    });
    let cut = |cut: Simple| {
        library_side(Call::Cut {
            spec: bar.spec,
            stamp: Stamp::default(),
            cells: lent(),
            cut,
            room: room(bar.n),
        })
    };
    for (name, z0, z1) in [("all", 0., 512.), ("40", 100., 105.)] {
        let radius = 40.;
        table.row(&format!("thread_cut, {name} of 4,096 bins"), || {
            [
                side(1, || stock.thread_cut(black_box(z0), z1, radius)),
                None,
                cut(Simple::ThreadCut { z0, z1, radius }),
            ]
        });
        table.row(&format!("thread_cut_inner, {name} of 4,096 bins"), || {
            [
                side(1, || stock.thread_cut_inner(black_box(z0), z1, radius)),
                None,
                cut(Simple::ThreadCutInner { z0, z1, radius }),
            ]
        });
    }
    let (z0, z1, radius) = (0., 512., 40.);
    table.row(
        "thread_cut, all of 4,096 bins, buffers cleared first",
        || {
            [
                side(1, || stock.thread_cut(black_box(z0), z1, radius)),
                None,
                cleared_side(Call::Cut {
                    spec: bar.spec,
                    stamp: Stamp::default(),
                    cells: lent(),
                    cut: Simple::ThreadCut { z0, z1, radius },
                    room: room(bar.n),
                }),
            ]
        },
    );
    for (name, tip_z) in [("all", -1.), ("half", 256.)] {
        let (radius, cone) = (8., 3.);
        table.row(&format!("drill, {name} of 4,096 bins"), || {
            [
                side(1, || stock.drill(black_box(tip_z), radius, cone)),
                None,
                cut(Simple::Drill {
                    tip_z,
                    radius,
                    cone,
                }),
            ]
        });
    }
}

/// Noses over 4,096 bins: one segment and 64, long and short, of several radii, both sides. At a cell of
/// 0.125 two bins share their edge to the bit; at 0.1 they often do not.
fn noses(table: &Table, bar: &Bar, cell: &str) {
    let z_max = bar.spec.z_max;
    let mut rng = Rng::new(1);
    for rn in [0.8, 10., 50.] {
        let over = |r: f64| r + rn;
        let long = |k: usize| {
            let by = k as f64 * 0.01;
            [over(38.) + by, 0.5 + by, over(36.3), z_max - 0.5, 0.]
        };
        let mut short = |_| {
            let z = rng.between(1., z_max - 1.);
            [
                over(rng.between(30., 48.)),
                z,
                over(rng.between(30., 48.)),
                z + rng.between(-1., 1.),
                0.,
            ]
        };
        let chain = |k: usize| {
            let at = |j: usize| {
                (
                    over(38. + 3. * (j as f64 * 0.7).sin()),
                    z_max * j as f64 / 64.,
                )
            };
            let ((a_r, a_z), (b_r, b_z)) = (at(k), at(k + 1));
            [a_r, a_z, b_r, b_z, 0.]
        };
        let lists: [(&str, Vec<[f64; 5]>); 5] = [
            ("1 long", vec![long(0)]),
            ("1 short", vec![short(0)]),
            ("64 long", (0..64).map(long).collect()),
            ("64 short", (0..64).map(&mut short).collect()),
            ("64 in a chain", (0..64).map(chain).collect()),
        ];
        for (name, list) in &lists {
            for outside in [true, false] {
                nose_row(table, bar, rn, &format!("{name}{cell}"), list, outside);
            }
        }
        let sagging: Vec<[f64; 5]> = lists[4]
            .1
            .iter()
            .map(|s| [s[0], s[1], s[2], s[3], 0.01])
            .collect();
        let name = format!("64 in a chain, sag 0.01{cell}");
        nose_row(table, bar, rn, &name, &sagging, true);
    }
}

/// Noses at the limit of segments, short ones and long, and an arc as 512 chords.
fn many_segments(table: &Table, bar: &Bar) {
    let z_max = bar.spec.z_max;
    let rn = 0.8;
    let mut rng = Rng::new(1);
    let mut short = |_| {
        let z = rng.between(1., z_max - 1.);
        let r = rng.between(30., 48.);
        [
            r + rn,
            z,
            r + rn + rng.between(-1., 1.),
            z + rng.between(-0.2, 0.2),
            0.,
        ]
    };
    let long = |k: usize| {
        let by = k as f64 * 0.001;
        [38. + rn + by, 0.5 + by, 36.3 + rn, z_max - 0.5, 0.]
    };
    let arc = [38., 0., 0.1, 38., z_max, 0.];
    let chords = crate::oracle::profile::segments(&arc, 25.6 * 0.25_f64.powi(9), 5 * 4096);
    let lists: [(&str, Vec<[f64; 5]>); 3] = [
        ("4,096 short", (0..4096).map(&mut short).collect()),
        ("4,096 long", (0..4096).map(long).collect()),
        ("an arc as 512 chords", chords.unwrap()),
    ];
    for (name, list) in &lists {
        nose_row(table, bar, rn, name, list, true);
    }
}

fn nose_row(table: &Table, bar: &Bar, rn: f64, name: &str, list: &[[f64; 5]], outside: bool) {
    // The inside nose runs as deep under the surface as the outside one above it.
    let down = |r: f64| if outside { r } else { r - 2. * rn - 20. };
    let list: Vec<[f64; 5]> = list
        .iter()
        .map(|s| [down(s[0]), s[1], down(s[2]), s[3], s[4]])
        .collect();
    let side_name = if outside { "outside" } else { "inside" };
    table.row(&format!("preview, {name}, rn {rn}, {side_name}"), || {
        nose_of(bar, rn, outside, &list)
    });
}

fn polygons(table: &Table, bar: &Bar) {
    let insert = |z0: f64, z1: f64, count: usize| -> Vec<[f64; 2]> {
        // Half a circle below and a straight top.
        let (middle, half) = ((z0 + z1) / 2., (z1 - z0) / 2.);
        (0..count)
            .map(|k| {
                let t = std::f64::consts::PI * (1. + k as f64 / (count - 1) as f64);
                [middle + half * t.cos(), 60. + 20. * t.sin()]
            })
            .collect()
    };
    let cases = [
        ("4 points over 64 bins", insert(100., 108., 4)),
        ("4 points over all bins", insert(-1., 513., 4)),
        ("64 points over 64 bins", insert(100., 108., 64)),
        ("64 points over all bins", insert(-1., 513., 64)),
    ];
    for (name, points) in &cases {
        table.row(&format!("preview_polygon, {name}"), || {
            polygon_of(bar, points)
        });
    }
}
