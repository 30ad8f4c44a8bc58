//! The rows of the table: rings, volumes, envelopes.
use super::rows::spec;
use super::sides;
use super::{Table, library_side, side};
use crate::call::{Call, List, Stamp, Store};
use crate::oracle::ranges::blocks;
use crate::oracle::stock::{Bar, bar, camlib_spec, camlib_stock, fresh, to_camlib};
use plain::turning::profile::Envelope;
use plain::turning::stock::TurnStock;
use std::hint::black_box;

pub fn store(rings: &[[f64; 4]]) -> Store {
    let mut store = Store {
        rings: rings.as_flattened().to_vec(),
        count: rings.len(),
    };
    store.rings.resize(1024, 0.);
    store
}

/// Rings that lie apart in a row.
pub fn row_of_rings(bar: &Bar, count: usize) -> Vec<[f64; 4]> {
    let width = bar.spec.z_max / (2 * count + 1) as f64;
    let z = |k: usize| width * (2 * k + 1) as f64;
    (0..count).map(|k| [z(k), z(k) + width, 4., 5.]).collect()
}

pub fn rings(table: &Table) {
    let bar = bar(&spec(8, 10., 0.)).unwrap();
    let cells = fresh(&bar);
    let (z_max, outer) = (bar.spec.z_max, bar.spec.outer);
    for count in [0, 16, 64] {
        let kept = row_of_rings(&bar, count);
        let stock = camlib_stock(&bar, &cells, &kept);
        let cases = [
            ("one apart", [0., z_max, 6., 7.]),
            ("one over all", [0., z_max, 0., outer]),
        ];
        for (name, ring) in cases {
            let [z0, z1, r0, r1] = ring;
            if count == 64 && r1 == outer {
                continue;
            }
            table.row(&format!("remove_ring, {count} stored, {name}"), || {
                [
                    side(1, || {
                        let mut stock = stock.clone();
                        stock.remove_ring(black_box([z0, z1]), [r0, r1]);
                        stock
                    }),
                    None,
                    library_side(Call::RemoveRing {
                        spec: bar.spec,
                        store: store(&kept),
                        generation: 0,
                        ring,
                    }),
                ]
            });
        }
        let removed = vec![
            [0., z_max, 6., 7.],
            [0., z_max, 6.5, 7.5],
            [0., z_max, 1., 2.],
        ];
        table.row(&format!("apply_move, {count} stored, 3 removed"), || {
            [
                side(1, || {
                    let mut stock = stock.clone();
                    stock.apply_move(&[], black_box(&removed)).unwrap();
                    stock
                }),
                None,
                library_side(Call::ApplyMove {
                    spec: bar.spec,
                    stamp: Stamp::default(),
                    cells: cells.as_flattened().to_vec(),
                    blocks: blocks(&bar, &cells),
                    store: store(&kept),
                    list: List::default(),
                    removed: removed.as_flattened().to_vec(),
                }),
            ]
        });
    }
    for count in [16, 128] {
        let given = row_of_rings(&bar, count);
        let camlib_cells: Vec<_> = cells.iter().map(to_camlib).collect();
        table.row(&format!("from_parts, {count} rings apart"), || {
            [
                side(1, || {
                    TurnStock::from_parts(
                        camlib_spec(&bar.spec),
                        camlib_cells.clone(),
                        given.clone(),
                    )
                }),
                None,
                library_side(Call::FromParts {
                    spec: bar.spec,
                    stamp: Stamp::default(),
                    cells: cells.as_flattened().to_vec(),
                    blocks: blocks(&bar, &cells),
                    given: given.as_flattened().to_vec(),
                    rings_len: 1024,
                }),
            ]
        });
    }
}

pub fn volumes(table: &Table, bar: &Bar) {
    let cells = fresh(bar);
    for count in [0, 4, 64] {
        let kept = row_of_rings(bar, count);
        let stock = camlib_stock(bar, &cells, &kept);
        table.row(&format!("volume, 4,096 bins, {count} rings"), || {
            [
                side(1, || black_box(&stock).volume()),
                None,
                library_side(Call::Volume {
                    spec: bar.spec,
                    cells: cells.as_flattened().to_vec(),
                    store: store(&kept),
                }),
            ]
        });
    }
    let stock = camlib_stock(bar, &cells, &[]);
    table.row("envelope_at, 4,096 bins", || {
        [
            side(1, || black_box(&stock).envelope_at(black_box(300.3))),
            None,
            library_side(Call::EnvelopeAt {
                spec: bar.spec,
                cells: cells.as_flattened().to_vec(),
                z: 300.3,
            }),
        ]
    });
    ranges(table, bar);
}

/// A range beside a plain walk, and beside the library's own `envelope_at`.
fn ranges(table: &Table, bar: &Bar) {
    let seen = || {
        library_side(Call::EnvelopeAt {
            spec: bar.spec,
            cells: fresh(bar).as_flattened().to_vec(),
            z: 300.3,
        })
    };
    let over = "range, 4,094 of 4,096 bins; in the Rust's place";
    table.row(&format!("{over} a plain walk"), || sides::range(bar.n));
    table.row(&format!("{over} the library's envelope_at"), || {
        let [.., ours] = sides::range(bar.n);
        [seen(), None, ours]
    });
    table.row(
        "range, one bin of 4,096; in the Rust's place the library's envelope_at",
        || {
            let cells = fresh(bar);
            let ours = library_side(Call::Range {
                spec: bar.spec,
                cells: cells.as_flattened().to_vec(),
                blocks: blocks(bar, &cells),
                lo: 300.3,
                hi: 300.3,
            });
            [seen(), None, ours]
        },
    );
}

pub fn envelopes(table: &Table) {
    let rising: Vec<[f64; 2]> = (0..1024)
        .map(|k| [k as f64 * 0.25, 20. + (k as f64 * 0.1).sin()])
        .collect();
    let mut neither = rising.clone();
    neither.swap(0, 1);
    for (name, points) in [("rising", &rising), ("in no order", &neither)] {
        let flat = || points.as_flattened().to_vec();
        table.row(&format!("envelope_order, 1,024 points {name}: new"), || {
            [
                side(1, || Envelope::new(black_box(points.clone()))),
                None,
                library_side(Call::EnvelopeOrder { points: flat() }),
            ]
        });
        let made = Envelope::new(points.clone());
        let (u, lo, hi) = (100.1, 100.1, 110.1);
        table.row(&format!("radius_at, 1,024 points {name}"), || {
            [
                side(1, || black_box(&made).radius_at(black_box(u))),
                None,
                library_side(Call::RadiusAt { points: flat(), u }),
            ]
        });
        table.row(&format!("radius_range, 1,024 points {name}"), || {
            [
                side(1, || black_box(&made).radius_range(black_box(lo), hi)),
                None,
                library_side(Call::RadiusRange {
                    points: flat(),
                    lo,
                    hi,
                }),
            ]
        });
        table.row(
            &format!("within, 1,024 points {name}: new and radius_at"),
            || {
                [
                    side(1, || Envelope::new(black_box(points.clone())).radius_at(u)),
                    None,
                    library_side(Call::Within {
                        points: flat(),
                        lo,
                        hi,
                    }),
                ]
            },
        );
    }
}
