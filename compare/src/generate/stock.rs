//! Bars, cells, and places on a bar.
use super::Rng;
use super::blocks::{bar_of_blocks, some_len};
use super::changes::stamp;
use super::numbers::{any, damaged, edge, outside};
use crate::call::{Answer, Call, Room, Simple, Spec, Stamp};
use crate::oracle::stock::{Bar, bar, fresh};
use crate::oracle::{MANY_CELLS, MOST_CELLS, answer};

const fn spec(z_min: f64, z_max: f64, outer: f64, bore: f64, cell: f64) -> Spec {
    Spec {
        z_min,
        z_max,
        outer,
        bore,
        cell,
        max_cells: MOST_CELLS,
    }
}

/// 01's bars, and bars whose bins round into empty or turned ones, or lie at an edge of f64.
const KNOWN: [Spec; 20] = [
    spec(0., 9., 10., 0., 3.),
    spec(0., 4., 10., 0., 1.),
    spec(0.1, 0.4, 10., 0., 0.1),
    spec(-0.002, 0.007, 10., 2., 0.003),
    spec(-0.001, 0.019, 10., 0., 0.001),
    spec(-1., 0., 10., 0., 1.),
    spec(-1., -0., 10., -0., 0.25),
    spec(-1., -0., 10., 0., 0.3),
    spec(0., 8., 10., 0., 1.),
    spec(-1e6, 1e6, 1e6, 0., 1e5),
    spec(-1e6, 1e6, 1e6, 999_999., 1e6),
    spec(0., 35e-324, 10., 0., 5e-324),
    spec(-2e-323, 2e-323, 5e-324, 0., 1e-323),
    spec(0., 1e-300, 1e-300, 1e-310, 1e-301),
    spec(999_999.999, 1e6, 3., 1., 0.0001),
    spec(0., 8e-12, 10., 0., 2e-12),
    spec(0.7, 1.0, 5., 0., 0.1),
    spec(-20.3, 0., 12.7, 3.175, 0.7),
    spec(-0.524, 28.976, 12.7, 3.175, 1.),
    // bins below an ulp of z
    spec(1., 1.0000000000000002, 10., 0., 5.551115123125783e-17),
];

fn shop(rng: &mut Rng) -> Spec {
    let z_min = rng.written(-20., 20.);
    let z_max = z_min + rng.written(0.5, 30.);
    let cell = match rng.below(5) {
        0 => (z_max - z_min) / (1 + rng.below(40)) as f64,
        1 => rng.between(0.3, 3.),
        _ => rng.pick(&[0.5, 1., 2., 0.7, 2.5]),
    };
    let outer = rng.written(1., 30.);
    let bore = match rng.below(5) {
        0 => outer.next_down(),
        1 | 2 => rng.between(0., outer * 0.9),
        _ => 0.,
    };
    spec(z_min, z_max, outer, bore, cell)
}

/// A bar written in whole tenths, hundredths or thousandths: its last bin may round to be empty, or
/// turned about.
fn decimal(rng: &mut Rng) -> Spec {
    let unit = rng.pick(&[10., 100., 1000.]);
    let (start, cell) = (rng.below(41) as f64 - 20., 1. + rng.below(9) as f64);
    let end = start + cell * (1 + rng.below(20)) as f64;
    let bore = rng.pick(&[0., 0., 1.]);
    spec(start / unit, end / unit, 10., bore, cell / unit)
}

/// A bar of many cells, now and then of more, up to as many as there may be.
fn long(rng: &mut Rng) -> Spec {
    let n = match rng.below(12) {
        0 => MOST_CELLS - rng.below(2),
        1 => MANY_CELLS + 1 + rng.below(MOST_CELLS - MANY_CELLS),
        2 => MANY_CELLS + 1,
        _ => MANY_CELLS - rng.below(2),
    };
    let n = n as f64;
    let cell = rng.pick(&[0.125, 0.25, 1.]);
    let z_min = rng.pick(&[0., -8., 100.]);
    spec(z_min, z_min + n * cell, 50., rng.pick(&[0., 10.]), cell)
}

/// A bar that is accepted, of many cells or of the most.
pub fn long_bar(rng: &mut Rng) -> Bar {
    base_or_long(rng, 1)
}

/// A bar that is accepted; now and then a long one.
pub fn base(rng: &mut Rng) -> Bar {
    base_or_long(rng, 300)
}

/// A bar that is accepted, a long one once in so many times.
fn base_or_long(rng: &mut Rng, times: usize) -> Bar {
    loop {
        let mut spec = match rng.below(5) {
            _ if rng.once_in(times) => long(rng),
            0 => rng.pick(&KNOWN),
            1 => decimal(rng),
            _ => shop(rng),
        };
        spec.max_cells = usize::MAX;
        let Ok(made) = bar(&spec) else { continue };
        spec.max_cells = match rng.below(4) {
            0 => made.n,
            1 => usize::MAX,
            _ => MOST_CELLS,
        };
        return Bar { spec, n: made.n };
    }
}

/// The bar's spec, now and then not accepted or at an edge.
pub fn damaged_spec(rng: &mut Rng, base: &Bar) -> Spec {
    let mut s = base.spec;
    match rng.below(100) {
        0 => s.max_cells = base.n - 1,
        1 => s.max_cells = rng.pick(&[0, 1, MANY_CELLS, MOST_CELLS]),
        2 => s.bore = rng.pick(&[s.outer, -s.outer, s.outer.next_up(), -f64::from_bits(1)]),
        3 => s.cell = rng.pick(&[0., -0., -s.cell, f64::from_bits(1), f64::INFINITY]),
        4 => s.z_max = rng.pick(&[s.z_min, s.z_min.next_down(), s.z_max + s.cell]),
        5 => s.z_max += s.cell,
        6 => {
            let x = if rng.once_in(2) {
                outside(rng)
            } else {
                edge(rng)
            };
            match rng.below(5) {
                0 => s.z_min = x,
                1 => s.z_max = x,
                2 => s.outer = x,
                3 => s.bore = x,
                _ => s.cell = x,
            }
        }
        7 => s.outer = rng.pick(&[0., -0., -s.outer]),
        // A quotient that vanishes.
        8 => (s.z_min, s.z_max, s.cell) = (0., f64::from_bits(1), rng.pick(&[2., 3., 1e6])),
        _ => {}
    }
    s
}

/// A bin's start or end.
pub fn bin_edge(rng: &mut Rng, base: &Bar) -> f64 {
    let za = base.spec.z_min + rng.below(base.n) as f64 * base.spec.cell;
    let zb = (za + base.spec.cell).min(base.spec.z_max);
    rng.pick(&[za, zb])
}

/// A z on the bar or near it.
pub fn z_near(rng: &mut Rng, base: &Bar) -> f64 {
    let s = base.spec;
    let z = match rng.below(14) {
        0..4 => bin_edge(rng, base),
        4 => bin_edge(rng, base).next_up(),
        5 => bin_edge(rng, base).next_down(),
        6 => bin_edge(rng, base) + s.cell / 2.,
        7 => rng.pick(&[s.z_min, s.z_max]),
        8 => rng.between(s.z_min - 3. * s.cell, s.z_max + 3. * s.cell),
        9 => rng.written(-50., 50.),
        10 if rng.once_in(3) => edge(rng),
        _ => rng.between(s.z_min, s.z_max),
    };
    z.clamp(-1e6, 1e6)
}

/// A radius in the material or near it.
pub fn r_near(rng: &mut Rng, base: &Bar) -> f64 {
    let s = base.spec;
    let r = match rng.below(14) {
        0 => s.outer,
        1 => s.bore,
        2 => rng.pick(&[0., -0.]),
        3 => rng.between(-2., s.outer + 5.),
        4 => rng.written(0., s.outer),
        5 => rng.between(s.outer, s.outer + 5.),
        6 if rng.once_in(3) => edge(rng),
        _ => rng.between(s.bore, s.outer),
    };
    r.clamp(-1e6, 1e6)
}

/// A radius that a cell may hold.
fn r_within(rng: &mut Rng, base: &Bar) -> f64 {
    let s = base.spec;
    let r = match rng.below(8) {
        0 => s.bore,
        1 => s.outer,
        2 => rng.between(s.bore, s.outer).round(),
        _ => rng.between(s.bore, s.outer),
    };
    r.clamp(s.bore, s.outer) + 0.
}

pub fn random_cell(rng: &mut Rng, base: &Bar) -> [f64; 4] {
    let mut cell = [0; 4].map(|_| r_within(rng, base));
    cell[..2].sort_by(f64::total_cmp);
    cell[2..].sort_by(f64::total_cmp);
    if rng.once_in(2) && cell[2] > cell[1] {
        cell.rotate_left(2);
    }
    if rng.once_in(4) {
        cell[0] = cell[1];
    }
    if rng.once_in(4) {
        cell[3] = cell[2];
    }
    cell
}

/// Cells that fit: new, random, or left by some cuts.
pub fn good_cells(rng: &mut Rng, base: &Bar) -> Vec<[f64; 4]> {
    let mut cells = fresh(base);
    match rng.below(4) {
        0 => {}
        1 => cells.fill_with(|| random_cell(rng, base)),
        2 => {
            for _ in 0..rng.below(6) {
                let i = rng.below(base.n);
                cells[i] = random_cell(rng, base);
            }
        }
        _ => {
            for _ in 0..1 + rng.below(3) {
                cells = after_some_cut(rng, base, cells);
            }
        }
    }
    cells
}

fn after_some_cut(rng: &mut Rng, base: &Bar, mut cells: Vec<[f64; 4]>) -> Vec<[f64; 4]> {
    let call = some_cut(rng, base, cells.as_flattened().to_vec());
    if let Ok(Answer::Changes(changes, _)) = answer(&call) {
        for c in changes {
            cells[c.index] = c.after;
        }
    }
    cells
}

/// A cut of the bar with room for every cell.
pub fn some_cut(rng: &mut Rng, base: &Bar, cells: Vec<f64>) -> Call {
    let (spec, stamp) = (base.spec, Stamp::default());
    let room = Room {
        indices: base.n,
        records: 8 * base.n,
    };
    let (z, w) = (z_near(rng, base), z_near(rng, base));
    let (r, q) = (r_near(rng, base), r_near(rng, base));
    match rng.below(4) {
        0 => Call::Cut {
            spec,
            stamp,
            cells,
            cut: Simple::Drill {
                tip_z: z,
                radius: r.abs(),
                cone: rng.pick(&[0., 1., 2.5]),
            },
            room,
        },
        1 => Call::Cut {
            spec,
            stamp,
            cells,
            cut: Simple::ThreadCut {
                z0: z,
                z1: w,
                radius: r.abs(),
            },
            room,
        },
        side => Call::Preview {
            spec,
            stamp,
            cells,
            side: side as u32 % 2,
            rn: rng.written(0., 5.),
            segments: vec![r, z, q, w, 0.],
            room,
        },
    }
}

/// The cells as lent, now and then with one that does not fit, or one too many or too few.
pub fn damaged_cells(rng: &mut Rng, base: &Bar, cells: &[[f64; 4]]) -> Vec<f64> {
    let mut lent = cells.as_flattened().to_vec();
    let at = rng.below(lent.len());
    match rng.below(80) {
        0 => lent[at] = outside(rng),
        1 => lent[at] = -0.,
        2 => lent[at] = rng.pick(&[base.spec.outer.next_up(), base.spec.bore.next_down()]),
        3 => lent.swap(at & !1, at | 1),
        4 => lent.truncate(rng.pick(&[0, at, lent.len() - 1, lent.len() - 4])),
        5 => lent.extend(vec![base.spec.outer; rng.pick(&[1, 3, 4, 8])]),
        6 => lent[at] = any(rng),
        _ => {}
    }
    lent
}

/// validate, bin, new.
pub fn stock_call(rng: &mut Rng) -> Call {
    let base = match rng.below(3) {
        0 => bar_of_blocks(rng),
        _ => base_or_long(rng, 12),
    };
    let mut spec = damaged_spec(rng, &base);
    if rng.once_in(4) {
        spec = damaged_spec(rng, &Bar { spec, n: base.n });
    }
    match rng.below(3) {
        0 => Call::Validate { spec },
        1 => Call::Bin {
            spec,
            i: match rng.below(8) {
                0 => base.n,
                1 => rng.pick(&[
                    0,
                    base.n - 1,
                    base.n + 1,
                    usize::MAX,
                    MANY_CELLS,
                    MOST_CELLS - 1,
                    MOST_CELLS,
                ]),
                _ => rng.below(base.n),
            },
        },
        _ => Call::New {
            spec,
            stamp: stamp(rng),
            cells_len: match rng.below(10) {
                0 => rng.pick(&[0, base.n, 4 * base.n - 1, 4 * base.n + 1, 4 * base.n + 4]),
                _ => 4 * base.n,
            },
            blocks_len: some_len(rng, base.n),
        },
    }
}

pub fn envelope_at(rng: &mut Rng) -> Call {
    let base = base(rng);
    let cells = good_cells(rng, &base);
    Call::EnvelopeAt {
        spec: damaged_spec(rng, &base),
        cells: damaged_cells(rng, &base, &cells),
        z: match rng.below(12) {
            0 => any(rng),
            1 => outside(rng),
            2 => damaged(rng, base.spec.z_max),
            3 => bin_edge(rng, &base).next_up(),
            4 => bin_edge(rng, &base).next_down(),
            5..9 => bin_edge(rng, &base),
            _ => z_near(rng, &base),
        },
    }
}
