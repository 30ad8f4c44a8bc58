//! Kept numbers of blocks as they are lent, their renewal, and ranges of heights.
use super::Rng;
use super::numbers::{any, outside};
use super::stock::{base, bin_edge, damaged_cells, damaged_spec, good_cells, random_cell, z_near};
use crate::call::{Call, Spec};
use crate::oracle::ranges::{BLOCK, blocks};
use crate::oracle::stock::{Bar, bar, fresh};
use crate::oracle::{MANY_CELLS, MOST_CELLS};

type Cell = [f64; 4];

/// About as many bins as one block, two or three have.
const BINS: [usize; 13] = [1, 2, 62, 63, 64, 65, 66, 127, 128, 129, 130, 192, 193];

/// Many bins, and now and then as many as there may be and one fewer.
const MOST: [usize; 9] = [
    MANY_CELLS - 1,
    MANY_CELLS,
    MANY_CELLS - 1,
    MANY_CELLS,
    MANY_CELLS - 1,
    MANY_CELLS,
    MANY_CELLS + 1,
    MOST_CELLS - 1,
    MOST_CELLS,
];

/// A bar that is accepted, as a rule of about so many bins as blocks have; the last bin may round to be
/// one more, empty or turned about.
pub fn bar_of_blocks(rng: &mut Rng) -> Bar {
    loop {
        let n = match rng.below(24) {
            0 => rng.pick(&MOST),
            _ => rng.pick(&BINS),
        };
        let cell = rng.pick(&[1., 0.5, 0.25, 0.1, 0.7, 0.003, 1. / 3.]);
        let z_min = rng.pick(&[0., -8., 0.1, -20.3, 100., -0.524]);
        let outer = rng.pick(&[10., 50., 12.7]);
        let spec = Spec {
            z_min,
            z_max: z_min + n as f64 * cell,
            outer,
            bore: rng.pick(&[0., 0., -0., 3.175, outer - 1.]),
            cell,
            max_cells: rng.pick(&[MOST_CELLS, usize::MAX]),
        };
        if let Ok(Bar { n, .. }) = bar(&spec) {
            return Bar { spec, n };
        }
    }
}

/// A bar that is accepted, once in four of about so many bins as blocks have.
pub fn base_or_blocks(rng: &mut Rng) -> Bar {
    match rng.below(4) {
        0 => bar_of_blocks(rng),
        _ => base(rng),
    }
}

/// A cell that holds no material.
fn empty_cell(rng: &mut Rng, base: &Bar) -> Cell {
    let [a, b, c, d] = random_cell(rng, base);
    match rng.below(3) {
        // the bounds meet
        0 => [a, b, b, d.max(b)],
        1 => [a, a, a, a],
        _ => [a.min(c), b.min(c), c.max(b), d.max(b)],
    }
}

/// Cells that fit; now and then blocks, every second bin or nearly all hold no material.
pub fn patchy_cells(rng: &mut Rng, base: &Bar) -> Vec<Cell> {
    let mut cells = good_cells(rng, base);
    let kind = rng.below(12);
    let part = rng.below(2);
    let only = rng.below(base.n);
    for (i, cell) in cells.iter_mut().enumerate() {
        let none = match kind {
            0 => i % 2 == part,
            1 => i / BLOCK % 2 == part,
            2 => i != only,
            3 => true,
            _ => false,
        };
        if none {
            *cell = empty_cell(rng, base);
        }
    }
    cells
}

/// The kept numbers of cells that fit.
pub fn own(base: &Bar, cells: &[Cell]) -> Vec<f64> {
    let bar = bar(&base.spec).expect("a base is accepted");
    blocks(&bar, cells)
}

/// The kept numbers of a stock that has more in some bins: as before the last commit.
fn earlier(rng: &mut Rng, base: &Bar, cells: &[Cell]) -> Vec<f64> {
    let (mut before, new) = (cells.to_vec(), fresh(base));
    let from = rng.below(base.n);
    let most = 1 + rng.below(base.n - from);
    let count = 1 + rng.below(most);
    before[from..from + count].copy_from_slice(&new[from..from + count]);
    own(base, &before)
}

/// The kept numbers of the cells as lent, one of five lists damaged: a number one ulp off, the two of a
/// block or two blocks exchanged, the numbers of the stock before, one block or number too few or too many,
/// no number, an infinite one, (0, 0) for a block. -0.0 for 0 is no damage.
pub fn damaged_blocks(rng: &mut Rng, base: &Bar, cells: &[Cell]) -> Vec<f64> {
    let own = own(base, cells);
    match rng.below(5) {
        0 => damage(rng, base, cells, own),
        1 if rng.once_in(2) => signed(own),
        _ => own,
    }
}

/// -0.0 in the place of each 0.
fn signed(mut kept: Vec<f64>) -> Vec<f64> {
    let zeros = kept.iter_mut().filter(|x| **x == 0.);
    zeros.for_each(|x| *x = -0.);
    kept
}

fn damage(rng: &mut Rng, base: &Bar, cells: &[Cell], mut kept: Vec<f64>) -> Vec<f64> {
    let (i, j) = (rng.below(kept.len()), rng.below(kept.len()));
    match rng.below(13) {
        0 => kept[i] = kept[i].next_up(),
        1 => kept[i] = kept[i].next_down(),
        2 => kept.swap(i, i ^ 1),
        3 => {
            kept.swap(i & !1, j & !1);
            kept.swap(i | 1, j | 1);
        }
        4 | 5 => kept = earlier(rng, base, cells),
        6 => kept.truncate(kept.len() - 2),
        7 => kept.extend([base.spec.bore, base.spec.outer]),
        8 => kept.extend_from_within(..1),
        9 => drop(kept.pop()),
        10 => kept[i] = f64::NAN,
        11 => kept[i] = rng.pick(&[f64::INFINITY, f64::NEG_INFINITY]),
        _ => kept[i & !1..][..2].fill(0.),
    }
    kept
}

/// Numbers to be renewed, of which only the count is asked: any, and as a rule as many as there are.
pub fn any_blocks(rng: &mut Rng, base: &Bar, cells: &[Cell]) -> Vec<f64> {
    let own = own(base, cells);
    match rng.below(5) {
        0 => damage(rng, base, cells, own),
        1 => own,
        2 => signed(own),
        3 => vec![f64::NAN; own.len()],
        _ => own.iter().map(|_| any(rng)).collect(),
    }
}

/// How many kept numbers are lent to be filled.
pub fn some_len(rng: &mut Rng, n: usize) -> usize {
    let len = 2 * n.div_ceil(BLOCK);
    match rng.below(10) {
        0 => rng.pick(&[0, len - 2, len - 1, len + 1, len + 2, len / 2, n, 2 * n]),
        _ => len,
    }
}

pub fn renew(rng: &mut Rng) -> Call {
    let base = either(rng);
    let cells = patchy_cells(rng, &base);
    Call::Renew {
        spec: damaged_spec(rng, &base),
        cells: damaged_cells(rng, &base, &cells),
        blocks: any_blocks(rng, &base, &cells),
    }
}

/// Three in four of about so many bins as blocks have.
fn either(rng: &mut Rng) -> Bar {
    match rng.below(4) {
        0 => base(rng),
        _ => bar_of_blocks(rng),
    }
}

/// An end of a range: at a bin's edge or a block's, one ulp beside, past the ends, infinite, or no number.
fn end(rng: &mut Rng, base: &Bar) -> f64 {
    let s = base.spec;
    let odd = [0., -0., any(rng), outside(rng), f64::NAN];
    let bins = [0, 1, 62, 63, 64, 65, 127, 128, 129, base.n - 1, base.n];
    let z = match rng.below(20) {
        0..4 => bin_edge(rng, base),
        4..10 => s.z_min + rng.pick(&bins) as f64 * s.cell,
        10 | 11 => rng.pick(&[s.z_min, s.z_max]),
        12 => rng.pick(&[f64::INFINITY, f64::NEG_INFINITY]),
        13 => rng.between(s.z_min - 3. * s.cell, s.z_max + 3. * s.cell),
        14 => rng.pick(&odd),
        15 => z_near(rng, base),
        _ => rng.between(s.z_min, s.z_max),
    };
    match rng.below(5) {
        0 => z.next_up(),
        1 => z.next_down(),
        _ => z,
    }
}

pub fn ends(rng: &mut Rng, base: &Bar) -> (f64, f64) {
    let (a, b) = (end(rng, base), end(rng, base));
    match rng.below(12) {
        0 => (a.max(b), a.min(b)),
        1 => (a, a),
        2 => (f64::NEG_INFINITY, a),
        3 => (a, f64::INFINITY),
        4 => (a, b),
        _ if a.is_nan() || b.is_nan() => (a, b),
        _ => (a.min(b), a.max(b)),
    }
}

pub fn range(rng: &mut Rng) -> Call {
    let base = either(rng);
    let cells = patchy_cells(rng, &base);
    let (lo, hi) = ends(rng, &base);
    Call::Range {
        spec: damaged_spec(rng, &base),
        cells: damaged_cells(rng, &base, &cells),
        blocks: damaged_blocks(rng, &base, &cells),
        lo,
        hi,
    }
}
