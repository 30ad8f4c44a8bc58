//! Ranges of heights, and the numbers that are kept for blocks of bins (Req 09 of 02): walks over the
//! cells. camlib has neither; what it has is `envelope_at`, which a range of one height must be.
use super::queries::{looked, most_at, walk};
use super::stock::{Bar, bar, camlib_stock, cells};
use super::{BLOCKS, clean, demand};
use crate::call::{Reason, Spec};

/// Bins a block.
pub const BLOCK: usize = 64;

/// How many numbers are kept for so many bins.
pub fn blocks_len(n: usize) -> usize {
    2 * n.div_ceil(BLOCK)
}

/// For each block of bins the greatest outer upper bound and the least inner lower bound among those
/// with material; the stock's bore and outer radius where none has any.
pub fn blocks(bar: &Bar, cells: &[[f64; 4]]) -> Vec<f64> {
    let none = [bar.spec.outer, bar.spec.bore];
    let two = |block: &[[f64; 4]]| {
        let [bore, outer] = walk(block.iter().copied()).map_or(none, |m| [m[0], m[1]]);
        [outer, bore].map(clean)
    };
    cells.chunks(BLOCK).flat_map(two).collect()
}

/// 20 for a count that is not two for each block.
pub fn counted(bar: &Bar, blocks_len: usize) -> Result<(), Reason> {
    demand(blocks_len == self::blocks_len(bar.n), BLOCKS)
}

/// 20 where lent numbers are not those of the cells, as numbers.
pub fn kept(bar: &Bar, cells: &[[f64; 4]], lent: &[f64]) -> Result<(), Reason> {
    counted(bar, lent.len())?;
    let own = blocks(bar, cells);
    demand(lent.iter().zip(&own).all(|(a, b)| a == b), BLOCKS)
}

/// 1, 2, 3, and 20 for the count alone: all numbers afresh.
pub fn renew(spec: &Spec, lent: &[f64], blocks_len: usize) -> Result<Vec<f64>, Reason> {
    let bar = bar(spec)?;
    let cells = cells(&bar, lent)?;
    counted(&bar, blocks_len)?;
    Ok(blocks(&bar, &cells))
}

/// 1, 2, 3, 20; the ends may be anything.
pub fn range(
    spec: &Spec,
    lent: &[f64],
    kept_numbers: &[f64],
    lo: f64,
    hi: f64,
) -> Result<Option<Vec<f64>>, Reason> {
    let bar = bar(spec)?;
    let cells = cells(&bar, lent)?;
    kept(&bar, &cells, kept_numbers)?;
    let stock = camlib_stock(&bar, &cells, &[]);
    let (bin, own) = (|i| stock.bin(i), |z| stock.envelope_at(z));
    Ok(most_over(&bar, &cells, lo, hi, bin, own))
}

/// The walk over the bins of a range. Of one height it must be what is seen there: where no neighbour
/// holds it, that is camlib's own answer.
pub fn most_over(
    bar: &Bar,
    cells: &[[f64; 4]],
    lo: f64,
    hi: f64,
    bin: impl Fn(usize) -> [f64; 2],
    own: impl Fn(f64) -> Option<(f64, f64)>,
) -> Option<Vec<f64>> {
    let found =
        over(bar, lo, hi, &bin).and_then(|(first, last)| walk(cells[first..=last].iter().copied()));
    if lo == hi {
        let z = clean(lo);
        let seen = most_at(&bar.spec, bar.n, z, own(z), bin, |i| cells[i]);
        assert_eq!(found, seen, "a range of one height is what is seen there");
    }
    found
}

/// The first and the last bin of a range, if it has any: the first to the last that `envelope_at` looks
/// at for the ends, which are brought to the edge of the stock; none for a range that is reversed or
/// wholly outside, or has an end that is no number.
fn over(bar: &Bar, lo: f64, hi: f64, bin: impl Fn(usize) -> [f64; 2]) -> Option<(usize, usize)> {
    let spec = &bar.spec;
    if lo.is_nan() || hi.is_nan() || hi < lo || hi < spec.z_min || spec.z_max < lo {
        return None;
    }
    let of = |z: f64| looked(spec, bar.n, clean(z), &bin);
    let (a, b) = of(lo.max(spec.z_min));
    let (c, d) = of(hi.min(spec.z_max));
    Some((a.min(c), b.max(d)))
}

/// The same of a stock's cells.
pub fn bins(bar: &Bar, cells: &[[f64; 4]], lo: f64, hi: f64) -> Option<(usize, usize)> {
    let stock = camlib_stock(bar, cells, &[]);
    over(bar, lo, hi, |i| stock.bin(i))
}
