//! Specs, bins, new stocks, commits, differences of two stocks, one cell.
use super::{bar_of, kept_of, lent, pair, stock_of};
use crate::bench::rows::room;
use crate::bench::time::{Sides, side};
use crate::call::{Call, List, Stamp};
use crate::library::c;
use crate::oracle::ranges::{BLOCK, blocks_len};
use crate::oracle::stock::{Bar, camlib_spec, camlib_stock, fresh, to_camlib};
use plain::turning::stock::{TurnCell, TurnChange, TurnStock};
use std::hint::black_box;

pub fn validate(bins: usize) -> Sides<'static> {
    let spec = bar_of(bins).spec;
    let rust = camlib_spec(&spec);
    let go = move || black_box(&rust).validate();
    // The C call directly: it takes no longer than the harness about the others.
    let library = side(1, move || {
        let (s, mut n) = (black_box(&spec), 0);
        // SAFETY: the pointer is to one usize.
        black_box(unsafe {
            c::turning_validate(
                s.z_min,
                s.z_max,
                s.outer,
                s.bore,
                s.cell,
                s.max_cells,
                &mut n,
            )
        });
        n
    });
    [side(1, go), None, library]
}

pub fn bin(bins: usize) -> Sides<'static> {
    let bar = bar_of(bins);
    let (spec, i, stock) = (bar.spec, bins / 2, stock_of(&bar));
    let go = move || black_box(&stock).bin(black_box(i));
    pair(go, Call::Bin { spec, i })
}

pub fn new(bins: usize) -> Sides<'static> {
    new_of(&bar_of(bins))
}

pub fn new_of(bar: &Bar) -> Sides<'static> {
    let rust = camlib_spec(&bar.spec);
    let go = move || TurnStock::new(black_box(&rust).clone());
    let call = Call::New {
        spec: bar.spec,
        stamp: Stamp::default(),
        cells_len: 4 * bar.n,
        blocks_len: blocks_len(bar.n),
    };
    pair(go, call)
}

pub fn apply(bins: usize) -> Sides<'static> {
    changed_of(&bar_of(bins), bins)
}

pub fn apply_one(bins: usize) -> Sides<'static> {
    changed_of(&bar_of(bins), 1)
}

/// A change of so many cells to themselves, so that the list can be committed again.
pub fn changed_of(bar: &Bar, count: usize) -> Sides<'static> {
    let cells = fresh(bar);
    let mut stock = stock_of(bar);
    let change = |(index, cell): (usize, &[f64; 4])| TurnChange {
        index,
        before: to_camlib(cell),
        after: to_camlib(cell),
    };
    let cells = &cells[..count];
    let changes: Vec<TurnChange> = cells.iter().enumerate().map(change).collect();
    let go = move || stock.apply(black_box(&changes));
    let list = List {
        indices: (0..count).collect(),
        records: cells.iter().flat_map(|c| [*c, *c]).flatten().collect(),
        changes: count,
        stamp: Stamp::default(),
    };
    let call = Call::Apply {
        spec: bar.spec,
        stamp: Stamp::default(),
        cells: lent(bar),
        blocks: kept_of(bar),
        list,
    };
    pair(go, call)
}

/// Every second cell differs.
pub fn changes_to(bins: usize) -> Sides<'static> {
    let bar = bar_of(bins);
    let mut after = fresh(&bar);
    after.iter_mut().step_by(2).for_each(|c| c[0] = 40.);
    changes_of(&bar, &after)
}

/// From a fresh bar to other cells.
pub fn changes_of(bar: &Bar, after: &[[f64; 4]]) -> Sides<'static> {
    let (from, to) = (stock_of(bar), camlib_stock(bar, after, &[]));
    let go = move || from.changes_to(black_box(&to));
    let call = Call::ChangesTo {
        spec: bar.spec,
        stamp: Stamp::default(),
        cells: lent(bar),
        after: after.as_flattened().to_vec(),
        room: room(bar.n),
    };
    pair(go, call)
}

pub fn envelope_at(bins: usize) -> Sides<'static> {
    envelope_of(&bar_of(bins))
}

pub fn envelope_of(bar: &Bar) -> Sides<'static> {
    let z = bar.spec.z_max * 0.7;
    let stock = stock_of(bar);
    let go = move || black_box(&stock).envelope_at(black_box(z));
    let call = Call::EnvelopeAt {
        spec: bar.spec,
        cells: lent(bar),
        z,
    };
    pair(go, call)
}

/// A plain walk: the least bore and the greatest outer radius of the cells with material.
fn walked(cells: &[TurnCell]) -> Option<(f64, f64)> {
    let mut most = None;
    for c in cells {
        let (bore, outer) = (c.inner.lower_mm, c.outer.upper_mm);
        if outer > bore {
            let (b, o): (f64, f64) = most.unwrap_or((bore, outer));
            most = Some((b.min(bore), o.max(outer)));
        }
    }
    most
}

/// All bins but the first and the last; the Rust walks them.
pub fn range(bins: usize) -> Sides<'static> {
    range_of(&bar_of(bins))
}

pub fn range_of(bar: &Bar) -> Sides<'static> {
    let (stock, n) = (stock_of(bar), bar.n);
    let go = move || walked(black_box(&stock.cells()[1..n - 1]));
    let call = Call::Range {
        spec: bar.spec,
        cells: lent(bar),
        blocks: kept_of(bar),
        lo: 1.5 * bar.spec.cell,
        hi: bar.spec.z_max - 1.5 * bar.spec.cell,
    };
    pair(go, call)
}

/// Every block afresh; the Rust walks each.
pub fn renew(bins: usize) -> Sides<'static> {
    let bar = bar_of(bins);
    let stock = stock_of(&bar);
    let go = move || -> Vec<Option<(f64, f64)>> {
        let blocks = black_box(stock.cells()).chunks(BLOCK);
        blocks.map(walked).collect()
    };
    let call = Call::Renew {
        spec: bar.spec,
        cells: lent(&bar),
        blocks: kept_of(&bar),
    };
    pair(go, call)
}
