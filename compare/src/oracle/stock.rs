//! Spec, bins, cells.
use super::ranges::{blocks, counted};
use super::{CELLS, COUNT, MOST_CELLS, NO_BIN, SPEC, clean, demand, storable, usable};
use crate::call::{Answer, Change, Outcome, Reason, Spec};
use plain::turning::stock as camlib;

/// An accepted spec, its numbers as they are read, and its number of bins.
#[derive(Clone, Copy)]
pub struct Bar {
    pub spec: Spec,
    pub n: usize,
}

/// 1, then 2.
pub fn bar(spec: &Spec) -> Result<Bar, Reason> {
    let numbers = [spec.z_min, spec.z_max, spec.outer, spec.bore, spec.cell];
    demand(numbers.into_iter().all(usable), SPEC)?;
    let [z_min, z_max, outer, bore, cell] = numbers.map(clean);
    demand(z_min < z_max, SPEC)?;
    demand(0. <= bore && bore < outer, SPEC)?;
    demand(cell > 0., SPEC)?;
    let bins = ((z_max - z_min) / cell).ceil();
    demand(1. <= bins && bins <= MOST_CELLS as f64, COUNT)?;
    let n = bins as usize;
    demand(n <= spec.max_cells, COUNT)?;
    let max_cells = spec.max_cells;
    let spec = Spec {
        z_min,
        z_max,
        outer,
        bore,
        cell,
        max_cells,
    };
    assert_eq!(camlib_spec(&spec).validate(), Ok(n));
    Ok(Bar { spec, n })
}

/// 1, 2, then 21 for an index past the last bin, with no position: there is no list.
pub fn bin(spec: &Spec, i: usize) -> Result<[f64; 2], Reason> {
    let bar = bar(spec)?;
    demand(i < bar.n, NO_BIN)?;
    let stock = camlib::TurnStock::new(camlib_spec(&bar.spec)).unwrap();
    Ok(stock.bin(i).map(clean))
}

/// 1, 2, then 3 and 20 for the lengths alone.
pub fn new(spec: &Spec, cells_len: usize, blocks_len: usize) -> Outcome {
    let bar = bar(spec)?;
    demand(cells_len == 4 * bar.n, CELLS)?;
    counted(&bar, blocks_len)?;
    let cells = fresh(&bar);
    let kept = blocks(&bar, &cells);
    Ok(Answer::Stock(cells, kept, vec![], 0, vec![]))
}

/// The cells of a new stock.
pub fn fresh(bar: &Bar) -> Vec<[f64; 4]> {
    let stock = camlib::TurnStock::new(camlib_spec(&bar.spec)).unwrap();
    stock.cells().iter().map(from_camlib).collect()
}

/// All four finite, not -0.0, within bore..outer, and lower <= upper in each pair.
pub fn fits(bar: &Bar, cell: &[f64; 4]) -> bool {
    let [outer_lower, outer_upper, inner_lower, inner_upper] = *cell;
    let within = |x: f64| storable(x) && bar.spec.bore <= x && x <= bar.spec.outer;
    cell.iter().all(|x| within(*x)) && outer_lower <= outer_upper && inner_lower <= inner_upper
}

/// 3: exactly n cells, and each fits.
pub fn cells(bar: &Bar, lent: &[f64]) -> Result<Vec<[f64; 4]>, Reason> {
    demand(lent.len() == 4 * bar.n, CELLS)?;
    let (cells, _) = lent.as_chunks::<4>();
    demand(cells.iter().all(|c| fits(bar, c)), CELLS)?;
    Ok(cells.to_vec())
}

/// camlib's stock of accepted parts, at generation 0.
pub fn camlib_stock(bar: &Bar, cells: &[[f64; 4]], rings: &[[f64; 4]]) -> camlib::TurnStock {
    let parts = cells.iter().map(to_camlib).collect();
    let stock = camlib::TurnStock::from_parts(camlib_spec(&bar.spec), parts, rings.to_vec());
    let stock = stock.unwrap();
    assert_eq!(
        stock.rings(),
        rings,
        "camlib keeps stored rings as they are"
    );
    stock
}

pub fn camlib_spec(spec: &Spec) -> camlib::TurnStockSpec {
    camlib::TurnStockSpec {
        version: 1,
        units: "mm".into(),
        z_min_mm: spec.z_min,
        z_max_mm: spec.z_max,
        outer_radius_mm: spec.outer,
        bore_radius_mm: spec.bore,
        cell_mm: spec.cell,
        max_cells: spec.max_cells,
    }
}

pub fn to_camlib(cell: &[f64; 4]) -> camlib::TurnCell {
    camlib::TurnCell {
        outer: camlib::RadiusBounds {
            lower_mm: cell[0],
            upper_mm: cell[1],
        },
        inner: camlib::RadiusBounds {
            lower_mm: cell[2],
            upper_mm: cell[3],
        },
    }
}

/// A cell as it is stored: +0.0 for -0.0.
pub fn from_camlib(cell: &camlib::TurnCell) -> [f64; 4] {
    [cell.outer, cell.inner]
        .map(|b| [clean(b.lower_mm), clean(b.upper_mm)])
        .as_flattened()
        .try_into()
        .unwrap()
}

pub fn change_from_camlib(change: &camlib::TurnChange) -> Change {
    Change {
        index: change.index,
        before: from_camlib(&change.before),
        after: from_camlib(&change.after),
    }
}

pub fn change_to_camlib(change: &Change) -> camlib::TurnChange {
    camlib::TurnChange {
        index: change.index,
        before: to_camlib(&change.before),
        after: to_camlib(&change.after),
    }
}
