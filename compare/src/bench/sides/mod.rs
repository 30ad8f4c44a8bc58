//! Both sides of each public call, by the size that its cost grows with.
mod cuts;
mod envelope;
mod files;
mod numbers;
mod passes;
mod profile;
mod rings;
mod stock;

pub use cuts::*;
pub use envelope::*;
pub use files::*;
pub use numbers::*;
pub use passes::*;
pub use profile::*;
pub use rings::*;
pub use stock::*;

use super::library_side;
use super::rows::spec;
use super::time::{Sides, side};
use crate::call::Call;
use crate::oracle::ranges::blocks;
use crate::oracle::stock::{Bar, bar, camlib_stock, fresh};
use plain::turning::stock::TurnStock;

fn bar_of(bins: usize) -> Bar {
    bar(&spec(bins, 50., 0.)).unwrap()
}

pub fn lent(bar: &Bar) -> Vec<f64> {
    fresh(bar).as_flattened().to_vec()
}

/// The kept numbers of those cells.
pub fn kept_of(bar: &Bar) -> Vec<f64> {
    blocks(bar, &fresh(bar))
}

pub fn stock_of(bar: &Bar) -> TurnStock {
    camlib_stock(bar, &fresh(bar), &[])
}

/// The untouched Rust and the library.
pub fn pair<T: 'static>(rust: impl FnMut() -> T + 'static, call: Call) -> Sides<'static> {
    [side(1, rust), None, library_side(call)]
}
