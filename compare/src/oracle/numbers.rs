//! Root and length.
use super::{ARGUMENT, clean, demand};
use crate::call::Reason;

/// The processor's root is the nearest f64, as IEEE 754 has it.
pub fn root(x: f64) -> Result<f64, Reason> {
    let x = clean(x);
    demand(x.is_finite() && x >= 0., ARGUMENT)?;
    Ok(x.sqrt())
}

/// 01's length; of parts that are both below 2^-400 in size, by Req 03 of 02, 01's length of both
/// times 2^600, over 2^600.
pub fn length(x: f64, y: f64) -> Result<f64, Reason> {
    let scale = 2_f64.powi(600);
    if x.abs().max(y.abs()) < 2_f64.powi(-400) && !x.is_nan() && !y.is_nan() {
        return Ok(squares(x * scale, y * scale)? / scale);
    }
    squares(x, y)
}

/// The root of the rounded sum of the rounded squares.
fn squares(x: f64, y: f64) -> Result<f64, Reason> {
    root(x * x + y * y)
}
