//! A model of the stock on a lathe, proved: the Rust package over `libturning.a`.
//!
//! A bar lies along z and is parted into bins. Each bin has a [`Cell`]: bounds on its outer radius and on the radius of its bore. A
//! preview says which cells a [`Cut`] would change, as a [`ChangeList`], and [`Stock::commit`] makes the changes. Rings are holes that a
//! cell cannot hold. All lengths are millimetres. Every rule is the library's (`docs/RULES.md` of the repository); this crate lends
//! memory and turns numbers into types.
//!
//! Every call that can be refused returns a `Result` with a [`Refusal`], and none panics, whatever it is handed. Memory is sized for
//! the caller: a preview has room for a change of every bin. A list that is handed to [`Stock::preview_into`] is used again.
//!
//! A call takes what it works with of the stack (`include/turning.h` has the figure of each): a nose and a polygon up to 400 KiB, the
//! others less than 200. [`check_passes`] takes more and runs on a stack of its own.
//!
//! ```
//! use turning::{Cut, Segment, Side, Spec, Stock};
//! let mut wheel = Stock::new(Spec::new(0.0, 12.0, 30.0, 0.0, 1.0))?;
//! for cut in [
//!     Cut::Drill { tip_z: -5.0, radius: 5.0, cone: 3.0 },
//!     Cut::line(Side::Outer, 0.8, Segment::new([28.8, -1.0], [28.8, 13.0])),
//! ] {
//!     let list = wheel.preview(&cut)?;
//!     wheel.commit(&list)?;
//! }
//! assert_eq!(wheel.generation(), 2);
//! assert_eq!(wheel.cells()[5].outer.upper_mm, 28.0);
//! # Ok::<(), turning::Refusal>(())
//! ```
#![warn(missing_docs)]

mod c;
mod changes;
mod envelope;
mod file;
mod job;
mod model;
mod passes;
mod profile;
mod refusal;
mod stock;

pub use changes::{Change, ChangeList};
pub use envelope::Envelope;
pub use file::ReadError;
pub use job::Job;
pub use model::{
    Cell, Cut, RadiusBounds, Ring, Segment, Side, Spec, Stamp, CELL_LIMIT, RING_LIMIT,
};
pub use passes::{check_passes, propose_passes, Target, Verdict, PASS_LIMIT};
pub use profile::Profile;
pub use refusal::Refusal;
pub use stock::{Bin, Material, Stock, Volume};

/// The examples of the two texts beside the crate are run as tests.
#[cfg(doctest)]
mod texts {
    #[doc = include_str!("../README.md")]
    pub struct Readme;
    #[doc = include_str!("../FROM_CAMLIB.md")]
    pub struct FromCamlib;
}

/// camlib's names of the same types, for a program that comes from there (`FROM_CAMLIB.md`).
pub mod camlib {
    pub use crate::{
        Cell as TurnCell, Change as TurnChange, Envelope, Profile as TurnProfile, RadiusBounds,
        Side as TurnSide, Spec as TurnStockSpec, Stock as TurnStock,
    };
}

/// The number of the header of the archive that is linked. The build is refused where it is not the crate's.
///
/// ```
/// assert!(turning::header() >= 7);
/// ```
pub fn header() -> u32 {
    // SAFETY: the call takes nothing.
    unsafe { c::turning_header() }
}

/// The number nearest to the exact root of x. Refusals: 5.
///
/// ```
/// assert_eq!(turning::root(2.0), Ok(2f64.sqrt()));
/// assert_eq!(turning::root(-1.0), Err(turning::Refusal::Argument));
/// ```
pub fn root(x: f64) -> Result<f64, Refusal> {
    let mut root = 0.0;
    // SAFETY: one number is written, and it is lent.
    model::told(unsafe { c::turning_root(x, &mut root) })?;
    Ok(root)
}

/// The length of (x, y). Refusals: 5.
///
/// ```
/// assert_eq!(turning::length(3.0, 4.0), Ok(5.0));
/// ```
pub fn length(x: f64, y: f64) -> Result<f64, Refusal> {
    let mut length = 0.0;
    // SAFETY: one number is written, and it is lent.
    model::told(unsafe { c::turning_length(x, y, &mut length) })?;
    Ok(length)
}
