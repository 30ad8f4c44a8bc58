//! Two stock files side by side, Req 12 of 02: what differs between them a second time over camlib, pairs of files, and the
//! program held against it.
pub mod bench;
mod generate;
pub mod oracle;
mod points;
pub mod run;

pub use run::{Pairs, named_program};

/// Pairs of stock files through the program that compares them.
pub const SIDE_BY_SIDE: (&str, usize) = ("side_by_side", 1_000_000);
