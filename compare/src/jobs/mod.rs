//! Jobs: a job program over camlib, jobs to hold another one against it, and the times of both.
mod bench;
mod driver;
mod generate;
pub mod parts;
mod program;

pub use bench::{bench, parts_bench};
pub use driver::{Jobs, compare};
pub use parts::Parts;
pub use program::run;
