//! Stock files: a reader and a writer of their own, files to hold the C calls against them, and the times of both.
pub mod bench;
pub mod form;
pub mod generate;
pub mod run;

pub use run::Files;
