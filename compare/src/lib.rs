//! Holds every call of turning.h against the Rust, bit for bit.
//!
//! A `Call` has the inputs of one call. The `oracle` answers it: document 01's refusals, and where
//! 01 accepts, camlib's own code. A `Memory` is all that is lent to the call, with a pattern in every
//! place that has no meaning yet and around each buffer. The call is right where its number is the
//! oracle's and the memory afterwards is what the oracle's answer writes, every word of it.
pub mod arcs;
pub mod bench;
pub mod call;
pub mod count;
pub mod exact;
pub mod far;
pub mod files;
pub mod generate;
pub mod guess;
pub mod jobs;
pub mod library;
pub mod limits;
pub mod memory;
pub mod oracle;
pub mod pairs;
pub mod passes;
pub mod positions;
pub mod record;
pub mod run;
pub mod sequence;
pub mod shrink;
pub mod stack;
pub mod trap;
pub mod whole;
