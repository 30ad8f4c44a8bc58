//! Calls on one stock, one after the other: both sides keep their own, and after each call its
//! answer and the whole of both stocks are compared.
//!
//! The Rust's side is one `TurnStock` that lives through the sequence. Beside it the oracle answers
//! each call by itself, from the stock's parts: what both of them say is wanted of the library. The kept
//! numbers of the library's side live through the sequence too, and are held against fresh ones of the
//! living stock after each call.
mod damage;
mod flat;
mod run;
mod rust;
mod shrink;

pub use damage::Damage;
pub use flat::list_of;
pub use run::{AS_IT_IS, Bent, Difference, Sequences, left_by, run};

use crate::call::{Passes, Simple, Spec, Stamp, Store};

/// A stock, and what is done with it.
#[derive(Clone, Debug)]
pub struct Sequence {
    pub spec: Spec,
    pub stamp: Stamp,
    pub cells: Vec<f64>,
    pub store: Store,
    pub steps: Vec<Step>,
}

/// What is done; a damaged call is made on a copy, and the stock stays.
#[derive(Clone, Debug)]
pub struct Step {
    pub action: Action,
    pub damage: Option<Damage>,
}

/// A call on the stock. `back` counts lists or stocks, 0 for the last; past the first it is the
/// first, and where there is none the list is empty and the present stock's, or the stock the present one.
#[rustfmt::skip]
#[derive(Clone, Debug)]
pub enum Action {
    /// Previews; each accepted one leaves a list.
    Nose { side: u32, rn: f64, segments: Vec<f64> },
    Polygon { side: u32, excess: f64, points: Vec<f64> },
    Cut(Simple),
    /// Commits a list.
    Commit { back: usize },
    /// Commits a list, and takes rings away.
    Move { back: usize, removed: Vec<f64> },
    Ring([f64; 4]),
    /// The difference from an earlier stock to the present one, or from that to the earlier; leaves a
    /// list.
    Difference { back: usize, from_now: bool },
    /// The stock is again an earlier one, its stamp too. No call.
    Return { back: usize },
    /// The stock is rebuilt from its parts and some rings more, of another edition where one is named.
    Rebuild { more: Vec<f64>, edition: Option<u32> },
    /// The kept numbers are worked out afresh, into a place that holds none.
    Renew,
    Volume,
    EnvelopeAt(f64),
    Range { lo: f64, hi: f64 },
    /// Cuts checked against targets; on yes the stock is the one that is handed back.
    Check { passes: Passes, targets: Vec<f64> },
}
