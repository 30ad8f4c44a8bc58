//! Arcs as chords.
use crate::bench::library_side;
use crate::bench::time::{Sides, side};
use crate::call::Call;
use crate::oracle::profile;
use std::hint::black_box;

/// An arc that is halved so often, beside the oracle's own halving with the processor's root.
pub fn segments(halvings: usize) -> Sides<'static> {
    let points = vec![38., 0., 0.4, 38., 512., 0.];
    // A halving leaves about a quarter of the sag.
    let tolerance = 110. * 0.25_f64.powi(halvings as i32);
    let room = 5 << halvings;
    let list = points.clone();
    [
        None,
        side(1, move || {
            profile::segments(black_box(&list), tolerance, room)
        }),
        library_side(Call::Segments {
            points,
            tolerance,
            segments_len: room,
        }),
    ]
}
