//! Document 01 a second time: its refusals here, its answers by camlib's own code.
//!
//! The answers come from camlib unchanged, but for nose cuts, which come from camlib with 01's length,
//! and for `within` and the order, which unchanged camlib keeps to itself. What 01 says and camlib
//! does not, stands here: the limits, the domain, the order of refusals, the stamps of stocks and of
//! lists, the kept numbers of blocks, and that -0.0 is read as +0.0 and never stored. An envelope's radius has a second oracle,
//! `full_look`, over all segments.
mod changes;
pub mod cuts;
mod envelope;
mod full;
mod insert;
pub mod numbers;
pub mod passes;
pub mod profile;
pub mod queries;
pub mod ranges;
pub mod rings;
pub mod stock;

use crate::call::{Answer, Call, Change, Outcome, Reason, Stamp};

/// The refusal numbers of document 01, and of the requests after it.
pub const SPEC: u32 = 1;
pub const COUNT: u32 = 2;
pub const CELLS: u32 = 3;
pub const STORED: u32 = 4;
pub const ARGUMENT: u32 = 5;
pub const ROOM: u32 = 6;
pub const RISING: u32 = 7;
pub const AFTER: u32 = 8;
pub const RING: u32 = 10;
pub const PIECES: u32 = 11;
pub const GENERATION: u32 = 12;
pub const ENVELOPE: u32 = 14;
pub const PROFILE: u32 = 17;
pub const CHORDS: u32 = 18;
pub const STALE: u32 = 19;
pub const BLOCKS: u32 = 20;
pub const NO_BIN: u32 = 21;
pub const HOLDS_OTHER: u32 = 22;
pub const ADDS: u32 = 23;
pub const TARGETS: u32 = 25;

/// The refusal of an arc, which of the calls a check of passes alone can be given.
pub const ARC: u32 = 13;

/// Document 01's limits, those of Req 07 of 02 for a nose's segments and a profile's points, and the cells of Req 14.
pub const MILLION: f64 = 1e6;
pub const MOST_CELLS: usize = 16384;
/// Up to so many cells a call takes shorter lists of its own, and a stock file has four digits.
pub const MANY_CELLS: usize = 4096;
pub const MOST_SEGMENTS: usize = 4096;
pub const MOST_POINTS: usize = 64;
pub const MOST_ENVELOPE_POINTS: usize = 1024;
pub const MOST_PROFILE_POINTS: usize = 256;
pub const MOST_RINGS: usize = 256;
pub const MOST_PIECES: usize = 256;
/// Req 13 of 02.
pub const MOST_PASSES: usize = 128;

/// Refuses with the number unless the test holds.
fn demand(test: bool, number: u32) -> Result<(), Reason> {
    test.then_some(()).ok_or(Reason::only(number))
}

/// Refuses with the number and the position unless the test holds.
fn demand_at(test: bool, number: u32, place: usize) -> Result<(), Reason> {
    test.then_some(()).ok_or(Reason::at(number, place))
}

/// An argument as it is read: -0.0 as +0.0.
pub fn clean(x: f64) -> f64 {
    x + 0.
}

/// Within the domain of arguments.
fn usable(x: f64) -> bool {
    x.is_finite() && x.abs() <= MILLION
}

/// Finite, and not -0.0: what cells and stored rings may hold.
fn storable(x: f64) -> bool {
    x.is_finite() && x.to_bits() != (-0_f64).to_bits()
}

/// What the full look answers, of a call that looks at a part of an envelope's points alone.
pub fn full_look(call: &Call) -> Option<Outcome> {
    let found = match call {
        Call::RadiusAt { points, u } => full::radius_at(points, *u),
        Call::RadiusRange { points, lo, hi } => full::radius_range(points, *lo, *hi),
        _ => return None,
    };
    Some(found.map(Answer::Found))
}

/// A list carries the stamp of the stock that it was made of; of a difference the first one's.
fn stamped(stamp: Stamp, changes: Result<Vec<Change>, Reason>) -> Outcome {
    changes.map(|changes| Answer::Changes(changes, stamp))
}

/// What document 01 answers.
pub fn answer(call: &Call) -> Outcome {
    match call {
        Call::Root { x } => numbers::root(*x).map(Answer::Number),
        Call::Length { x, y } => numbers::length(*x, *y).map(Answer::Number),
        Call::Validate { spec } => stock::bar(spec).map(|bar| Answer::Bins(bar.n)),
        Call::Bin { spec, i } => stock::bin(spec, *i).map(|[za, zb]| Answer::Range(za, zb)),
        Call::New {
            spec,
            cells_len,
            blocks_len,
            ..
        } => stock::new(spec, *cells_len, *blocks_len),
        Call::Preview {
            spec,
            stamp,
            cells,
            side,
            rn,
            segments,
            room,
        } => stamped(*stamp, cuts::nose(spec, cells, *side, *rn, segments, *room)),
        Call::PreviewPolygon {
            spec,
            stamp,
            cells,
            side,
            excess,
            points,
            room,
        } => stamped(
            *stamp,
            cuts::polygon(spec, cells, *side, *excess, points, *room),
        ),
        Call::Cut {
            spec,
            stamp,
            cells,
            cut,
            room,
        } => stamped(*stamp, cuts::simple(spec, cells, *cut, *room)),
        Call::Apply {
            spec,
            stamp,
            cells,
            blocks,
            list,
        } => changes::apply(spec, *stamp, cells, blocks, list),
        Call::ChangesTo {
            spec,
            stamp,
            cells,
            after,
            room,
        } => stamped(*stamp, changes::changes_to(spec, cells, after, *room)),
        Call::RemoveRing {
            spec,
            store,
            generation,
            ring,
        } => rings::remove_ring(spec, store, *generation, *ring),
        Call::ApplyMove {
            spec,
            stamp,
            cells,
            blocks,
            store,
            list,
            removed,
        } => rings::apply_move(spec, *stamp, cells, blocks, store, list, removed),
        Call::FromParts {
            spec,
            cells,
            blocks,
            given,
            rings_len,
            ..
        } => rings::from_parts(spec, cells, blocks, given, *rings_len),
        Call::Renew {
            spec,
            cells,
            blocks,
        } => ranges::renew(spec, cells, blocks.len()).map(Answer::Blocks),
        Call::Volume { spec, cells, store } => {
            queries::volume(spec, cells, store).map(|[least, most]| Answer::Volume(least, most))
        }
        Call::EnvelopeAt { spec, cells, z } => {
            queries::envelope_at(spec, cells, *z).map(Answer::Found)
        }
        Call::Range {
            spec,
            cells,
            blocks,
            lo,
            hi,
        } => ranges::range(spec, cells, blocks, *lo, *hi).map(Answer::Found),
        Call::EnvelopeOrder { points } => envelope::order(points).map(Answer::Order),
        Call::Within { points, lo, hi } => envelope::within(points, *lo, *hi),
        Call::RadiusAt { points, u } => envelope::radius_at(points, *u).map(Answer::Found),
        Call::RadiusRange { points, lo, hi } => {
            envelope::radius_range(points, *lo, *hi).map(Answer::Found)
        }
        Call::Segments {
            points,
            tolerance,
            segments_len,
        } => profile::segments(points, *tolerance, *segments_len).map(Answer::Chords),
        Call::Excess {
            points,
            polygon,
            tolerance,
        } => insert::excess(points, polygon, *tolerance).map(Answer::Found),
        Call::Penetration {
            points,
            polygon,
            tolerance,
        } => insert::penetration(points, polygon, *tolerance).map(Answer::Found),
        Call::Eroded {
            points,
            u,
            tolerance,
        } => insert::eroded(points, *u, *tolerance).map(Answer::Found),
        Call::CheckPasses {
            spec,
            stamp,
            cells,
            blocks,
            targets,
            passes,
            after_len,
            after_blocks_len,
        } => {
            let room = [*after_len, *after_blocks_len];
            passes::check(spec, *stamp, cells, blocks, targets, passes, room)
        }
        Call::ProposePasses {
            spec,
            cells,
            targets,
            rn,
            room,
        } => passes::propose(spec, cells, targets, *rn, room.passes()).map(Answer::Passes),
    }
}
