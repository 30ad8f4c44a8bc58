//! The calls of turning.h in libturning.a.
use crate::call::{Call, Simple};
use crate::memory::Memory;

macro_rules! spec_call {
    ($name:ident, $spec:expr, $($argument:expr),*) => {
        c::$name(
            $spec.z_min, $spec.z_max, $spec.outer, $spec.bore, $spec.cell, $spec.max_cells,
            $($argument),*
        )
    };
}

/// The declarations, in turning.h's order.
#[allow(clippy::too_many_arguments)]
pub mod c {
    macro_rules! declare {
        ($($name:ident($($parameter:ident: $type:ty),*);)*) => {
            unsafe extern "C" {
                $(pub fn $name($($parameter: $type),*) -> u32;)*
            }
        };
    }
    macro_rules! declare_with_spec {
        ($($name:ident($($parameter:ident: $type:ty),*);)*) => {
            declare! {
                $($name(
                    z_min: f64, z_max: f64, outer: f64, bore: f64, cell: f64, max_cells: usize,
                    $($parameter: $type),*
                );)*
            }
        };
    }
    type In = *const f64;
    type Out = *mut f64;
    type Sizes = *const usize;
    type Size = *mut usize;

    declare! {
        turning_header();
        turning_root(x: f64, root: Out);
        turning_length(x: f64, y: f64, length: Out);
        turning_envelope_order(points: In, points_len: usize, order: *mut i32);
        turning_within(points: In, points_len: usize, lo: f64, hi: f64, first: Size, count: Size);
        turning_radius_at(points: In, points_len: usize, u: f64, found: *mut u32, radius: Out);
        turning_radius_range(
            points: In, points_len: usize, lo: f64, hi: f64, found: *mut u32, lowest: Out, highest: Out
        );
        turning_job_take(
            state: *mut [u64; 8], bar: *mut [f64; 5], cells: *mut [f64; 2048], rings: *mut [f64; 256],
            line: *mut [u8; 128], bytes: *const u8, bytes_len: usize
        );
        turning_job_finish(state: *const [u64; 8], line: *mut u64);
        turning_job_output(
            state: *const [u64; 8], cells: *const [f64; 2048], rings: *const [f64; 256], k: usize,
            out: *mut [u8; 128], len: Size
        );
        turning_read_part(
            state: *mut [u64; 8], bar: *mut [f64; 5], cells: Out, cells_len: usize, rings: Out, rings_len: usize,
            line: *mut [u8; 128], bytes: *const u8, bytes_len: usize
        );
        turning_read_end(
            state: *const [u64; 8], bar: *const [f64; 5], max_cells: usize, cells: In, cells_len: usize, rings: In,
            rings_len: usize, n: Size, rings_count: Size, edition: *mut u32, line: Size
        );
        turning_segments(
            points: In, points_len: usize, tolerance: f64, segments: Out, segments_len: usize, count: Size
        );
        turning_excess(
            points: In, points_len: usize, polygon: In, polygon_len: usize, tolerance: f64, found: *mut u32, by: Out
        );
        turning_penetration(
            points: In, points_len: usize, polygon: In, polygon_len: usize, tolerance: f64, found: *mut u32, by: Out
        );
        turning_eroded(points: In, points_len: usize, u: f64, tolerance: f64, found: *mut u32, radius: Out);
    }
    declare_with_spec! {
        turning_validate(n: Size);
        turning_bin(i: usize, za: Out, zb: Out);
        turning_new(
            edition: u32, generation: *mut u64, cells: Out, cells_len: usize, blocks: Out, blocks_len: usize
        );
        turning_preview(
            edition: u32, generation: u64, cells: In, cells_len: usize, side: u32, rn: f64,
            segments: In, segments_len: usize, indices: Size, indices_len: usize, records: Out,
            records_len: usize, count: Size, list_edition: *mut u32, list_generation: *mut u64
        );
        turning_preview_polygon(
            edition: u32, generation: u64, cells: In, cells_len: usize, side: u32, excess: f64,
            points: In, points_len: usize, indices: Size, indices_len: usize, records: Out,
            records_len: usize, count: Size, list_edition: *mut u32, list_generation: *mut u64
        );
        turning_thread_cut(
            edition: u32, generation: u64, cells: In, cells_len: usize, z0: f64, z1: f64, radius: f64,
            indices: Size, indices_len: usize, records: Out, records_len: usize, count: Size,
            list_edition: *mut u32, list_generation: *mut u64
        );
        turning_thread_cut_inner(
            edition: u32, generation: u64, cells: In, cells_len: usize, z0: f64, z1: f64, radius: f64,
            indices: Size, indices_len: usize, records: Out, records_len: usize, count: Size,
            list_edition: *mut u32, list_generation: *mut u64
        );
        turning_drill(
            edition: u32, generation: u64, cells: In, cells_len: usize, tip_z: f64, radius: f64,
            cone: f64, indices: Size, indices_len: usize, records: Out, records_len: usize,
            count: Size, list_edition: *mut u32, list_generation: *mut u64
        );
        turning_apply(
            edition: u32, generation: *mut u64, cells: Out, cells_len: usize, blocks: Out,
            blocks_len: usize, indices: Sizes, indices_len: usize, records: In, records_len: usize,
            changes: usize, list_edition: u32, list_generation: u64, position: Size
        );
        turning_changes_to(
            edition: u32, generation: u64, cells: In, cells_len: usize, after: In, after_len: usize,
            indices: Size, indices_len: usize, records: Out, records_len: usize, count: Size,
            list_edition: *mut u32, list_generation: *mut u64
        );
        turning_remove_ring(
            rings: Out, rings_len: usize, rings_count: Size, generation: *mut u64, z0: f64, z1: f64,
            r0: f64, r1: f64, tests: Size, position: Size
        );
        turning_apply_move(
            edition: u32, generation: *mut u64, cells: Out, cells_len: usize, blocks: Out,
            blocks_len: usize, rings: Out, rings_len: usize, rings_count: Size, indices: Sizes,
            indices_len: usize, records: In, records_len: usize, changes: usize, list_edition: u32,
            list_generation: u64, removed: In, removed_len: usize, tests: Size, tests_len: usize,
            position: Size
        );
        turning_from_parts(
            edition: u32, generation: *mut u64, cells: In, cells_len: usize, blocks: Out,
            blocks_len: usize, given: In, given_len: usize, rings: Out, rings_len: usize,
            rings_count: Size, tests: Size, tests_len: usize, position: Size
        );
        turning_renew(cells: In, cells_len: usize, blocks: Out, blocks_len: usize);
        turning_volume(
            cells: In, cells_len: usize, rings: In, rings_len: usize, rings_count: usize, least: Out,
            greatest: Out
        );
        turning_envelope_at(
            cells: In, cells_len: usize, z: f64, found: *mut u32, bore_lower: Out, outer_upper: Out
        );
        turning_range(
            cells: In, cells_len: usize, blocks: In, blocks_len: usize, lo: f64, hi: f64,
            found: *mut u32, bore_lower: Out, outer_upper: Out
        );
        turning_check_passes(
            edition: u32, generation: u64, cells: In, cells_len: usize, blocks: In, blocks_len: usize,
            targets: In, targets_len: usize, kinds: *const u32, kinds_len: usize, numbers: In,
            numbers_len: usize, parts: Sizes, parts_len: usize, lists: In, lists_len: usize, after: Out,
            after_len: usize, after_blocks: Out, after_blocks_len: usize, verdict: *mut u32, place: Size,
            reason: *mut u32, after_generation: *mut u64
        );
        turning_propose_passes(
            cells: In, cells_len: usize, targets: In, targets_len: usize, rn: f64, kinds: *mut u32,
            kinds_len: usize, numbers: Out, numbers_len: usize, parts: Size, parts_len: usize, count: Size
        );
        turning_stock_lines(
            cells: In, cells_len: usize, rings: In, rings_len: usize, rings_count: usize, lines: Size
        );
        turning_stock_line(
            edition: u32, cells: In, cells_len: usize, rings: In, rings_len: usize, rings_count: usize,
            k: usize, line: *mut [u8; 128], len: Size
        );
    }
}

/// The call's number, with the memory lent to it.
#[rustfmt::skip]
pub fn run(call: &Call, memory: &mut Memory) -> u32 {
    let m = &mut memory.lent;
    // SAFETY: every pointer is to a buffer of the memory, with that buffer's size.
    unsafe {
        match call {
            Call::Root { x } => c::turning_root(*x, m[0].start()),
            Call::Length { x, y } => c::turning_length(*x, *y, m[0].start()),
            Call::Validate { spec } => spec_call!(turning_validate, spec, m[0].start()),
            Call::Bin { spec, i } => {
                spec_call!(turning_bin, spec, *i, m[0].start(), m[1].start())
            }
            Call::New { spec, stamp, .. } => spec_call!(
                turning_new, spec, stamp.edition, m[0].start(), m[1].start(), m[1].size(),
                m[2].start(), m[2].size()
            ),
            Call::Preview { spec, stamp, side, rn, .. } => spec_call!(
                turning_preview, spec, stamp.edition, stamp.generation,
                m[0].start(), m[0].size(), *side, *rn, m[1].start(), m[1].size(),
                m[2].start(), m[2].size(), m[3].start(), m[3].size(), m[4].start(), m[5].start(), m[6].start()
            ),
            Call::PreviewPolygon { spec, stamp, side, excess, .. } => spec_call!(
                turning_preview_polygon, spec, stamp.edition, stamp.generation,
                m[0].start(), m[0].size(), *side, *excess, m[1].start(), m[1].size(),
                m[2].start(), m[2].size(), m[3].start(), m[3].size(), m[4].start(), m[5].start(), m[6].start()
            ),
            Call::Cut { spec, stamp, cut, .. } => {
                macro_rules! cut {
                    ($name:ident, $x:expr, $y:expr, $z:expr) => {
                        spec_call!(
                            $name, spec, stamp.edition, stamp.generation, m[0].start(), m[0].size(), *$x, *$y, *$z,
                            m[1].start(), m[1].size(), m[2].start(), m[2].size(), m[3].start(), m[4].start(), m[5].start()
                        )
                    };
                }
                match cut {
                    Simple::ThreadCut { z0, z1, radius } => {
                        cut!(turning_thread_cut, z0, z1, radius)
                    }
                    Simple::ThreadCutInner { z0, z1, radius } => {
                        cut!(turning_thread_cut_inner, z0, z1, radius)
                    }
                    Simple::Drill {
                        tip_z,
                        radius,
                        cone,
                    } => cut!(turning_drill, tip_z, radius, cone),
                }
            }
            Call::Apply { spec, stamp, list, .. } => spec_call!(
                turning_apply, spec, stamp.edition, m[0].start(), m[1].start(), m[1].size(),
                m[2].start(), m[2].size(),
                m[3].start(), m[3].size(), m[4].start(), m[4].size(), list.changes,
                list.stamp.edition, list.stamp.generation, m[5].start()
            ),
            Call::ChangesTo { spec, stamp, .. } => spec_call!(
                turning_changes_to, spec, stamp.edition, stamp.generation,
                m[0].start(), m[0].size(), m[1].start(), m[1].size(),
                m[2].start(), m[2].size(), m[3].start(), m[3].size(), m[4].start(), m[5].start(), m[6].start()
            ),
            Call::RemoveRing { spec, ring, .. } => spec_call!(
                turning_remove_ring, spec, m[0].start(), m[0].size(), m[1].start(), m[2].start(),
                ring[0], ring[1], ring[2], ring[3], m[3].start(), m[4].start()
            ),
            Call::ApplyMove { spec, stamp, list, .. } => spec_call!(
                turning_apply_move, spec, stamp.edition, m[0].start(), m[1].start(), m[1].size(),
                m[2].start(), m[2].size(), m[3].start(), m[3].size(), m[4].start(),
                m[5].start(), m[5].size(), m[6].start(), m[6].size(), list.changes,
                list.stamp.edition, list.stamp.generation,
                m[7].start(), m[7].size(), m[8].start(), m[8].size(), m[9].start()
            ),
            Call::FromParts { spec, stamp, .. } => spec_call!(
                turning_from_parts, spec, stamp.edition, m[0].start(), m[1].start(), m[1].size(),
                m[2].start(), m[2].size(), m[3].start(), m[3].size(),
                m[4].start(), m[4].size(), m[5].start(), m[6].start(), m[6].size(), m[7].start()
            ),
            Call::Renew { spec, .. } => spec_call!(
                turning_renew, spec, m[0].start(), m[0].size(), m[1].start(), m[1].size()
            ),
            Call::Volume { spec, store, .. } => spec_call!(
                turning_volume, spec, m[0].start(), m[0].size(), m[1].start(), m[1].size(),
                store.count, m[2].start(), m[3].start()
            ),
            Call::EnvelopeAt { spec, z, .. } => spec_call!(
                turning_envelope_at, spec, m[0].start(), m[0].size(), *z,
                m[1].start(), m[2].start(), m[3].start()
            ),
            Call::Range { spec, lo, hi, .. } => spec_call!(
                turning_range, spec, m[0].start(), m[0].size(), m[1].start(), m[1].size(), *lo, *hi,
                m[2].start(), m[3].start(), m[4].start()
            ),
            Call::EnvelopeOrder { .. } => {
                c::turning_envelope_order(m[0].start(), m[0].size(), m[1].start())
            }
            Call::Within { lo, hi, .. } => c::turning_within(
                m[0].start(), m[0].size(), *lo, *hi, m[1].start(), m[2].start()
            ),
            Call::RadiusAt { u, .. } => {
                c::turning_radius_at(m[0].start(), m[0].size(), *u, m[1].start(), m[2].start())
            }
            Call::RadiusRange { lo, hi, .. } => c::turning_radius_range(
                m[0].start(), m[0].size(), *lo, *hi, m[1].start(), m[2].start(), m[3].start()
            ),
            Call::Segments { tolerance, .. } => c::turning_segments(
                m[0].start(), m[0].size(), *tolerance, m[1].start(), m[1].size(), m[2].start()
            ),
            Call::Excess { tolerance, .. } => c::turning_excess(
                m[0].start(), m[0].size(), m[1].start(), m[1].size(), *tolerance, m[2].start(), m[3].start()
            ),
            Call::Penetration { tolerance, .. } => c::turning_penetration(
                m[0].start(), m[0].size(), m[1].start(), m[1].size(), *tolerance, m[2].start(), m[3].start()
            ),
            Call::Eroded { u, tolerance, .. } => c::turning_eroded(
                m[0].start(), m[0].size(), *u, *tolerance, m[1].start(), m[2].start()
            ),
            Call::CheckPasses { spec, stamp, passes, .. } => spec_call!(
                turning_check_passes, spec, stamp.edition, stamp.generation,
                m[0].start(), m[0].size(), m[1].start(), m[1].size(), m[2].start(), m[2].size(),
                m[3].start(), passes.kinds.len(), m[4].start(), m[4].size(), m[5].start(), m[5].size(),
                m[6].start(), m[6].size(), m[7].start(), m[7].size(), m[8].start(), m[8].size(),
                m[9].start(), m[10].start(), m[11].start(), m[12].start()
            ),
            Call::ProposePasses { spec, rn, room, .. } => spec_call!(
                turning_propose_passes, spec, m[0].start(), m[0].size(), m[1].start(), m[1].size(), *rn,
                m[2].start(), room.kinds, m[3].start(), m[3].size(), m[4].start(), m[4].size(), m[5].start()
            ),
        }
    }
}
