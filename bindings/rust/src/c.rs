//! The calls of `include/turning.h`, in its order. Nothing else in the crate names a C function.
//!
//! The three calls whose arguments changed last, with header 7, stand together at the end.

type In = *const f64;
type Out = *mut f64;
type Size = *mut usize;
type Sizes = *const usize;

macro_rules! declare {
    ($($name:ident($($parameter:ident: $type:ty),* $(,)?);)*) => {
        extern "C" {
            $(pub fn $name($($parameter: $type),*) -> u32;)*
        }
    };
}
macro_rules! declare_with_spec {
    ($($name:ident($($parameter:ident: $type:ty),* $(,)?);)*) => {
        declare! {
            $($name(
                z_min: f64, z_max: f64, outer: f64, bore: f64, cell: f64, max_cells: usize,
                $($parameter: $type),*
            );)*
        }
    };
}

declare! {
    turning_header();
    turning_root(x: f64, root: Out);
    turning_length(x: f64, y: f64, length: Out);
    turning_envelope_order(points: In, points_len: usize, order: *mut i32);
    turning_within(points: In, points_len: usize, lo: f64, hi: f64, first: Size, count: Size);
    turning_radius_at(points: In, points_len: usize, u: f64, found: *mut u32, radius: Out);
    turning_radius_range(
        points: In, points_len: usize, lo: f64, hi: f64, found: *mut u32, lowest: Out, highest: Out,
    );
    turning_job_take(
        state: *mut [u64; 8], bar: *mut [f64; 5], cells: *mut [f64; 2048], rings: *mut [f64; 256],
        line: *mut [u8; 128], bytes: *const u8, bytes_len: usize,
    );
    turning_job_finish(state: *const [u64; 8], line: *mut u64);
    turning_job_output(
        state: *const [u64; 8], cells: *const [f64; 2048], rings: *const [f64; 256], k: usize,
        out: *mut [u8; 128], len: Size,
    );
    turning_read_part(
        state: *mut [u64; 8], bar: *mut [f64; 5], cells: Out, cells_len: usize, rings: Out, rings_len: usize,
        line: *mut [u8; 128], bytes: *const u8, bytes_len: usize,
    );
    turning_read_end(
        state: *const [u64; 8], bar: *const [f64; 5], max_cells: usize, cells: In, cells_len: usize,
        rings: In, rings_len: usize, n: Size, rings_count: Size, edition: *mut u32, line: Size,
    );
    turning_segments(
        points: In, points_len: usize, tolerance: f64, segments: Out, segments_len: usize, count: Size,
    );
    turning_excess(
        points: In, points_len: usize, polygon: In, polygon_len: usize, tolerance: f64,
        found: *mut u32, by: Out,
    );
    turning_penetration(
        points: In, points_len: usize, polygon: In, polygon_len: usize, tolerance: f64,
        found: *mut u32, by: Out,
    );
    turning_eroded(
        points: In, points_len: usize, u: f64, tolerance: f64, found: *mut u32, radius: Out,
    );
}

declare_with_spec! {
    turning_validate(n: Size);
    turning_bin(i: usize, za: Out, zb: Out);
    turning_new(
        edition: u32, generation: *mut u64, cells: Out, cells_len: usize, blocks: Out, blocks_len: usize,
    );
    turning_renew(cells: In, cells_len: usize, blocks: Out, blocks_len: usize);
    turning_preview(
        edition: u32, generation: u64, cells: In, cells_len: usize, side: u32, rn: f64,
        segments: In, segments_len: usize, indices: Size, indices_len: usize, records: Out,
        records_len: usize, count: Size, list_edition: *mut u32, list_generation: *mut u64,
    );
    turning_preview_polygon(
        edition: u32, generation: u64, cells: In, cells_len: usize, side: u32, excess: f64,
        points: In, points_len: usize, indices: Size, indices_len: usize, records: Out,
        records_len: usize, count: Size, list_edition: *mut u32, list_generation: *mut u64,
    );
    turning_thread_cut(
        edition: u32, generation: u64, cells: In, cells_len: usize, z0: f64, z1: f64, radius: f64,
        indices: Size, indices_len: usize, records: Out, records_len: usize, count: Size,
        list_edition: *mut u32, list_generation: *mut u64,
    );
    turning_thread_cut_inner(
        edition: u32, generation: u64, cells: In, cells_len: usize, z0: f64, z1: f64, radius: f64,
        indices: Size, indices_len: usize, records: Out, records_len: usize, count: Size,
        list_edition: *mut u32, list_generation: *mut u64,
    );
    turning_drill(
        edition: u32, generation: u64, cells: In, cells_len: usize, tip_z: f64, radius: f64, cone: f64,
        indices: Size, indices_len: usize, records: Out, records_len: usize, count: Size,
        list_edition: *mut u32, list_generation: *mut u64,
    );
    turning_apply(
        edition: u32, generation: *mut u64, cells: Out, cells_len: usize, blocks: Out,
        blocks_len: usize, indices: Sizes, indices_len: usize, records: In, records_len: usize,
        changes: usize, list_edition: u32, list_generation: u64, position: Size,
    );
    turning_changes_to(
        edition: u32, generation: u64, cells: In, cells_len: usize, after: In, after_len: usize,
        indices: Size, indices_len: usize, records: Out, records_len: usize, count: Size,
        list_edition: *mut u32, list_generation: *mut u64,
    );
    turning_volume(
        cells: In, cells_len: usize, rings: In, rings_len: usize, rings_count: usize, least: Out,
        greatest: Out,
    );
    turning_envelope_at(
        cells: In, cells_len: usize, z: f64, found: *mut u32, bore_lower: Out, outer_upper: Out,
    );
    turning_range(
        cells: In, cells_len: usize, blocks: In, blocks_len: usize, lo: f64, hi: f64,
        found: *mut u32, bore_lower: Out, outer_upper: Out,
    );
    turning_check_passes(
        edition: u32, generation: u64, cells: In, cells_len: usize, blocks: In, blocks_len: usize,
        targets: In, targets_len: usize, kinds: *const u32, kinds_len: usize, numbers: In,
        numbers_len: usize, parts: Sizes, parts_len: usize, lists: In, lists_len: usize, after: Out,
        after_len: usize, after_blocks: Out, after_blocks_len: usize, verdict: *mut u32, place: Size,
        reason: *mut u32, after_generation: *mut u64,
    );
    turning_propose_passes(
        cells: In, cells_len: usize, targets: In, targets_len: usize, rn: f64, kinds: *mut u32,
        kinds_len: usize, numbers: Out, numbers_len: usize, parts: Size, parts_len: usize, count: Size,
    );
    turning_stock_lines(
        cells: In, cells_len: usize, rings: In, rings_len: usize, rings_count: usize, lines: Size,
    );
    turning_stock_line(
        edition: u32, cells: In, cells_len: usize, rings: In, rings_len: usize, rings_count: usize,
        k: usize, line: *mut [u8; 128], len: Size,
    );
}

// Since header 7: what the rings cost is told in `tests`, directly before `position`.
declare_with_spec! {
    turning_remove_ring(
        rings: Out, rings_len: usize, rings_count: Size, generation: *mut u64,
        z0: f64, z1: f64, r0: f64, r1: f64, tests: Size, position: Size,
    );
    turning_apply_move(
        edition: u32, generation: *mut u64, cells: Out, cells_len: usize, blocks: Out,
        blocks_len: usize, rings: Out, rings_len: usize, rings_count: Size, indices: Sizes,
        indices_len: usize, records: In, records_len: usize, changes: usize, list_edition: u32,
        list_generation: u64, removed: In, removed_len: usize, tests: Size, tests_len: usize,
        position: Size,
    );
    turning_from_parts(
        edition: u32, generation: *mut u64, cells: In, cells_len: usize, blocks: Out,
        blocks_len: usize, given: In, given_len: usize, rings: Out, rings_len: usize,
        rings_count: Size, tests: Size, tests_len: usize, position: Size,
    );
}
