//! What include/turning.h says of lent memory: NULL with a length of 0, lengths that no memory has, read-only buffers that are
//! the same. A call that read what it may not would end the test by a signal.
use compare::library::c::*;
use std::f64::consts::PI;
use std::ptr::{null, null_mut};

/// A call on a bar of one bin, z 0..1, radii 0..10.
macro_rules! bar {
    ($call:ident, $($argument:expr),*) => {
        unsafe { $call(0., 1., 10., 0., 1., 1, $($argument),*) }
    };
}

/// Its cell.
const CELL: [f64; 4] = [10., 10., 0., 0.];
/// What is kept of its block.
const KEPT: [f64; 2] = [10., 0.];

/// Lengths at the end of what a size can say: multiples of 2, 4, 5 and 8 among them.
fn longest() -> impl Iterator<Item = usize> {
    let last = (0..40).map(|k| usize::MAX - k);
    last.chain([1 << 61, 1 << 62, 1 << 63])
}

#[test]
#[rustfmt::skip]
fn null_with_length_0() {
    let (cells, none, is, xs) = (CELL.as_ptr(), null(), null_mut(), null_mut());
    let (mut own, mut count, mut generation, mut first, mut order) = (CELL, 7, 5, 7, 7);
    let (mut found, mut x, mut y, mut position) = (7, 7., 7., 7_usize);
    let (mut edition, mut at_preview) = (7_u32, 7_u64);
    let at = &mut position as *mut usize;
    let (e, g) = (&mut edition as *mut u32, &mut at_preview as *mut u64);
    let mut kept = KEPT;
    assert_eq!(bar!(turning_new, 2, &mut generation, xs, 0, xs, 0), 3);
    assert_eq!(bar!(turning_new, 2, &mut generation, own.as_mut_ptr(), 4, xs, 0), 20);
    assert_eq!(bar!(turning_renew, none, 0, xs, 0), 3);
    assert_eq!(bar!(turning_renew, cells, 4, xs, 0), 20);
    assert_eq!(bar!(turning_range, none, 0, none, 0, 0., 1., &mut found, &mut x, &mut y), 3);
    assert_eq!(bar!(turning_range, cells, 4, none, 0, 0., 1., &mut found, &mut x, &mut y), 20);
    assert_eq!((own, kept, x, y), (CELL, KEPT, 7., 7.));
    assert_eq!(bar!(turning_preview, 2, 5, none, 0, 0, 1., none, 0, is, 0, xs, 0, &mut count, e, g), 3);
    assert_eq!((count, found, order, generation), (7, 7, 7, 5));
    assert_eq!((edition, at_preview), (7, 7));
    assert_eq!(bar!(turning_preview, 2, 5, cells, 4, 0, 1., none, 0, is, 0, xs, 0, &mut count, e, g), 0);
    assert_eq!((count, edition, at_preview), (0, 2, 5));
    assert_eq!(bar!(turning_preview_polygon, 3, 6, cells, 4, 1, 0., none, 0, is, 0, xs, 0, &mut count, e, g), 0);
    assert_eq!((edition, at_preview), (3, 6));
    assert_eq!(bar!(turning_thread_cut, 4, 7, cells, 4, 2., 3., 5., is, 0, xs, 0, &mut count, e, g), 0);
    assert_eq!(bar!(turning_thread_cut, 5, 8, cells, 4, 0., 1., 5., is, 0, xs, 0, &mut count, e, g), 6);
    assert_eq!((edition, at_preview), (4, 7));
    assert_eq!(bar!(turning_thread_cut_inner, 5, 8, cells, 4, 2., 3., 5., is, 0, xs, 0, &mut count, e, g), 0);
    assert_eq!((edition, at_preview), (5, 8));
    assert_eq!(bar!(turning_drill, 6, 9, cells, 4, 2., 5., 0., is, 0, xs, 0, &mut count, e, g), 0);
    assert_eq!((edition, at_preview), (6, 9));
    assert_eq!(bar!(turning_changes_to, 7, 10, cells, 4, cells, 4, is, 0, xs, 0, &mut count, e, g), 0);
    assert_eq!((edition, at_preview), (7, 10));
    generation = 0;
    let b = kept.as_mut_ptr();
    assert_eq!(bar!(turning_apply, 2, &mut generation, own.as_mut_ptr(), 4, xs, 0, null(), 0, none, 0, 0, 2, 1, at), 19);
    assert_eq!(bar!(turning_apply, 2, &mut generation, own.as_mut_ptr(), 4, b, 2, null(), 0, none, 0, 0, 3, 0, at), 19);
    assert_eq!(bar!(turning_apply, 2, &mut generation, own.as_mut_ptr(), 4, xs, 0, null(), 0, none, 0, 0, 2, 0, at), 20);
    assert_eq!((own, generation), (CELL, 0));
    assert_eq!(bar!(turning_apply, 2, &mut generation, own.as_mut_ptr(), 4, b, 2, null(), 0, none, 0, 0, 2, 0, at), 0);
    assert_eq!((own, generation, count), (CELL, 1, 0));
    let mut told = 7_usize;
    assert_eq!(bar!(turning_remove_ring, xs, 0, &mut count, &mut generation, 2., 3., 0., 1., &mut told, at), 0);
    assert_eq!((count, generation), (0, 1));
    assert_eq!(bar!(turning_remove_ring, xs, 0, &mut count, &mut generation, 0., 1., 0., 1., &mut told, at), 11);
    assert_eq!(told, 0);
    let stored = &mut count;
    assert_eq!(bar!(turning_apply_move, 2, &mut generation, own.as_mut_ptr(), 4, xs, 0, xs, 0, stored, null(), 0, none, 0, 0, 2, 0, none, 0, null_mut(), 0, at), 19);
    assert_eq!(bar!(turning_apply_move, 2, &mut generation, own.as_mut_ptr(), 4, xs, 0, xs, 0, stored, null(), 0, none, 0, 0, 2, 1, none, 0, null_mut(), 0, at), 20);
    assert_eq!(bar!(turning_apply_move, 2, &mut generation, own.as_mut_ptr(), 4, b, 2, xs, 0, stored, null(), 0, none, 0, 0, 2, 1, none, 0, null_mut(), 0, at), 0);
    assert_eq!((count, generation), (0, 2));
    assert_eq!(bar!(turning_from_parts, 9, &mut generation, cells, 4, xs, 0, none, 0, xs, 0, &mut count, null_mut(), 0, at), 20);
    kept = [f64::NAN; 2];
    assert_eq!(bar!(turning_from_parts, 9, &mut generation, cells, 4, kept.as_mut_ptr(), 2, none, 0, xs, 0, &mut count, null_mut(), 0, at), 0);
    assert_eq!((count, generation, kept), (0, 0, KEPT));
    kept = [f64::NAN; 2];
    assert_eq!(bar!(turning_renew, cells, 4, kept.as_mut_ptr(), 2), 0);
    assert_eq!(kept, KEPT);
    let (mut verdict, mut place, mut reason, mut after, mut raised) = (7_u32, 7_usize, 7_u32, [7.; 4], 7_u64);
    let (v, p, q, u, ks) = (&mut verdict as *mut u32, &mut place as *mut usize, &mut reason as *mut u32, &mut raised as *mut u64, null());
    let wide = [0., 10.];
    let (k, t, a) = (KEPT.as_ptr(), wide.as_ptr(), after.as_mut_ptr());
    assert_eq!(bar!(turning_check_passes, 2, 5, none, 0, none, 0, none, 0, ks, 0, none, 0, null(), 0, none, 0, xs, 0, xs, 0, v, p, q, u), 3);
    assert_eq!(bar!(turning_check_passes, 2, 5, cells, 4, none, 0, none, 0, ks, 0, none, 0, null(), 0, none, 0, xs, 0, xs, 0, v, p, q, u), 3);
    assert_eq!(bar!(turning_check_passes, 2, 5, cells, 4, none, 0, none, 0, ks, 0, none, 0, null(), 0, none, 0, a, 4, xs, 0, v, p, q, u), 20);
    assert_eq!(bar!(turning_check_passes, 2, 5, cells, 4, k, 2, none, 0, ks, 0, none, 0, null(), 0, none, 0, a, 4, xs, 0, v, p, q, u), 20);
    assert_eq!(bar!(turning_check_passes, 2, 5, cells, 4, k, 2, none, 0, ks, 0, none, 0, null(), 0, none, 0, a, 4, kept.as_mut_ptr(), 2, v, p, q, u), 25);
    assert_eq!((verdict, place, reason, raised, after), (7, 7, 7, 7, [7.; 4]));
    // a line without numbers, and a nose without a part
    for kind in [0_u32, 2] {
        assert_eq!(bar!(turning_check_passes, 2, 5, cells, 4, k, 2, t, 2, &kind, 1, none, 0, null(), 0, none, 0, a, 4, kept.as_mut_ptr(), 2, v, p, q, u), 0);
        assert_eq!((verdict, place, reason, raised, after), (2, 0, 5, 5, CELL));
    }
    kept = [f64::NAN; 2];
    (place, reason) = (7, 7);
    assert_eq!(bar!(turning_check_passes, 2, 6, cells, 4, k, 2, t, 2, ks, 0, none, 0, null(), 0, none, 0, a, 4, kept.as_mut_ptr(), 2, v, p, q, u), 0);
    assert_eq!((verdict, place, reason, raised, after, kept), (1, 7, 7, 6, CELL, KEPT));
    assert_eq!(bar!(turning_propose_passes, none, 0, none, 0, 0.8, null_mut(), 0, xs, 0, is, 0, &mut count), 3);
    assert_eq!(bar!(turning_propose_passes, cells, 4, none, 0, 0.8, null_mut(), 0, xs, 0, is, 0, &mut count), 25);
    count = 7;
    assert_eq!(bar!(turning_propose_passes, cells, 4, [5., 6.].as_ptr(), 2, 0.8, null_mut(), 0, xs, 0, is, 0, &mut count), 0);
    assert_eq!(count, 0);
    assert_eq!(bar!(turning_volume, cells, 4, none, 0, 0, &mut x, &mut y), 0);
    assert_eq!((x, y), (100. * PI, 100. * PI));
    assert_eq!(bar!(turning_envelope_at, none, 0, 0.5, &mut found, &mut x, &mut y), 3);
    unsafe {
        assert_eq!(turning_envelope_order(none, 0, &mut order), 0);
        assert_eq!(turning_within(none, 0, 0., 1., &mut first, &mut count), 0);
        assert_eq!(turning_radius_at(none, 0, 0., &mut found, &mut x), 0);
        assert_eq!((order, first, count, found), (1, 0, 0, 0));
        assert_eq!(turning_radius_range(none, 0, 0., 1., &mut found, &mut x, &mut y), 0);
        found = 7;
        assert_eq!(turning_excess(none, 0, none, 0, 0., &mut found, &mut x), 0);
        assert_eq!(found, 0);
        assert_eq!(turning_penetration(none, 0, none, 0, 0., &mut found, &mut x), 0);
        assert_eq!(turning_eroded(none, 0, 0., 0., &mut found, &mut x), 0);
    }
    assert_eq!((found, position), (0, 7));
}

/// Cells, kept numbers, segments and points of such a length are refused before one is read: there is none.
#[test]
#[rustfmt::skip]
fn lengths_near_the_end_are_refused_unread() {
    let (cells, none, is, xs) = (CELL.as_ptr(), null(), null_mut(), null_mut());
    let (mut count, mut generation, mut first, mut order) = (7, 5, 7, 7);
    let (mut found, mut x, mut y, mut position) = (7, 7., 7., 7_usize);
    let (mut edition, mut at_preview) = (7_u32, 7_u64);
    let at = &mut position as *mut usize;
    let (e, g) = (&mut edition as *mut u32, &mut at_preview as *mut u64);
    let (mut own, mut none_stored) = (CELL, 0);
    let (mut verdict, mut place, mut reason, mut raised) = (7_u32, 7_usize, 7_u32, 7_u64);
    let (v, p, q, u) = (&mut verdict as *mut u32, &mut place as *mut usize, &mut reason as *mut u32, &mut raised as *mut u64);
    for len in longest() {
        assert_eq!(bar!(turning_new, 2, &mut generation, xs, len, xs, 2), 3);
        assert_eq!(bar!(turning_new, 2, &mut generation, own.as_mut_ptr(), 4, xs, len), 20);
        assert_eq!(bar!(turning_preview, 2, 5, none, len, 0, 1., none, 0, is, 0, xs, 0, &mut count, e, g), 3);
        assert_eq!(bar!(turning_preview, 2, 5, cells, 4, 0, 1., none, len, is, 0, xs, 0, &mut count, e, g), 5);
        assert_eq!(bar!(turning_preview_polygon, 2, 5, cells, 4, 0, 1., none, len, is, 0, xs, 0, &mut count, e, g), 5);
        assert_eq!(bar!(turning_drill, 2, 5, none, len, 0., 1., 0., is, 0, xs, 0, &mut count, e, g), 3);
        assert_eq!(bar!(turning_changes_to, 2, 5, cells, 4, none, len, is, 0, xs, 0, &mut count, e, g), 3);
        assert_eq!(bar!(turning_apply, 2, &mut generation, xs, len, xs, 2, null(), 0, none, 0, 0, 2, 5, at), 3);
        assert_eq!(bar!(turning_apply, 2, &mut generation, own.as_mut_ptr(), 4, xs, len, null(), 0, none, 0, 0, 2, 5, at), 20);
        assert_eq!(bar!(turning_apply_move, 2, &mut generation, own.as_mut_ptr(), 4, xs, len, xs, 0, &mut none_stored, null(), 0, none, 0, 0, 2, 5, none, 0, null_mut(), 0, at), 20);
        assert_eq!(bar!(turning_from_parts, 2, &mut generation, none, len, xs, 2, none, 0, xs, 0, &mut count, null_mut(), 0, at), 3);
        assert_eq!(bar!(turning_from_parts, 2, &mut generation, cells, 4, xs, len, none, 0, xs, 0, &mut count, null_mut(), 0, at), 20);
        assert_eq!(bar!(turning_renew, none, len, xs, 2), 3);
        assert_eq!(bar!(turning_renew, cells, 4, xs, len), 20);
        assert_eq!(bar!(turning_range, none, len, none, 2, 0., 1., &mut found, &mut x, &mut y), 3);
        assert_eq!(bar!(turning_range, cells, 4, none, len, 0., 1., &mut found, &mut x, &mut y), 20);
        assert_eq!(bar!(turning_check_passes, 2, 5, none, len, none, 2, none, 2, null(), 0, none, 0, null(), 0, none, 0, xs, 4, xs, 2, v, p, q, u), 3);
        assert_eq!(bar!(turning_check_passes, 2, 5, cells, 4, none, 2, none, 2, null(), 0, none, 0, null(), 0, none, 0, xs, len, xs, 2, v, p, q, u), 3);
        assert_eq!(bar!(turning_check_passes, 2, 5, cells, 4, none, len, none, 2, null(), 0, none, 0, null(), 0, none, 0, xs, 4, xs, 2, v, p, q, u), 20);
        assert_eq!(bar!(turning_check_passes, 2, 5, cells, 4, KEPT.as_ptr(), 2, none, 2, null(), 0, none, 0, null(), 0, none, 0, xs, 4, xs, len, v, p, q, u), 20);
        assert_eq!(bar!(turning_check_passes, 2, 5, cells, 4, KEPT.as_ptr(), 2, none, len, null(), 0, none, 0, null(), 0, none, 0, xs, 4, xs, 2, v, p, q, u), 25);
        assert_eq!(bar!(turning_check_passes, 2, 5, cells, 4, KEPT.as_ptr(), 2, [0., 10.].as_ptr(), 2, null(), len, none, 0, null(), 0, none, 0, xs, 4, xs, 2, v, p, q, u), 25);
        assert_eq!(bar!(turning_propose_passes, none, len, none, 2, 0.8, null_mut(), 0, xs, 0, is, 0, &mut count), 3);
        assert_eq!(bar!(turning_propose_passes, cells, 4, none, len, 0.8, null_mut(), 0, xs, 0, is, 0, &mut count), 25);
        assert_eq!(bar!(turning_volume, none, len, none, 0, 0, &mut x, &mut y), 3);
        assert_eq!(bar!(turning_envelope_at, none, len, 0., &mut found, &mut x, &mut y), 3);
        unsafe {
            assert_eq!(turning_envelope_order(none, len, &mut order), 14);
            assert_eq!(turning_within(none, len, 0., 1., &mut first, &mut count), 14);
            assert_eq!(turning_radius_at(none, len, 0., &mut found, &mut x), 14);
            assert_eq!(turning_radius_range(none, len, 0., 1., &mut found, &mut x, &mut y), 14);
            assert_eq!(turning_excess(none, len, none, 0, 0., &mut found, &mut x), 14);
            assert_eq!(turning_excess(none, 0, none, len, 0., &mut found, &mut x), 14);
            assert_eq!(turning_penetration(none, 0, none, len, 0., &mut found, &mut x), 14);
            assert_eq!(turning_eroded(none, len, 0., 0., &mut found, &mut x), 14);
        }
    }
    assert_eq!((count, generation, first, order, found, x, y, position), (7, 5, 7, 7, 7, 7., 7., 7));
    assert_eq!((own, none_stored), (CELL, 0));
    assert_eq!((edition, at_preview), (7, 7));
    assert_eq!((verdict, place, reason, raised), (7, 7, 7, 7));
}

/// Numbers, parts and lists of such a length are taken as they are, and only those of the cuts are touched; the room of a proposal too.
#[test]
#[rustfmt::skip]
fn lists_of_cuts_near_the_end_are_read_as_far_as_their_cuts() {
    for len in longest() {
        let (line, wide, segment) = ([0.5, 0., 9., 0., 9., 1.], [0., 10.], [9., 0., 9., 1., 0.]);
        let (mut verdict, mut place, mut reason, mut raised) = (7_u32, 7_usize, 7_u32, 7_u64);
        let (mut after, mut kept, own) = ([7.; 4], [7.; 2], CELL);
        for kind in [0_u32, 2] {
            let part = [0_usize, 5];
            assert_eq!(bar!(turning_check_passes, 2, 5, own.as_ptr(), 4, KEPT.as_ptr(), 2, wide.as_ptr(), 2, &kind, 1, line.as_ptr(), len, part.as_ptr(), len,
                segment.as_ptr(), len, after.as_mut_ptr(), 4, kept.as_mut_ptr(), 2, &mut verdict, &mut place, &mut reason, &mut raised), 0);
            assert_eq!((verdict, place, reason, raised), (1, 7, 7, 6));
            assert_eq!((after, kept), ([8.5, 8.5, 0., 0.], [8.5, 0.]));
        }
        let (mut kinds, mut numbers, mut parts, mut count) = ([7_u32; 2], [7.; 8], [7_usize; 4], 7);
        assert_eq!(bar!(turning_propose_passes, own.as_ptr(), 4, [5., 6.].as_ptr(), 2, 0.5, kinds.as_mut_ptr(), len, numbers.as_mut_ptr(), len,
            parts.as_mut_ptr(), len, &mut count), 0);
        assert_eq!((count, kinds, parts), (1, [0, 7], [0, 0, 7, 7]));
        assert_eq!(numbers, [0.5, 0., 6., -0.5, 6., 1.5, 7., 7.]);
    }
}

/// Room of such a length is room: only the changes and rings in it are touched.
#[test]
#[rustfmt::skip]
fn room_near_the_end_is_room() {
    for len in longest() {
        let (mut cells, mut generation, mut count, mut position) = (CELL, 0, 0, 7_usize);
        let (mut indices, mut records, mut rings) = ([7_usize; 2], [7_f64; 16], [7_f64; 8]);
        let (is, xs) = (indices.as_mut_ptr(), records.as_mut_ptr());
        let (mut edition, mut at_preview) = (7, 7);
        let (e, g) = (&mut edition, &mut at_preview);
        assert_eq!(bar!(turning_thread_cut, 2, 0, cells.as_ptr(), 4, 0., 1., 5., is, len, xs, len, &mut count, e, g), 0);
        assert_eq!((count, indices, edition, at_preview), (1, [0, 7], 2, 0));
        assert_eq!(records[4..], [5., 10., 0., 0., 7., 7., 7., 7., 7., 7., 7., 7.]);
        let own = cells.as_mut_ptr();
        let at = &mut position as *mut usize;
        let mut kept = KEPT;
        let b = kept.as_mut_ptr();
        assert_eq!(bar!(turning_apply, 2, &mut generation, own, 4, b, 2, is, len, xs, len, 1, 2, 0, at), 0);
        assert_eq!((cells, generation), ([5., 10., 0., 0.], 1));
        count = 0;
        let (room, mut told) = (rings.as_mut_ptr(), 7_usize);
        assert_eq!(bar!(turning_remove_ring, room, len, &mut count, &mut generation, 0., 1., 2., 3., &mut told, at), 0);
        assert_eq!((count, generation, rings), (1, 2, [0., 1., 2., 3., 7., 7., 7., 7.]));
        assert_eq!(told, 0);
        // the same list again: it is for the stock before; and as if it were for this one: the bin holds something else
        assert_eq!(bar!(turning_apply, 2, &mut generation, own, 4, b, 2, is, len, xs, len, 1, 2, 0, at), 19);
        assert_eq!(position, 7);
        assert_eq!(bar!(turning_apply, 2, &mut generation, own, 4, b, 2, is, len, xs, len, 1, 2, 2, at), 22);
        assert_eq!((cells, kept, generation, position), ([5., 10., 0., 0.], KEPT, 2, 0));
    }
}

#[test]
#[rustfmt::skip]
fn read_only_buffers_may_be_the_same() {
    // four numbers that are a cell that fits, and a ring that is stored
    let both = [0., 1., 2., 3.];
    let (at, is, xs) = (both.as_ptr(), null_mut(), null_mut());
    let (mut count, mut least, mut greatest, mut rings, mut position) = (7, 7., 7., [0.; 4], 7);
    let (mut edition, mut generation, mut kept, mut found) = (7, 7, [7.; 2], 7);
    assert_eq!(bar!(turning_changes_to, 2, 5, at, 4, at, 4, is, 0, xs, 0, &mut count, &mut edition, &mut generation), 0);
    assert_eq!((count, edition, generation), (0, 2, 5));
    assert_eq!(bar!(turning_volume, at, 4, at, 4, 1, &mut least, &mut greatest), 0);
    assert_eq!((least, greatest), (0., 0.));
    assert_eq!(bar!(turning_from_parts, 2, &mut generation, at, 4, kept.as_mut_ptr(), 2, at, 4, rings.as_mut_ptr(), 4, &mut count, null_mut(), 0, &mut position), 0);
    assert_eq!((count, rings, position, generation), (1, both, 7, 0));
    // a cell without material, whose bore and outer radius are then kept
    assert_eq!(kept, [0., 10.]);
    let (mut least, mut greatest) = (7., 7.);
    assert_eq!(bar!(turning_range, at, 4, kept.as_ptr(), 2, 0., 1., &mut found, &mut least, &mut greatest), 0);
    assert_eq!((found, least, greatest), (0, 7., 7.));
    // kept numbers that are a part of the cells, which are only read: a cell whose upper bound of the outer radius and lower
    // bound of the bore stand side by side
    let cell = [10., 10., 0., 0.];
    assert_eq!(bar!(turning_range, cell.as_ptr(), 4, cell[1..].as_ptr(), 2, 0., 1., &mut found, &mut least, &mut greatest), 0);
    assert_eq!((found, least, greatest), (1, 0., 10.));
}
