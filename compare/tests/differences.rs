//! Each intended difference of docs/DIFFERENCES.md on the smallest input that shows it: what camlib
//! does, and what the library does.
use compare::call::{Answer, Call, Change, List, Room, Simple, Spec, Stamp, Store};
use compare::jobs;
use compare::oracle::answer;
use compare::oracle::stock::{camlib_spec, to_camlib};
use compare::run::difference;
use compare::sequence::list_of;
use plain::motion::{Curve, Plane};
use plain::turning::profile::{Envelope, Seg, TurnProfile};
use plain::turning::stock::{TurnChange, TurnSide, TurnStock};
use std::panic::{AssertUnwindSafe, catch_unwind};

/// One bin, z 0..1, radii 0..10.
const BAR: Spec = Spec {
    z_min: 0.,
    z_max: 1.,
    outer: 10.,
    bore: 0.,
    cell: 1.,
    max_cells: 4096,
};
const CELL: [f64; 4] = [10., 10., 0., 0.];
/// What is kept of its block.
const KEPT: [f64; 2] = [10., 0.];
const ROOM: Room = Room {
    indices: 1,
    records: 8,
};
const MINUS: u64 = 1 << 63;

/// An answer, or the number of a refusal; where it failed is in tests/positions.rs.
type Outcome = Result<Answer, u32>;

/// What the library does; it must be what the oracle says.
fn here(call: Call) -> Outcome {
    let outcome = answer(&call);
    if let Some(text) = difference(&call, &outcome) {
        panic!("{text}");
    }
    outcome.map_err(|reason| reason.number)
}

fn camlib(spec: Spec) -> TurnStock {
    TurnStock::new(camlib_spec(&spec)).unwrap()
}

fn line(a: [f64; 2], b: [f64; 2]) -> Curve {
    Curve::Line {
        start: [a[0], 0., a[1]],
        end: [b[0], 0., b[1]],
    }
}

fn nose(spec: Spec, rn: f64, a: [f64; 2], b: [f64; 2]) -> Outcome {
    here(Call::Preview {
        spec,
        stamp: Stamp::default(),
        cells: CELL.to_vec(),
        side: 0,
        rn,
        segments: vec![a[0], a[1], b[0], b[1], 0.],
        room: ROOM,
    })
}

/// The outer bounds of a bar of one bin after a nose line: camlib's and the library's.
fn outer_after(spec: Spec, rn: f64, a: [f64; 2], b: [f64; 2]) -> [[f64; 2]; 2] {
    let theirs = camlib(spec).preview(&line(a, b), rn, TurnSide::Outer, 0.);
    let theirs = theirs.unwrap();
    let theirs = theirs.first().map_or([10., 10.], |c| {
        [c.after.outer.lower_mm, c.after.outer.upper_mm]
    });
    let ours = match nose(spec, rn, a, b) {
        Ok(Answer::Changes(list, _)) => list.first().map_or(CELL, |c| c.after),
        other => panic!("{other:?}"),
    };
    [theirs, [ours[0], ours[1]]]
}

fn cut(cut: Simple) -> Outcome {
    here(Call::Cut {
        spec: BAR,
        stamp: Stamp::default(),
        cells: CELL.to_vec(),
        cut,
        room: ROOM,
    })
}

fn thread(z0: f64, z1: f64, radius: f64) -> Outcome {
    cut(Simple::ThreadCut { z0, z1, radius })
}

/// The commit of a list to a stock of edition 0 and the generation, for which it is.
fn apply(generation: u64, list: List) -> Outcome {
    let stamp = Stamp {
        edition: 0,
        generation,
    };
    commit(stamp, List { stamp, ..list })
}

fn commit(stamp: Stamp, list: List) -> Outcome {
    here(Call::Apply {
        spec: BAR,
        stamp,
        cells: CELL.to_vec(),
        blocks: KEPT.to_vec(),
        list,
    })
}

fn list(before: [f64; 4], after: [f64; 4]) -> List {
    List {
        indices: vec![0],
        records: [before, after].as_flattened().to_vec(),
        changes: 1,
        stamp: Stamp::default(),
    }
}

fn remove_ring(rings: &[[f64; 4]], rings_len: usize, ring: [f64; 4]) -> Outcome {
    let mut store = Store {
        rings: rings.as_flattened().to_vec(),
        count: rings.len(),
    };
    store.rings.resize(rings_len, 0.);
    here(Call::RemoveRing {
        spec: BAR,
        store,
        generation: 0,
        ring,
    })
}

fn panics(f: impl FnOnce()) -> bool {
    catch_unwind(AssertUnwindSafe(f)).is_err()
}

fn near(x: f64, y: f64) -> bool {
    x.to_bits().abs_diff(y.to_bits()) <= 1
}

fn no_change() -> Outcome {
    Ok(Answer::Changes(vec![], Stamp::default()))
}

/// Here the nearest to the exact length, the square being exact; `hypot` may be one beside it.
#[test]
fn a_length() {
    let length = here(Call::Length { x: 17., y: 27. });
    assert_eq!(length, Ok(Answer::Number(31.906112267087632)));
    assert!(near(17_f64.hypot(27.), 31.906112267087632));
}

/// A nose line over it: the low bound may differ in its last bit.
#[test]
fn a_nose_line() {
    let [theirs, ours] = outer_after(BAR, 2., [0., -16.], [17., 11.]);
    assert_eq!(ours, [7.710658350586102, 8.34028798021573]);
    assert!(near(theirs[0], ours[0]) && near(theirs[1], ours[1]));
}

/// So short that its squares vanish: it has a length and a side, here and in camlib.
#[test]
fn a_segment_whose_squares_vanish() {
    let ulp = f64::from_bits(1);
    let spec = Spec {
        z_min: ulp,
        z_max: 2. * ulp,
        cell: ulp,
        ..BAR
    };
    let [theirs, ours] = outer_after(spec, 0., [0., 0.], [0., 3. * ulp]);
    assert_eq!([theirs, ours], [[0., 0.]; 2]);
}

/// Squares that are subnormal: the normal is a unit one, here and in camlib.
#[test]
fn a_segment_whose_squares_are_subnormal() {
    let [theirs, ours] = outer_after(BAR, 5., [9., 0.], [9., 2.72e-162]);
    assert_eq!([theirs[0], ours[0]], [4.; 2]);
}

/// The same in both, and wrong: the length of (5e-324, -5e-324) is 5e-324, so that the normal is
/// (1, 1), 1.41 long. The inner bounds of bin 4 become (3, 5) and those of bin 5 (0, 5), where the nose
/// reaches (5e-324, 3) and (0, 5e-324): bin 4 is certified to 3, and the metal there is not cut.
#[test]
fn a_chord_of_the_least_length() {
    let ulp = f64::from_bits(1);
    let spec = Spec { z_max: 8., ..BAR };
    let (a, b) = ([0., 0.], [ulp, -ulp]);
    let theirs = camlib(spec).preview(&line(a, b), 5., TurnSide::Inner, 0.);
    let theirs: Vec<(usize, [f64; 2])> = (theirs.unwrap().iter())
        .map(|c| (c.index, [c.after.inner.lower_mm, c.after.inner.upper_mm]))
        .collect();
    let ours = here(Call::Preview {
        spec,
        stamp: Stamp::default(),
        cells: [CELL; 8].as_flattened().to_vec(),
        side: 1,
        rn: 5.,
        segments: vec![a[0], a[1], b[0], b[1], 0.],
        room: Room {
            indices: 8,
            records: 64,
        },
    });
    let Ok(Answer::Changes(ours, _)) = ours else {
        panic!("{ours:?}");
    };
    let ours: Vec<(usize, [f64; 2])> = (ours.iter())
        .map(|c| (c.index, [c.after[2], c.after[3]]))
        .collect();
    assert_eq!(ours, theirs);
    assert_eq!(ours[4..], [(4, [3., 5.]), (5, [0., 5.])]);
}

#[test]
fn the_number_of_cells() {
    let infinite = Spec {
        cell: f64::from_bits(1),
        max_cells: usize::MAX,
        ..BAR
    };
    assert_eq!(camlib_spec(&infinite).validate(), Ok(usize::MAX));
    assert_eq!(here(Call::Validate { spec: infinite }), Err(2));
    let many = Spec {
        z_max: 16385.,
        max_cells: 16385,
        ..BAR
    };
    assert_eq!(camlib_spec(&many).validate(), Ok(16385));
    assert_eq!(here(Call::Validate { spec: many }), Err(2));
}

/// camlib has a bin for every index.
#[test]
fn a_bin_past_the_last() {
    assert_eq!(camlib(BAR).bin(1), [1., 1.]);
    assert_eq!(here(Call::Bin { spec: BAR, i: 1 }), Err(21));
}

/// camlib's stock has cells of its own; here any lent cells are checked by each call.
#[test]
fn cells_that_do_not_fit() {
    let cells = vec![11., 11., 0., 0.];
    let z = 0.;
    assert_eq!(
        here(Call::EnvelopeAt {
            spec: BAR,
            cells,
            z
        }),
        Err(3)
    );
}

/// camlib looks at the bin of z alone; here a neighbour whose closed range holds z counts too.
#[test]
fn material_at_an_edge() {
    let spec = Spec { z_max: 2., ..BAR };
    let cells = [[4., 5., 0., 0.], [4., 4., 0., 0.]];
    let parts = cells.iter().map(to_camlib).collect();
    let theirs = TurnStock::from_parts(camlib_spec(&spec), parts, vec![]).unwrap();
    assert_eq!(theirs.envelope_at(1.), Some((0., 4.)));
    let call = Call::EnvelopeAt {
        spec,
        cells: cells.as_flattened().to_vec(),
        z: 1.,
    };
    assert_eq!(here(call), Ok(Answer::Found(Some(vec![0., 5.]))));
}

/// Four bins, the third with no material; camlib has no range, and of one height in a bin it is its answer.
#[test]
fn a_range_of_heights() {
    let spec = Spec { z_max: 4., ..BAR };
    let cells = [
        [4., 5., 1., 2.],
        [4., 7., 2., 3.],
        [1., 2., 2., 3.],
        [4., 4., 0., 1.],
    ];
    let theirs = cells.iter().map(to_camlib).collect();
    let theirs = TurnStock::from_parts(camlib_spec(&spec), theirs, vec![]).unwrap();
    let ours = |lo: f64, hi: f64| {
        here(Call::Range {
            spec,
            cells: cells.as_flattened().to_vec(),
            blocks: vec![7., 0.],
            lo,
            hi,
        })
    };
    let band = |bore: f64, outer: f64| Ok(Answer::Found(Some(vec![bore, outer])));
    let none = Ok(Answer::Found(None));
    assert_eq!(ours(0.5, 1.5), band(1., 7.));
    assert_eq!(ours(-9., 0.5), band(1., 5.));
    assert_eq!(ours(3.5, f64::INFINITY), band(0., 4.));
    assert_eq!(ours(f64::NEG_INFINITY, f64::INFINITY), band(0., 7.));
    assert_eq!(ours(2.25, 2.75), none);
    assert_eq!(
        [ours(1.5, 0.5), ours(4.5, 9.)],
        [none.clone(), none.clone()]
    );
    assert_eq!(
        [ours(f64::NAN, 1.), ours(0., f64::NAN)],
        [none.clone(), none]
    );
    for z in [0., 0.5, 1.5, 2.5, 3.5, 4.5, -1., f64::NAN] {
        let found = theirs.envelope_at(z).map(|(bore, outer)| vec![bore, outer]);
        assert_eq!(ours(z, z), Ok(Answer::Found(found)), "{z}");
    }
}

/// Kept numbers are lent and checked, and every commit, move and rebuild leaves those of the cells afterwards; -0.0 is read as
/// +0.0, and +0.0 is left.
#[test]
fn kept_numbers_that_are_not_the_cells() {
    let stamp = Stamp::default();
    let kept = |blocks: &[f64]| {
        let call = Call::Apply {
            spec: BAR,
            stamp,
            cells: CELL.to_vec(),
            blocks: blocks.to_vec(),
            list: list(CELL, [5., 8., 0., 0.]),
        };
        match here(call) {
            Ok(Answer::Stock(_, blocks, _, 1, _)) => {
                Ok(blocks.into_iter().map(f64::to_bits).collect())
            }
            Err(number) => Err(number),
            other => panic!("{other:?}"),
        }
    };
    let left: Result<Vec<u64>, u32> = Ok(vec![8_f64.to_bits(), 0]);
    assert_eq!(kept(&KEPT), left);
    assert_eq!(kept(&[10., -0.]), left);
    for other in [
        &[8., 0.][..],
        &[0., 10.],
        &[10_f64.next_down(), 0.],
        &[10., f64::from_bits(1)],
        &[f64::NAN, 0.],
        &[10., f64::INFINITY],
        &[],
        &[10.],
        &[10., 0., 10., 0.],
    ] {
        assert_eq!(kept(other), Err(20), "{other:?}");
    }
    // a rebuild and a renewal ask for their count alone
    for (other, number) in [(&[f64::NAN; 2][..], 0), (&[10., 0., 0.], 20), (&[], 20)] {
        let call = Call::Renew {
            spec: BAR,
            cells: CELL.to_vec(),
            blocks: other.to_vec(),
        };
        let wanted = if number > 0 {
            Err(number)
        } else {
            Ok(Answer::Blocks(KEPT.to_vec()))
        };
        assert_eq!(here(call), wanted);
        let call = Call::FromParts {
            spec: BAR,
            stamp,
            cells: CELL.to_vec(),
            blocks: other.to_vec(),
            given: vec![],
            rings_len: 0,
        };
        assert_eq!(here(call).err().unwrap_or(0), number);
    }
}

/// camlib takes stocks with other cells, up to the shorter.
#[test]
fn a_difference_of_other_lengths() {
    let longer = Spec { z_max: 2., ..BAR };
    assert_eq!(camlib(BAR).changes_to(&camlib(longer)), []);
    let call = Call::ChangesTo {
        spec: BAR,
        stamp: Stamp::default(),
        cells: CELL.to_vec(),
        after: [CELL, CELL].as_flattened().to_vec(),
        room: ROOM,
    };
    assert_eq!(here(call), Err(3));
}

#[test]
fn minus_zero_in_a_spec() {
    let spec = Spec { bore: -0., ..BAR };
    assert_eq!(camlib(spec).cells()[0].inner.lower_mm.to_bits(), MINUS);
    let call = Call::New {
        spec,
        stamp: Stamp::default(),
        cells_len: 4,
        blocks_len: 2,
    };
    let Ok(Answer::Stock(cells, blocks, _, 0, _)) = here(call) else {
        panic!()
    };
    assert_eq!([cells[0][2], blocks[1]].map(f64::to_bits), [0; 2]);
}

#[test]
fn minus_zero_in_cells() {
    let cell = [10., 10., -0., 0.];
    let theirs = TurnStock::from_parts(camlib_spec(&BAR), vec![to_camlib(&cell)], vec![]);
    assert!(theirs.is_ok());
    let call = Call::EnvelopeAt {
        spec: BAR,
        cells: cell.to_vec(),
        z: 0.,
    };
    assert_eq!(here(call), Err(3));
}

#[test]
fn minus_zero_in_a_stored_ring() {
    let ring = [-0., 1., 1., 2.];
    let mut stock = camlib(BAR);
    stock.remove_ring([-1., 1.], [1., 2.]);
    assert_eq!(stock.rings(), [ring]);
    assert_eq!(remove_ring(&[ring], 8, [0., 1., 3., 4.]), Err(4));
}

#[test]
fn minus_zero_in_a_change() {
    let after = [10., 10., -0., 0.];
    let mut stock = camlib(BAR);
    let change = TurnChange {
        index: 0,
        before: to_camlib(&CELL),
        after: to_camlib(&after),
    };
    assert_eq!(stock.apply(&[change]), Ok(()));
    assert_eq!(stock.cells()[0].inner.lower_mm.to_bits(), MINUS);
    assert_eq!(apply(0, list(CELL, after)), Err(8));
}

#[test]
fn a_number_over_a_million() {
    assert_eq!(camlib(BAR).thread_cut(0., 1., 1_000_001.), []);
    assert_eq!(thread(0., 1., 1_000_000.), no_change());
    assert_eq!(thread(0., 1., 1_000_001.), Err(5));
}

#[test]
fn no_number_and_infinity() {
    assert_eq!(camlib(BAR).thread_cut(f64::NAN, 1., 10.), []);
    assert_eq!(thread(f64::NAN, 1., 10.), Err(5));
    assert_eq!(camlib(BAR).thread_cut(f64::INFINITY, 1., 10.), []);
    assert_eq!(thread(f64::INFINITY, 1., 10.), Err(5));
}

#[test]
fn a_thread_of_negative_radius() {
    assert_eq!(camlib(BAR).thread_cut(0., 1., -1.).len(), 1);
    assert_eq!(thread(0., 1., -1.), Err(5));
}

#[test]
fn a_drill_of_radius_0() {
    assert_eq!(camlib(BAR).drill(0., 0., 0.), []);
    let (tip_z, radius, cone) = (0., 0., 0.);
    let drill = Simple::Drill {
        tip_z,
        radius,
        cone,
    };
    assert_eq!(cut(drill), Err(5));
}

#[test]
fn a_drill_of_negative_radius_with_a_point() {
    assert!(panics(|| drop(camlib(BAR).drill(0., -1., 1.))));
    let (tip_z, radius, cone) = (0., -1., 1.);
    let drill = Simple::Drill {
        tip_z,
        radius,
        cone,
    };
    assert_eq!(cut(drill), Err(5));
}

fn polygon(points: &[[f64; 2]], excess: f64) -> Outcome {
    here(Call::PreviewPolygon {
        spec: BAR,
        stamp: Stamp::default(),
        cells: CELL.to_vec(),
        side: 0,
        excess,
        points: points.as_flattened().to_vec(),
        room: ROOM,
    })
}

#[test]
fn a_negative_excess() {
    let points = [[0., 4.], [1., 4.]];
    let theirs = camlib(BAR).preview_polygon(&points, TurnSide::Outer, -1.);
    assert_eq!(theirs[0].after.outer.upper_mm, 3.);
    assert_eq!(polygon(&points, -1.), Err(5));
}

#[test]
fn more_than_64_points() {
    let points = [[0., 20.]; 65];
    let theirs = camlib(BAR).preview_polygon(&points, TurnSide::Outer, 0.);
    assert_eq!(theirs, []);
    assert_eq!(polygon(&points[1..], 0.), no_change());
    assert_eq!(polygon(&points, 0.), Err(5));
}

/// camlib's own arcs have up to 4,096 segments too; it takes more where they are handed in.
#[test]
fn more_than_4096_segments() {
    let with = |count: usize| {
        here(Call::Preview {
            spec: BAR,
            stamp: Stamp::default(),
            cells: CELL.to_vec(),
            side: 0,
            rn: 0.,
            segments: [20., 0., 20., 1., 0.].repeat(count),
            room: ROOM,
        })
    };
    assert_eq!(with(4096), no_change());
    assert_eq!(with(4097), Err(5));
}

fn profile(points: &[[f64; 3]], tolerance: f64) -> Outcome {
    here(Call::Segments {
        points: points.as_flattened().to_vec(),
        tolerance,
        segments_len: 5 * 1024,
    })
}

/// camlib keeps an arc as its circle, and cuts it in equal parts; here it is halved, and a chord's ends lie on that circle.
#[test]
fn arcs_by_halving() {
    let points = [[9., 0., 0.3], [1., 7., 0.]];
    let theirs = TurnProfile {
        points: points.to_vec(),
    }
    .segments();
    let Seg::Arc { a, c, .. } = theirs.unwrap()[0] else {
        panic!()
    };
    let radius = (a[0] - c[0]).hypot(a[1] - c[1]);
    let Ok(Answer::Chords(chords)) = profile(&points, f64::from_bits(0x3FDA0FD9955EBE9A)) else {
        panic!()
    };
    assert_eq!(chords.len(), 3);
    for chord in chords {
        let end = (chord[3] - c[0]).hypot(chord[2] - c[1]);
        assert!((end - radius).abs() < 1e-9);
    }
}

/// An arc of more than half a circle; and camlib does not look at the last point's bulge.
#[test]
fn bulge_over_one() {
    for points in [[[1., 0., 2.], [1., 2., 0.]], [[1., 0., 0.], [1., 2., 2.]]] {
        let theirs = TurnProfile {
            points: points.to_vec(),
        }
        .segments();
        assert_eq!(theirs.unwrap().len(), 1);
        assert_eq!(profile(&points, 9.), Err(17));
    }
}

/// The length is one step over 1e-9; `hypot` is 1e-9, as the distance is nearer to.
#[test]
fn neighbours_at_1e_9() {
    let points = [
        [0., 0., 0.],
        [2.9318362339102347e-10, 9.560561505347428e-10, 0.],
    ];
    let theirs = TurnProfile {
        points: points.to_vec(),
    };
    assert!(theirs.segments().is_err());
    let call = Call::Segments {
        points: points.as_flattened().to_vec(),
        tolerance: 0.1,
        segments_len: 100,
    };
    assert!(here(call).is_ok());
}

#[test]
fn more_than_256_points() {
    let points: Vec<[f64; 3]> = (0..257).map(|k| [1., k as f64, 0.]).collect();
    let theirs = TurnProfile {
        points: points.clone(),
    }
    .segments();
    assert_eq!(theirs.unwrap().len(), 256);
    assert_eq!(profile(&points, 0.), Err(17));
    assert!(profile(&points[1..], 0.).is_ok());
}

/// No C call takes an arc; the job program refuses its line.
#[test]
fn an_arc() {
    let arc = Curve::Arc {
        start: [5., 0., 0.],
        end: [5., 0., 1.],
        center: [5., 0., 0.5],
        plane: Plane::Xz,
        sweep_rad: 3.,
    };
    let theirs = camlib(BAR).preview(&arc, 1., TurnSide::Outer, 0.1);
    assert_eq!(theirs.unwrap().len(), 1);
    let job = b"bar\t0\t1000\t10000\t0\t1000\narc\n";
    assert_eq!(jobs::run(job), b"refused\t2\t13\n");
}

/// camlib makes a list as long as it needs.
#[test]
fn more_changes_than_room() {
    assert_eq!(camlib(BAR).thread_cut(0., 1., 5.).len(), 1);
    let none = Room {
        indices: 1,
        records: 7,
    };
    let call = Call::Cut {
        spec: BAR,
        stamp: Stamp::default(),
        cells: CELL.to_vec(),
        cut: Simple::ThreadCut {
            z0: 0.,
            z1: 1.,
            radius: 5.,
        },
        room: none,
    };
    assert_eq!(here(call), Err(6));
}

/// More changes than are lent; camlib's list has its length.
#[test]
fn a_count_beyond_the_list() {
    let mut list = list(CELL, CELL);
    list.changes = 2;
    assert_eq!(apply(0, list), Err(6));
}

/// A list kept over a commit, or for another edition, whose bin still holds what it did: camlib has no stamp and commits it. After
/// a rebuild the stamp is the same again, and so is the answer.
#[test]
fn a_list_for_another_stamp() {
    let mut stock = camlib(BAR);
    let theirs = stock.thread_cut(0., 1., 5.);
    assert_eq!(stock.apply(&[]), Ok(()));
    assert_eq!(stock.generation(), 1);
    assert_eq!(stock.apply(&theirs), Ok(()));
    let (first, second) = (Stamp::default(), |edition, generation| Stamp {
        edition,
        generation,
    });
    let Ok(Answer::Changes(ours, stamp)) = thread(0., 1., 5.) else {
        panic!()
    };
    assert_eq!((ours.len(), stamp), (1, first));
    let kept = || list_of(&ours, stamp);
    let none = list_of(&[], first);
    assert!(matches!(commit(first, none), Ok(Answer::Stock(_, _, _, 1, _))));
    assert_eq!(commit(second(0, 1), kept()), Err(19));
    assert_eq!(commit(second(1, 0), kept()), Err(19));
    // no change at all is a list too
    assert_eq!(commit(second(0, 1), list_of(&[], first)), Err(19));
    let rebuilt = here(Call::FromParts {
        spec: BAR,
        stamp: second(0, 1),
        cells: CELL.to_vec(),
        blocks: vec![0.; 2],
        given: vec![],
        rings_len: 0,
    });
    let new = Answer::Stock(vec![CELL], KEPT.to_vec(), vec![], 0, vec![]);
    assert_eq!(rebuilt, Ok(new));
    assert!(commit(first, kept()).is_ok());
}

/// A move asks the same, after the stored rings and before those of the move.
#[test]
fn a_move_for_another_stamp() {
    let mut stock = camlib(BAR);
    let theirs = stock.thread_cut(0., 1., 5.);
    assert_eq!(stock.apply(&[]), Ok(()));
    assert_eq!(stock.apply_move(&theirs, &[]), Ok(()));
    let moved = |generation, removed: Vec<f64>| {
        here(Call::ApplyMove {
            spec: BAR,
            stamp: Stamp {
                edition: 0,
                generation,
            },
            cells: CELL.to_vec(),
            blocks: KEPT.to_vec(),
            store: Store::default(),
            list: list(CELL, [5., 10., 0., 0.]),
            removed,
        })
    };
    assert_eq!(moved(1, vec![]), Err(19));
    assert_eq!(moved(1, vec![f64::NAN]), Err(19));
    assert_eq!(moved(0, vec![f64::NAN]), Err(10));
    assert!(moved(0, vec![]).is_ok());
}

/// camlib's generation is its own, and nobody counts to its end.
#[test]
fn the_last_generation() {
    let unchanged = |g| Ok(Answer::Stock(vec![CELL], KEPT.to_vec(), vec![], g, vec![]));
    assert_eq!(apply(u64::MAX - 1, List::default()), unchanged(u64::MAX));
    assert_eq!(apply(u64::MAX, List::default()), Err(12));
}

/// For camlib an edge that is no number is no edge.
#[test]
fn a_ring_that_is_not_finite() {
    let mut stock = camlib(BAR);
    stock.remove_ring([f64::NAN, 1.], [1., 2.]);
    assert_eq!(stock.rings(), [[0., 1., 1., 2.]]);
    assert_eq!(remove_ring(&[], 4, [f64::NAN, 1., 1., 2.]), Err(10));
    let mut stock = camlib(BAR);
    stock.remove_ring([f64::NEG_INFINITY, 1.], [1., 2.]);
    assert_eq!(stock.rings(), [[0., 1., 1., 2.]]);
    assert_eq!(
        remove_ring(&[], 4, [f64::NEG_INFINITY, 1., 1., 2.]),
        Err(10)
    );
}

/// camlib's rings are its own and lie apart; here the stored ones are lent and checked.
#[test]
fn stored_rings_that_overlap() {
    let ring = [0., 1., 1., 2.];
    assert_eq!(remove_ring(&[ring, ring], 12, ring), Err(4));
}

/// Rings side by side: the store is full at 256.
#[test]
fn the_257th_ring() {
    let ring = |k: usize| [k as f64 / 512., (k + 1) as f64 / 512., 1., 2.];
    let rings: Vec<[f64; 4]> = (0..256).map(ring).collect();
    let next = ring(256);
    let cells = vec![to_camlib(&CELL)];
    let stock = TurnStock::from_parts(camlib_spec(&BAR), cells, rings.clone());
    let mut stock = stock.unwrap();
    stock.remove_ring([next[0], next[1]], [1., 2.]);
    assert_eq!(stock.rings().len(), 257);
    assert_eq!(remove_ring(&rings, 2000, next), Err(11));
    let stored = remove_ring(&rings[1..], 2000, next);
    assert!(matches!(stored, Ok(Answer::Stock(_, _, rings, 1, _)) if rings.len() == 256));
}

/// 85 squares in a row and a slat cut a ring over all into 257 pieces in hand, though the bands that
/// follow leave 87 of them.
#[test]
fn the_257th_piece() {
    let store = |squares: usize, slats: usize| {
        let at = |k: usize| k as f64 / 256.;
        let column = |k: usize, r0: f64, r1: f64| [at(2 * k + 1), at(2 * k + 2), r0, r1];
        let mut rings: Vec<[f64; 4]> = (0..squares).map(|k| column(k, 4., 5.)).collect();
        rings.extend((squares..squares + slats).map(|k| column(k, 0., 10.)));
        let end = at(2 * squares + 1);
        rings.extend([[0., end, 0., 4.], [0., end, 5., 10.]]);
        rings
    };
    let whole = [0., 1., 0., 10.];
    assert!(remove_ring(&store(85, 0), 2000, whole).is_ok());
    let rings = store(85, 1);
    let cells = vec![to_camlib(&CELL)];
    let stock = TurnStock::from_parts(camlib_spec(&BAR), cells, rings.clone());
    let mut stock = stock.unwrap();
    stock.remove_ring([0., 1.], [0., 10.]);
    assert_eq!(stock.rings().len(), rings.len() + 87);
    assert_eq!(remove_ring(&rings, 2000, whole), Err(11));
}

/// A move whose third ring is refused writes nothing; camlib refuses no ring after its changes.
#[test]
fn a_move_is_refused_whole() {
    let call = Call::ApplyMove {
        spec: BAR,
        stamp: Stamp::default(),
        cells: CELL.to_vec(),
        blocks: KEPT.to_vec(),
        store: Store {
            rings: vec![0.; 8],
            count: 0,
        },
        list: list(CELL, [5., 10., 0., 0.]),
        removed: vec![0., 1., 1., 2., 0., 1., 3., 4., 0., 1., 5., 6.],
    };
    assert_eq!(here(call), Err(11));
}

#[test]
fn envelope_points_outside_the_domain() {
    let order = |numbers: Vec<f64>| here(Call::EnvelopeOrder { points: numbers });
    drop(Envelope::new(vec![[f64::NAN, 1.]]));
    assert_eq!(order(vec![f64::NAN, 1.]), Err(14));
    drop(Envelope::new(vec![[1_000_001., 1.]]));
    assert_eq!(order(vec![1_000_001., 1.]), Err(14));
    let points = vec![[0., 1.]; 1025];
    assert_eq!(Envelope::new(points.clone()).radius_at(0.), Some(1.));
    assert_eq!(order(points.as_flattened().to_vec()), Err(14));
    assert_eq!(
        order(points[1..].as_flattened().to_vec()),
        Ok(Answer::Order(1))
    );
}

/// camlib takes any query.
#[test]
fn envelope_queries_outside_the_domain() {
    let points = vec![[0., 1.], [1., 1.]];
    let envelope = Envelope::new(points.clone());
    let (lo, hi) = (f64::NEG_INFINITY, f64::INFINITY);
    assert_eq!(envelope.radius_range(lo, hi), Some([1., 1.]));
    let u = f64::NAN;
    assert_eq!(envelope.radius_at(u), None);
    let points = points.as_flattened().to_vec();
    let range = Call::RadiusRange {
        points: points.clone(),
        lo,
        hi,
    };
    assert_eq!(here(range), Err(14));
    assert_eq!(here(Call::RadiusAt { points, u }), Err(14));
}

/// lo > hi: camlib panics on three points or more that rise.
#[test]
fn a_range_turned_about() {
    let points = vec![[0., 1.], [1., 1.], [2., 1.]];
    let envelope = Envelope::new(points.clone());
    assert!(panics(|| _ = envelope.radius_range(3., -1.)));
    let points = points.as_flattened().to_vec();
    let (lo, hi) = (3., -1.);
    let range = Call::RadiusRange {
        points: points.clone(),
        lo,
        hi,
    };
    assert_eq!(here(range), Ok(Answer::Found(None)));
    let within = Call::Within { points, lo, hi };
    assert_eq!(here(within), Ok(Answer::Part(0, 0)));
}

/// The wheel of docs/INSERT.md.
const WHEEL: [[f64; 2]; 6] = [
    [0., 10.],
    [2., 10.],
    [2., 6.],
    [5., 6.],
    [5., 10.],
    [8., 10.],
];

fn excess(points: &[[f64; 2]], polygon: &[[f64; 2]], tolerance: f64) -> Outcome {
    here(Call::Excess {
        points: points.as_flattened().to_vec(),
        polygon: polygon.as_flattened().to_vec(),
        tolerance,
    })
}

fn penetration(points: &[[f64; 2]], polygon: &[[f64; 2]], tolerance: f64) -> Outcome {
    here(Call::Penetration {
        points: points.as_flattened().to_vec(),
        polygon: polygon.as_flattened().to_vec(),
        tolerance,
    })
}

/// Minus infinity in camlib: every candidate in front of the bore, or no material under the insert.
#[test]
fn nothing_touches() {
    let nothing = Ok(Answer::Found(None));
    let envelope = Envelope::new(WHEEL.to_vec());
    let front = [[9., 5.], [10., 6.]];
    assert_eq!(envelope.excess(&front, 0.1), f64::NEG_INFINITY);
    assert_eq!(excess(&WHEEL, &front, 0.1), nothing);
    let behind = [[-2., 5.], [-1., 6.]];
    assert_eq!(envelope.penetration(&behind, 0.1), f64::NEG_INFINITY);
    assert_eq!(penetration(&WHEEL, &behind, 0.1), nothing);
    assert_eq!(Envelope::new(vec![]).excess(&front, 0.1), f64::NEG_INFINITY);
    assert_eq!(excess(&[], &front, 0.1), nothing);
    // the numbers of docs/INSERT.md
    let found = |x: f64| Ok(Answer::Found(Some(vec![x])));
    let insert = [[3., 5.5], [4., 5.5], [4., 9.], [3., 9.]];
    assert_eq!(excess(&WHEEL, &insert, 0.1), found(2.9000000000000004));
    assert_eq!(
        penetration(&WHEEL, &insert, 0.1),
        found(0.40000000000000036)
    );
    assert_eq!(penetration(&WHEEL, &[[3., 5.]], 0.), found(1.));
    assert_eq!(excess(&WHEEL, &[[3., 5.]], 0.), found(-1.));
    assert_eq!(excess(&WHEEL, &behind, 0.1), found(5.9));
    let tube = [[0., 0.1], [8., 0.1]];
    let low = [[3., -5.], [4., -5.]];
    assert_eq!(penetration(&tube, &low, 0.1), nothing);
    assert_eq!(penetration(&tube, &low, 0.05), found(5.05));
    let eroded = |u: f64, tolerance: f64| {
        here(Call::Eroded {
            points: WHEEL.as_flattened().to_vec(),
            u,
            tolerance,
        })
    };
    assert_eq!(eroded(3.5, 0.1), found(5.9));
    assert_eq!(eroded(0.05, 0.1), nothing);
    assert_eq!(eroded(0.1, 0.1), found(9.9));
    // from the other end on, and as far as points may be
    let mut turned = WHEEL;
    turned.reverse();
    assert_eq!(excess(&turned, &insert, 0.1), found(2.9000000000000004));
    assert_eq!(
        penetration(&turned, &insert, 0.1),
        found(0.40000000000000036)
    );
    let far = |u: f64, tolerance: f64| {
        here(Call::Eroded {
            points: vec![-1e6, 5., 1e6, 5.],
            u,
            tolerance,
        })
    };
    assert_eq!(far(0., 1e6), found(-999995.));
    assert_eq!(far(1e6, 0.5), nothing);
}

/// The same in both, and wrong: between two candidates what is eroded may be higher than at both, so that a gouge is missed.
#[test]
fn between_two_candidates() {
    let peak = [[0., 10.], [4., 14.], [6., 10.]];
    let flat = [[1., 12.6], [5., 12.6], [5., 15.], [1., 15.]];
    let theirs = Envelope::new(peak.to_vec()).penetration(&flat, 0.5);
    assert!((theirs + 0.1).abs() < 1e-9, "{theirs}");
    assert_eq!(
        penetration(&peak, &flat, 0.5),
        Ok(Answer::Found(Some(vec![theirs])))
    );
    let eroded = here(Call::Eroded {
        points: peak.as_flattened().to_vec(),
        u: 23. / 6.,
        tolerance: 0.5,
    });
    let Ok(Answer::Found(Some(eroded))) = eroded else {
        panic!("{eroded:?}")
    };
    assert!((eroded[0] - 77. / 6.).abs() < 1e-9 && eroded[0] > 12.6);
    // and a bore in a valley, for which excess is too small
    let valley = [[0., 14.], [4., 10.], [6., 14.]];
    let high = [[1., 9.], [5., 9.], [5., 11.6], [1., 11.6]];
    let theirs = Envelope::new(valley.to_vec()).excess(&high, 0.5);
    assert!((theirs - 0.1).abs() < 1e-9, "{theirs}");
    assert_eq!(
        excess(&valley, &high, 0.5),
        Ok(Answer::Found(Some(vec![theirs])))
    );
}

/// camlib panics on points that have an order.
#[test]
fn a_polygon_with_no_points() {
    let envelope = Envelope::new(vec![[0., 1.], [1., 1.]]);
    assert!(panics(|| _ = envelope.excess(&[], 0.1)));
    assert!(panics(|| _ = envelope.penetration(&[], 0.1)));
    let points = [[0., 1.], [1., 1.]];
    assert_eq!(excess(&points, &[], 0.1), Ok(Answer::Found(None)));
    assert_eq!(penetration(&points, &[], 0.1), Ok(Answer::Found(None)));
}

#[test]
fn polygon_or_tolerance_outside_the_domain() {
    let envelope = Envelope::new(WHEEL.to_vec());
    let insert = [[3., 5.5], [4., 5.5]];
    assert!(envelope.penetration(&insert, -1.) > 0.);
    assert_eq!(penetration(&WHEEL, &insert, -1.), Err(14));
    assert_eq!(penetration(&WHEEL, &insert, f64::NAN), Err(14));
    let far = [[3., 5.5], [4., 1_000_001.]];
    assert!(envelope.penetration(&far, 0.1) > 0.);
    assert_eq!(penetration(&WHEEL, &far, 0.1), Err(14));
    assert_eq!(excess(&WHEEL, &[[3., f64::INFINITY]], 0.1), Err(14));
}

#[test]
fn more_than_64_polygon_points() {
    let insert = [[3., 5.]; 65];
    assert_eq!(Envelope::new(WHEEL.to_vec()).penetration(&insert, 0.), 1.);
    assert_eq!(penetration(&WHEEL, &insert, 0.), Err(14));
    assert_eq!(
        penetration(&WHEEL, &insert[1..], 0.),
        Ok(Answer::Found(Some(vec![1.])))
    );
}

/// A refusal is a number here, and a text in camlib.
#[test]
fn a_refusal() {
    let spec = Spec { cell: 0., ..BAR };
    assert!(
        camlib_spec(&spec)
            .validate()
            .is_err_and(|text| text.contains("positive cell"))
    );
    assert_eq!(here(Call::Validate { spec }), Err(1));
}

/// A chord with its sag is handed in here; camlib makes chords of its own from an arc.
#[test]
fn a_chord_with_sag() {
    let call = Call::Preview {
        spec: BAR,
        stamp: Stamp::default(),
        cells: CELL.to_vec(),
        side: 0,
        rn: 1.,
        segments: vec![5., 0., 5., 1., 0.5],
        room: ROOM,
    };
    let change = Change {
        index: 0,
        before: CELL,
        after: [3.5, 4.5, 0., 0.],
    };
    assert_eq!(
        here(call),
        Ok(Answer::Changes(vec![change], Stamp::default()))
    );
}
