//! Document 01's examples, by the oracle.
use compare::call::{Answer, Call, Change, List, Room, Simple, Spec, Stamp, Store};
use compare::oracle;

/// An answer, or the number of a refusal.
type Outcome = Result<Answer, u32>;

fn answer(call: &Call) -> Outcome {
    oracle::answer(call).map_err(|reason| reason.number)
}

const Q: Spec = Spec {
    z_min: 0.,
    z_max: 9.,
    outer: 10.,
    bore: 0.,
    cell: 3.,
    max_cells: 4096,
};
const S: Spec = Spec {
    z_max: 4.,
    cell: 1.,
    ..Q
};
const ROOM: Room = Room {
    indices: 4096,
    records: 8 * 4096,
};

/// What the stocks carry before a cut.
const STAMP: Stamp = Stamp {
    edition: 2,
    generation: 7,
};

fn new(spec: Spec) -> Vec<f64> {
    let Ok(Answer::Bins(n)) = answer(&Call::Validate { spec }) else {
        panic!()
    };
    let call = Call::New {
        spec,
        stamp: STAMP,
        cells_len: 4 * n,
        blocks_len: 2 * n.div_ceil(64),
    };
    match answer(&call) {
        Ok(Answer::Stock(cells, _, _, 0, _)) => cells.as_flattened().to_vec(),
        other => panic!("{other:?}"),
    }
}

/// The kept numbers of the cells.
fn kept(spec: Spec, cells: &[f64]) -> Vec<f64> {
    let call = Call::Renew {
        spec,
        cells: cells.to_vec(),
        blocks: vec![0.; 2 * cells.len().div_ceil(4 * 64)],
    };
    match answer(&call) {
        Ok(Answer::Blocks(blocks)) => blocks,
        other => panic!("{other:?}"),
    }
}

fn changes(call: &Call) -> Vec<Change> {
    match answer(call) {
        Ok(Answer::Changes(changes, STAMP)) => changes,
        other => panic!("{other:?}"),
    }
}

/// The cells after the cut is previewed and committed.
fn cut(call: Call) -> Vec<f64> {
    let changes = changes(&call);
    let (Call::Preview { spec, cells, .. }
    | Call::PreviewPolygon { spec, cells, .. }
    | Call::Cut { spec, cells, .. }) = call
    else {
        panic!()
    };
    let list = List {
        indices: changes.iter().map(|c| c.index).collect(),
        records: (changes.iter().flat_map(|c| [c.before, c.after]))
            .flatten()
            .collect(),
        changes: changes.len(),
        stamp: STAMP,
    };
    let commit = Call::Apply {
        spec,
        stamp: STAMP,
        blocks: kept(spec, &cells),
        cells,
        list,
    };
    match answer(&commit) {
        Ok(Answer::Stock(cells, _, _, 8, _)) => cells.as_flattened().to_vec(),
        other => panic!("{other:?}"),
    }
}

fn nose(cells: Vec<f64>, sag: f64) -> Call {
    Call::Preview {
        spec: Q,
        stamp: STAMP,
        cells,
        side: 0,
        rn: 5.,
        segments: vec![9., 3., 9., 6., sag],
        room: ROOM,
    }
}

fn simple(spec: Spec, cells: Vec<f64>, cut: Simple) -> Call {
    Call::Cut {
        spec,
        stamp: STAMP,
        cells,
        cut,
        room: ROOM,
    }
}

fn outer(cells: &[f64]) -> Vec<[f64; 2]> {
    cells
        .as_chunks::<4>()
        .0
        .iter()
        .map(|c| [c[0], c[1]])
        .collect()
}

fn inner(cells: &[f64]) -> Vec<[f64; 2]> {
    cells
        .as_chunks::<4>()
        .0
        .iter()
        .map(|c| [c[2], c[3]])
        .collect()
}

#[test]
fn p1_p2_roots() {
    let root = |bits: u64| match answer(&Call::Root {
        x: f64::from_bits(bits),
    }) {
        Ok(Answer::Number(x)) => x.to_bits(),
        other => panic!("{other:?}"),
    };
    assert_eq!(root(4_f64.to_bits()), 2_f64.to_bits());
    assert_eq!(root(1), 0x1E60_0000_0000_0000);
    assert_eq!(root(2_f64.to_bits()), 0x3FF6_A09E_667F_3BCD);
    assert_eq!(root((-0_f64).to_bits()), 0);
    for x in [-1., f64::INFINITY, f64::NAN] {
        assert_eq!(answer(&Call::Root { x }), Err(5));
    }
}

#[test]
fn p3_p4_p5_nose() {
    let after = |sag| outer(&cut(nose(new(Q), sag)));
    assert_eq!(after(0.), [[4., 5.], [4., 4.], [4., 5.]]);
    assert_eq!(after(6.), [[0., 10.], [0., 10.], [0., 10.]]);
    assert_eq!(after(5.), [[0., 10.], [0., 9.], [0., 10.]]);
}

#[test]
fn p6_thread() {
    let thread = Simple::ThreadCut {
        z0: 3.,
        z1: 1.,
        radius: 8.,
    };
    let after = cut(simple(S, new(S), thread));
    assert_eq!(
        outer(&after),
        [[10., 10.], [8., 10.], [8., 10.], [10., 10.]]
    );
    assert_eq!(inner(&after), [[0., 0.]; 4]);
}

#[test]
fn p7_drill() {
    let drill = Simple::Drill {
        tip_z: 1.,
        radius: 4.,
        cone: 2.,
    };
    let after = cut(simple(S, new(S), drill));
    assert_eq!(inner(&after), [[0., 0.], [0., 2.], [2., 4.], [4., 4.]]);
}

#[test]
fn p8_polygon() {
    let after = cut(Call::PreviewPolygon {
        spec: Q,
        stamp: STAMP,
        cells: new(Q),
        side: 0,
        excess: 0.5,
        points: vec![0., 4., 3., 4., 3., 12., 0., 12.],
        room: ROOM,
    });
    assert_eq!(outer(&after), [[4., 4.5], [10., 10.], [10., 10.]]);
}

#[test]
fn p9_either_order() {
    let thread = Simple::ThreadCut {
        z0: 0.,
        z1: 9.,
        radius: 3.,
    };
    let turned_first = cut(simple(Q, cut(nose(new(Q), 0.)), thread));
    let thread_first = cut(nose(cut(simple(Q, new(Q), thread)), 0.));
    assert_eq!(turned_first, thread_first);
    assert_eq!(outer(&turned_first), [[3., 5.], [3., 4.], [3., 5.]]);
}

#[test]
fn p10_opposite_sides() {
    let drill = Simple::Drill {
        tip_z: -1.,
        radius: 7.,
        cone: 0.,
    };
    let turned_first = cut(simple(Q, cut(nose(new(Q), 0.)), drill));
    let drilled_first = cut(nose(cut(simple(Q, new(Q), drill)), 0.));
    assert_eq!(turned_first[4..8], [4.; 4]);
    assert_eq!(drilled_first[4..8], [7.; 4]);
}

fn ring(rings: &[[f64; 4]], generation: u64, ring: [f64; 4]) -> Outcome {
    let mut store = Store {
        rings: vec![0.; 1024],
        count: rings.len(),
    };
    store.rings[..4 * rings.len()].copy_from_slice(rings.as_flattened());
    answer(&Call::RemoveRing {
        spec: Q,
        store,
        generation,
        ring,
    })
}

#[test]
fn p11_p12_rings() {
    let first = ring(&[], 0, [0., 6., 2., 6.]);
    let Ok(Answer::Stock(_, _, rings, 1, tests)) = first else {
        panic!("{first:?}")
    };
    assert_eq!(tests, [0]);
    let second = ring(&rings, 1, [3., 9., 4., 8.]);
    let three = vec![[0., 6., 2., 6.], [6., 9., 4., 8.], [3., 6., 6., 8.]];
    let after = |generation, tests| {
        let (three, tests) = (three.clone(), vec![tests]);
        Ok(Answer::Stock(vec![], vec![], three, generation, tests))
    };
    assert_eq!(second, after(2, 1));
    assert_eq!(ring(&three, 2, [1., 2., 3., 4.]), after(3, 1));
    assert_eq!(ring(&three, 3, [1., 2., 10., 12.]), after(3, 0));
}

#[test]
fn p13_envelope_at() {
    let cells = cut(nose(new(Q), 0.));
    let at = |z: f64| {
        answer(&Call::EnvelopeAt {
            spec: Q,
            cells: cells.clone(),
            z,
        })
    };
    assert_eq!(at(3.), Ok(Answer::Found(Some(vec![0., 5.]))));
    assert_eq!(at(9.), Ok(Answer::Found(Some(vec![0., 5.]))));
    assert_eq!(at(9.5), Ok(Answer::Found(None)));
    assert_eq!(at(f64::NAN), Ok(Answer::Found(None)));
}

/// The most over a range of P13's stock: its ends' bins and those between.
#[test]
fn ranges_of_heights() {
    let cells = cut(nose(new(Q), 0.));
    let over = |lo: f64, hi: f64| {
        answer(&Call::Range {
            spec: Q,
            cells: cells.clone(),
            blocks: kept(Q, &cells),
            lo,
            hi,
        })
    };
    let five = Ok(Answer::Found(Some(vec![0., 5.])));
    let four = Ok(Answer::Found(Some(vec![0., 4.])));
    assert_eq!(kept(Q, &cells), [5., 0.]);
    assert_eq!(over(4., 5.), four);
    assert_eq!(over(3_f64.next_up(), 6_f64.next_down()), four);
    assert_eq!(over(3., 5.), five);
    assert_eq!(over(4., 6.), five);
    assert_eq!(over(-1., 1.), five);
    for (lo, hi) in [(5., 4.), (9.5, 12.), (f64::NAN, 4.), (4., f64::NAN)] {
        assert_eq!(over(lo, hi), Ok(Answer::Found(None)));
    }
}

#[test]
fn limits() {
    let with = |count: usize| {
        let Call::Preview { segments, .. } = nose(vec![], 0.) else {
            panic!()
        };
        answer(&Call::Preview {
            spec: Q,
            stamp: STAMP,
            cells: new(Q),
            side: 0,
            rn: 5.,
            segments: segments.repeat(count),
            room: ROOM,
        })
    };
    assert_eq!(with(4096), with(1));
    assert_eq!(with(4097), Err(5));
    let bins = |z_max: f64, max_cells: usize| {
        let spec = Spec {
            z_max,
            cell: 1.,
            max_cells,
            ..Q
        };
        answer(&Call::Validate { spec })
    };
    assert_eq!(bins(16384., usize::MAX), Ok(Answer::Bins(16384)));
    assert_eq!(bins(16385., usize::MAX), Err(2));
    assert_eq!(bins(16384., 16384), Ok(Answer::Bins(16384)));
    assert_eq!(bins(16384., 16383), Err(2));
    assert_eq!(bins(512., 512), Ok(Answer::Bins(512)));
    assert_eq!(bins(513., 512), Err(2));
    let room_for = |indices: usize, records: usize| {
        answer(&Call::Preview {
            spec: Q,
            stamp: STAMP,
            cells: new(Q),
            side: 0,
            rn: 5.,
            segments: vec![9., 3., 9., 6., 0.],
            room: Room { indices, records },
        })
    };
    assert!(room_for(3, 24).is_ok());
    assert_eq!(room_for(2, 24), Err(6));
    assert_eq!(room_for(3, 23), Err(6));
}

#[test]
fn readings() {
    // The rounded quotient decides the count, and a bin may be turned about.
    let bins = |z_min: f64, z_max: f64, cell: f64| {
        let spec = Spec {
            z_min,
            z_max,
            cell,
            ..Q
        };
        (spec, answer(&Call::Validate { spec }))
    };
    assert_eq!(bins(0.1, 0.4, 0.1).1, Ok(Answer::Bins(4)));
    let (spec, n) = bins(-0.002, 0.007, 0.003);
    assert_eq!(n, Ok(Answer::Bins(4)));
    let Ok(Answer::Range(za, zb)) = answer(&Call::Bin { spec, i: 3 }) else {
        panic!()
    };
    assert!(zb < za);
    // A polygon over one bin cuts that bin alone.
    let (spec, n) = bins(-0.001, 0.019, 0.001);
    assert_eq!(n, Ok(Answer::Bins(20)));
    let cut = changes(&Call::PreviewPolygon {
        spec,
        stamp: STAMP,
        cells: new(spec),
        side: 0,
        excess: 0.,
        points: vec![0.014, 4., 0.015, 4., 0.015, 12., 0.014, 12.],
        room: ROOM,
    });
    assert_eq!(cut.iter().map(|c| c.index).collect::<Vec<_>>(), [15]);
    // A bin's end at -0.0 is +0.0.
    let (spec, _) = bins(-1., -0., 1.);
    let Ok(Answer::Range(_, zb)) = answer(&Call::Bin { spec, i: 0 }) else {
        panic!()
    };
    assert_eq!(zb.to_bits(), 0);
}

#[test]
fn pieces_in_hand() {
    // Squares in a row give three pieces more each, the bands take all but those of the row.
    let store = |squares: usize, slats: usize| {
        let width = 9. / (2 * (squares + slats) + 1) as f64;
        let mut rings: Vec<[f64; 4]> = vec![];
        for k in 0..squares + slats {
            let z = width * (2 * k + 1) as f64;
            let r = if k < squares { [4., 5.] } else { [0., 10.] };
            rings.push([z, z + width, r[0], r[1]]);
        }
        let end = width * (2 * squares + 1) as f64;
        rings.extend([[0., end, 0., 4.], [0., end, 5., 10.]]);
        rings
    };
    let whole = [0., 9., 0., 10.];
    let Ok(Answer::Stock(_, _, rings, 1, tests)) = ring(&store(85, 0), 0, whole) else {
        panic!()
    };
    assert_eq!(rings.len(), 87 + 86);
    // 1, 4, .., 253 before the squares, 10,795 in all, then 256 and 171 before the bands.
    assert_eq!(tests, [10795 + 256 + 171]);
    assert_eq!(ring(&store(85, 1), 0, whole), Err(11));
    assert_eq!(ring(&store(85, 1), u64::MAX, whole), Err(12));
}
