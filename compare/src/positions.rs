//! Commits, moves, rings and parts at the corners of Req 04, Req 08 and Req 09 of 02, by name: each with its number and its
//! position, or none where it is accepted.
use crate::call::{Call, Change, List, Reason, Spec, Stamp, Store};
use crate::oracle::ranges::BLOCK;
use crate::oracle::{
    ADDS, AFTER, BLOCKS, CELLS, COUNT, GENERATION, HOLDS_OTHER, MANY_CELLS, MOST_CELLS, NO_BIN,
    PIECES, RING, RISING, ROOM, SPEC, STALE, STORED,
};
use crate::sequence::list_of;

/// A call by its name, and why it is refused.
pub type Case = (&'static str, Call, Option<Reason>);

type Cell = [f64; 4];
type Ring = [f64; 4];

/// What the stocks here carry, and their lists where no other is named.
const STAMP: Stamp = stamp(0xC0DE_0002, 41);

const fn stamp(edition: u32, generation: u64) -> Stamp {
    Stamp {
        edition,
        generation,
    }
}

/// What every bin holds: each bound can move by one ulp, up or down, and the cell fits.
const HELD: Cell = [4., 8., 1., 2.];
/// What is left of it after a cut.
const LEFT: Cell = [3., 7., 1., 2.5];
/// It does not fit.
const WIDE: Cell = [4., 11., 1., 2.];
/// More than is held.
const MORE: Cell = [5., 9., 0.5, 2.];

fn bar(n: usize) -> Spec {
    Spec {
        z_min: 0.,
        z_max: n as f64,
        outer: 10.,
        bore: 0.,
        cell: 1.,
        max_cells: MOST_CELLS,
    }
}

/// A change that is accepted.
fn good(index: usize) -> Change {
    Change {
        index,
        before: HELD,
        after: LEFT,
    }
}

fn to(index: usize, after: Cell) -> Change {
    Change {
        after,
        ..good(index)
    }
}

fn from(index: usize, before: Cell) -> Change {
    Change {
        before,
        ..good(index)
    }
}

/// The cell with one bound moved.
fn with(cell: Cell, bound: usize, by: fn(f64) -> f64) -> Cell {
    let mut cell = cell;
    cell[bound] = by(cell[bound]);
    cell
}

fn commit(n: usize, list: List) -> Call {
    Call::Apply {
        spec: bar(n),
        stamp: STAMP,
        cells: HELD.repeat(n),
        blocks: kept(n),
        list,
    }
}

/// The kept numbers of so many bins that all hold the same.
fn kept(n: usize) -> Vec<f64> {
    [HELD[1], HELD[2]].repeat(n.div_ceil(BLOCK))
}

/// A list for the stocks here.
fn listed(changes: &[Change]) -> List {
    list_of(changes, STAMP)
}

/// Changes on a bar of eight bins, with why they are refused.
#[rustfmt::skip]
fn lists() -> Vec<(&'static str, Vec<Change>, Option<Reason>)> {
    let at = |number, place| Some(Reason::at(number, place));
    let far = usize::MAX;
    let mut all = vec![
        ("no change", vec![], None),
        ("one change", vec![good(0)], None),
        ("a change in each bin", (0..8).map(good).collect(), None),
        ("an index of n", vec![good(8)], at(NO_BIN, 0)),
        ("an index of n + 1", vec![good(3), good(9)], at(NO_BIN, 1)),
        ("the last index of all", vec![good(0), good(7), good(far)], at(NO_BIN, 2)),
        ("before is no number", vec![good(1), from(2, with(HELD, 1, |_| f64::NAN))], at(HOLDS_OTHER, 1)),
        ("before is infinite", vec![from(5, with(HELD, 2, |_| f64::INFINITY))], at(HOLDS_OTHER, 0)),
        ("after does not fit", vec![good(0), to(1, WIDE), good(2)], at(AFTER, 1)),
        ("after has -0.0", vec![to(0, with(LEFT, 2, |_| -0.))], at(AFTER, 0)),
        ("after as before", vec![to(4, HELD)], None),
        ("8 and 21 in one change", vec![good(0), to(8, WIDE)], at(AFTER, 1)),
        ("21 and 22 in one change", vec![good(0), from(8, MORE)], at(NO_BIN, 1)),
        ("21 and 23 in one change", vec![to(9, MORE)], at(NO_BIN, 0)),
        ("22 and 23 in one change", vec![good(6), Change { before: LEFT, after: HELD, index: 7 }], at(HOLDS_OTHER, 1)),
        ("8 and 22 in one change", vec![Change { before: LEFT, after: WIDE, index: 2 }], at(AFTER, 0)),
        ("8 and 23 in one change", vec![good(1), to(2, [10.5, 11., 0., 0.])], at(AFTER, 1)),
        ("22 before 8 by position", vec![from(2, LEFT), to(3, WIDE)], at(HOLDS_OTHER, 0)),
        ("23 before 22 by position", vec![good(0), to(2, MORE), from(3, LEFT)], at(ADDS, 1)),
        ("23 before 21 by position", vec![to(2, MORE), good(3), good(8)], at(ADDS, 0)),
        ("two of 22", vec![good(0), from(2, LEFT), from(3, LEFT)], at(HOLDS_OTHER, 1)),
        ("two of 21", vec![good(8), good(9)], at(NO_BIN, 0)),
        ("a fall after a faulty change", vec![to(1, WIDE), good(2), good(3), good(4), good(5), good(0)], at(RISING, 5)),
        ("a fall before a faulty change", vec![good(1), good(0), from(2, LEFT)], at(RISING, 1)),
        ("a fall beyond the last bin", vec![good(9), good(8)], at(RISING, 1)),
        ("equal indices", vec![good(3), good(3)], at(RISING, 1)),
        ("equal indices at the end", vec![good(0), good(2), good(7), good(7)], at(RISING, 3)),
        ("two falls", vec![good(0), good(2), good(1), good(0)], at(RISING, 2)),
        ("a fall that a rise follows", vec![good(5), good(0), good(6)], at(RISING, 1)),
    ];
    for bound in 0..4 {
        for by in [f64::next_up, f64::next_down] {
            let list = vec![good(0), from(1, with(HELD, bound, by)), good(2)];
            all.push(("before off by one ulp", list, at(HOLDS_OTHER, 1)));
        }
        // the outer bounds may only fall and the inner ones rise
        let (more, less): (fn(f64) -> f64, fn(f64) -> f64) =
            if bound < 2 { (f64::next_up, f64::next_down) } else { (f64::next_down, f64::next_up) };
        all.push(("more by one ulp", vec![good(0), good(1), to(2, with(HELD, bound, more))], at(ADDS, 2)));
        all.push(("less by one ulp", vec![to(2, with(HELD, bound, less))], None));
    }
    all
}

/// Cells with 0 in them, and a change whose before has -0.0 there.
fn minus_zero() -> Case {
    let cell = [4., 8., 0., 0.];
    let list = listed(&[Change {
        index: 1,
        before: [4., 8., -0., -0.],
        after: [4., 7., 0., 1.],
    }]);
    let call = Call::Apply {
        spec: bar(2),
        stamp: STAMP,
        cells: cell.repeat(2),
        blocks: vec![8., -0.],
        list,
    };
    ("before has -0.0", call, None)
}

/// So many changes, the last of them bad.
fn last_of_many(n: usize) -> Vec<Case> {
    let list = |last: Change| {
        let mut changes: Vec<Change> = (0..n - 1).map(good).collect();
        changes.push(last);
        commit(n, listed(&changes))
    };
    let at = |number| Some(Reason::at(number, n - 1));
    let last = n - 1;
    vec![
        ("the last of many: 7", list(good(last - 1)), at(RISING)),
        ("the last of many: 8", list(to(last, WIDE)), at(AFTER)),
        ("the last of many: 21", list(good(n)), at(NO_BIN)),
        (
            "the last of many: 22",
            list(from(last, LEFT)),
            at(HOLDS_OTHER),
        ),
        ("the last of many: 23", list(to(last, MORE)), at(ADDS)),
        ("the last of many is good", list(good(last)), None),
    ]
}

/// What comes before a position's number, and after it.
fn around() -> Vec<Case> {
    let faulty = listed(&[good(3), good(2)]);
    let late = listed(&[good(0), from(2, LEFT)]);
    let only = |number| Some(Reason::only(number));
    let call = |cells: Vec<f64>, generation: u64, list: &List, changes: usize| Call::Apply {
        spec: bar(8),
        stamp: stamp(2, generation),
        cells,
        blocks: kept(8),
        list: List {
            changes,
            stamp: stamp(2, generation),
            ..list.clone()
        },
    };
    let held = || HELD.repeat(8);
    let list = listed(&[good(1)]);
    vec![
        (
            "3 before 7",
            call(HELD.repeat(7), 0, &faulty, 2),
            only(CELLS),
        ),
        ("6 before 7", call(held(), 0, &faulty, 3), only(ROOM)),
        (
            "a fall that is lent and not used",
            call(held(), 0, &faulty, 1),
            None,
        ),
        (
            "22 before 12",
            call(held(), u64::MAX, &late, 2),
            Some(Reason::at(HOLDS_OTHER, 1)),
        ),
        (
            "12 has no position",
            call(held(), u64::MAX, &list, 1),
            only(GENERATION),
        ),
    ]
}

/// Every commit that says where it fails.
pub fn commits() -> Vec<Case> {
    let lists = lists().into_iter();
    let mut cases: Vec<Case> = lists
        .map(|(name, changes, reason)| (name, commit(8, listed(&changes)), reason))
        .collect();
    cases.push(minus_zero());
    for n in [256, MANY_CELLS, MOST_CELLS] {
        cases.extend(last_of_many(n));
    }
    cases.extend(around());
    cases
}

const RING_A: Ring = [0., 1., 2., 3.];
const RING_B: Ring = [2., 3., 2., 3.];
const NAN: Ring = [4., f64::NAN, 2., 3.];
const TURNED: Ring = [5., 4., 2., 3.];
const FLAT: Ring = [4., 5., 3., 3.];

/// Lent ring numbers, with where they are bad.
fn ring_lists() -> Vec<(&'static str, Vec<f64>, Option<usize>)> {
    let flat = |rings: &[Ring]| rings.as_flattened().to_vec();
    let mut all = vec![
        ("no ring", vec![], None),
        ("good rings", flat(&[RING_A, RING_B]), None),
        ("a bad ring at 0", flat(&[NAN, RING_A, RING_B]), Some(0)),
        (
            "a bad ring in the middle",
            flat(&[RING_A, TURNED, RING_B]),
            Some(1),
        ),
        (
            "a bad ring at the end",
            flat(&[RING_A, RING_B, FLAT]),
            Some(2),
        ),
        ("two bad rings", flat(&[RING_A, FLAT, NAN]), Some(1)),
        (
            "an infinite ring",
            flat(&[RING_A, [0., f64::INFINITY, 2., 3.]]),
            Some(1),
        ),
        ("a ring alone, bad", flat(&[FLAT]), Some(0)),
    ];
    for k in 0..3 {
        for more in 1..4 {
            let mut good = RING_A.repeat(k);
            good.extend(&RING_B[..more]);
            all.push(("a ring broken off", good, Some(k)));
            let mut bad = [RING_A, TURNED].as_flattened().repeat(1 + k);
            bad.extend(&RING_B[..more]);
            all.push(("a bad ring and one broken off", bad, Some(1)));
        }
    }
    all
}

fn store(rings: &[Ring], room: usize) -> Store {
    let mut numbers = rings.as_flattened().to_vec();
    numbers.resize(4 * room, 0.);
    Store {
        rings: numbers,
        count: rings.len(),
    }
}

fn moved(store: Store, changes: &[Change], removed: Vec<f64>) -> Call {
    Call::ApplyMove {
        spec: bar(8),
        stamp: STAMP,
        cells: HELD.repeat(8),
        blocks: kept(8),
        store,
        list: listed(changes),
        removed,
    }
}

fn single(store: Store, ring: Ring) -> Call {
    Call::RemoveRing {
        spec: bar(8),
        store,
        generation: 0,
        ring,
    }
}

fn parts(cells: Vec<f64>, given: Vec<f64>, room: usize) -> Call {
    Call::FromParts {
        spec: bar(8),
        stamp: STAMP,
        cells,
        blocks: vec![f64::NAN; 2],
        given,
        rings_len: 4 * room,
    }
}

/// Changes that are refused, with why.
fn faulty() -> [(Vec<Change>, Reason); 5] {
    [
        (vec![good(1), good(0)], Reason::at(RISING, 1)),
        (vec![good(0), to(1, WIDE)], Reason::at(AFTER, 1)),
        (vec![good(8)], Reason::at(NO_BIN, 0)),
        (vec![good(0), from(2, LEFT)], Reason::at(HOLDS_OTHER, 1)),
        (vec![to(2, MORE)], Reason::at(ADDS, 0)),
    ]
}

/// Moves and parts: each list of rings beside changes that are good, and beside ones that are not, which are asked after it;
/// with stored rings or cells that are bad, which are asked before it.
fn in_lists() -> Vec<Case> {
    let only = |number| Some(Reason::only(number));
    let stored = || store(&[[6., 7., 0., 1.]], 8);
    let mut cases: Vec<Case> = vec![];
    let faulty = faulty();
    let beside = faulty.iter().cycle();
    for ((name, numbers, place), (changes, later)) in ring_lists().into_iter().zip(beside) {
        let reason = place.map(|k| Reason::at(RING, k));
        let mut at = |call: Call, reason| cases.push((name, call, reason));
        at(moved(stored(), &[good(0)], numbers.clone()), reason);
        at(parts(HELD.repeat(8), numbers.clone(), 8), reason);
        let either = reason.or(Some(*later));
        at(moved(stored(), changes, numbers.clone()), either);
        let bad = store(&[NAN], 8);
        at(moved(bad, &[good(8)], numbers.clone()), only(STORED));
        at(parts(HELD.repeat(7), numbers, 8), only(CELLS));
    }
    for (changes, reason) in &faulty {
        let call = moved(stored(), changes, RING_A.to_vec());
        cases.push(("a faulty change beside a good ring", call, Some(*reason)));
    }
    cases
}

/// Single rings; and 11, which has no position.
fn alone() -> Vec<Case> {
    let only = |number| Some(Reason::only(number));
    let mut cases: Vec<Case> = vec![];
    let mut at = |name, call: Call, reason| cases.push((name, call, reason));
    let good = || store(&[RING_B], 8);
    for bound in 0..4 {
        for x in [f64::NAN, f64::INFINITY, f64::NEG_INFINITY] {
            let mut bad = RING_A;
            bad[bound] = x;
            at("one ring", single(good(), bad), Some(Reason::at(RING, 0)));
            let empty = store(&[RING_B, FLAT], 8);
            at("4 before 10", single(empty, bad), only(STORED));
        }
    }
    for turned in [TURNED, FLAT] {
        at("one ring that is empty", single(good(), turned), None);
    }
    let (full, both) = (store(&[RING_B], 1), [RING_A, RING_B].concat());
    at("11 of one ring", single(full.clone(), RING_A), only(PIECES));
    at("11 of a move", moved(full, &[], both.clone()), only(PIECES));
    at("11 of parts", parts(HELD.repeat(8), both, 1), only(PIECES));
    cases
}

/// Every move, ring and rebuild that says where it fails.
pub fn rings() -> Vec<Case> {
    [in_lists(), alone()].concat()
}

/// Stamps of a stock and of a list, by name; only equal ones are accepted.
const STAMPS: &[(&str, Stamp, Stamp)] = &[
    ("the least stamp", stamp(0, 0), stamp(0, 0)),
    ("one commit later", stamp(2, 7), stamp(2, 6)),
    ("a list of a later stock", stamp(2, 6), stamp(2, 7)),
    ("the edition before", stamp(3, 7), stamp(2, 7)),
    ("the edition after", stamp(2, 7), stamp(3, 7)),
    ("both others", stamp(3, 8), stamp(2, 7)),
    ("the two exchanged", stamp(2, 7), stamp(7, 2)),
    ("the same sum", stamp(2, 7), stamp(3, 6)),
    ("the last edition", stamp(u32::MAX, 0), stamp(u32::MAX, 0)),
    (
        "the first for the last edition",
        stamp(u32::MAX, 0),
        stamp(0, 0),
    ),
    (
        "the last for the first edition",
        stamp(0, 0),
        stamp(u32::MAX, 0),
    ),
    ("the last bit of an edition", stamp(0, 5), stamp(1 << 31, 5)),
    (
        "the last bit of a generation",
        stamp(1, 5),
        stamp(1, 5 | 1 << 63),
    ),
    (
        "a generation's upper half",
        stamp(1, 5 | 1 << 32),
        stamp(1, 5),
    ),
    (
        "the last but one generation",
        stamp(9, u64::MAX - 1),
        stamp(9, u64::MAX - 1),
    ),
    (
        "the last generation for the last but one",
        stamp(9, u64::MAX - 1),
        stamp(9, u64::MAX),
    ),
    (
        "the first generation for the last but one",
        stamp(9, u64::MAX - 1),
        stamp(9, 0),
    ),
];

/// A list that is for another stock, and the numbers that come before and after it: in a commit 1, 2, 3, 19, 20, 6, 7,
/// 8/21/22/23, 12, in a move 1, 2, 3, 6, 4, 19, 20, 10, 7, 8/21/22/23, 12, 11.
pub fn stale() -> Vec<Case> {
    let stale = Some(Reason::only(STALE));
    let mut cases: Vec<Case> = vec![];
    for (name, stock, list) in STAMPS {
        let reason = if stock == list { None } else { stale };
        for changes in [vec![], vec![good(1)]] {
            let mut both = [
                commit(8, listed(&changes)),
                moved(store(&[], 8), &changes, vec![]),
            ];
            for call in &mut both {
                *parts_of(call).stamp = *stock;
                parts_of(call).list.stamp = *list;
            }
            cases.extend(both.map(|call| (*name, call, reason)));
        }
    }
    cases.extend(around_stale());
    cases
}

/// What a commit and a move are made of.
struct Whole<'a> {
    spec: &'a mut Spec,
    stamp: &'a mut Stamp,
    cells: &'a mut Vec<f64>,
    blocks: &'a mut Vec<f64>,
    list: &'a mut List,
}

#[rustfmt::skip]
fn parts_of(call: &mut Call) -> Whole<'_> {
    match call {
        Call::Apply { spec, stamp, cells, blocks, list }
        | Call::ApplyMove { spec, stamp, cells, blocks, list, .. } => Whole { spec, stamp, cells, blocks, list },
        _ => unreachable!("{} commits nothing", call.name()),
    }
}

/// Another fault beside a stale list: which of the two is told.
fn around_stale() -> Vec<Case> {
    let other = Stamp {
        generation: STAMP.generation - 1,
        ..STAMP
    };
    let only = |number| Some(Reason::only(number));
    let stored = || store(&[[6., 7., 0., 1.]], 8);
    let mut cases: Vec<Case> = vec![];
    let mut at = |name, mut call: Call, bend: &dyn Fn(&mut Whole), number| {
        let mut whole = parts_of(&mut call);
        whole.list.stamp = other;
        bend(&mut whole);
        cases.push((name, call, only(number)));
    };
    for call in [good_commit(), good_move()] {
        let again = || call.clone();
        at("1 before 19", again(), &|w| w.spec.cell = 0., SPEC);
        at("2 before 19", again(), &|w| w.spec.max_cells = 7, COUNT);
        at(
            "3 before 19: a length",
            again(),
            &|w| w.cells.truncate(31),
            CELLS,
        );
        at(
            "3 before 19: a cell",
            again(),
            &|w| w.cells[5] = f64::NAN,
            CELLS,
        );
    }
    let (most, none): (&dyn Fn(&mut Whole), &dyn Fn(&mut Whole)) =
        (&|w| w.list.changes = 2, &|_| {});
    at("19 before 6 in a commit", good_commit(), most, STALE);
    at("6 before 19 in a move", good_move(), most, ROOM);
    let bad = || moved(store(&[NAN], 8), &[good(0)], RING_A.to_vec());
    at("6 before 4 before 19", bad(), most, ROOM);
    at("4 before 19", bad(), none, STORED);
    for removed in [NAN.to_vec(), FLAT.to_vec(), RING_A[..3].to_vec()] {
        at(
            "4 before 19 before 10",
            moved(store(&[FLAT], 8), &[], removed.clone()),
            none,
            STORED,
        );
        at(
            "19 before 10",
            moved(stored(), &[good(0)], removed),
            none,
            STALE,
        );
    }
    for (changes, _) in &faulty() {
        at(
            "19 before a faulty change",
            commit(8, listed(changes)),
            none,
            STALE,
        );
        at(
            "19 before a faulty change",
            moved(stored(), changes, vec![]),
            none,
            STALE,
        );
    }
    let last: &dyn Fn(&mut Whole) = &|w| w.stamp.generation = u64::MAX;
    for call in [good_commit(), good_move()] {
        at(
            "19 before 20: a count",
            call.clone(),
            &|w| w.blocks.clear(),
            STALE,
        );
        at("19 before 20: a number", call, &|w| w.blocks[0] = 9., STALE);
    }
    at("19 before 12", good_commit(), last, STALE);
    at("19 before 12", good_move(), last, STALE);
    let full = moved(store(&[RING_B], 1), &[], RING_A.to_vec());
    at("19 before 11", full, none, STALE);
    cases
}

/// Kept numbers that are not those of the cells, and the numbers that come before and after 20, which has no position.
pub fn blocks() -> Vec<Case> {
    [other_blocks(), around_blocks(), rebuilt_blocks()].concat()
}

fn good_commit() -> Call {
    commit(8, listed(&[good(0)]))
}

fn good_move() -> Call {
    moved(store(&[[6., 7., 0., 1.]], 8), &[good(0)], RING_A.to_vec())
}

/// A commit and a move with lists of kept numbers, of which the first alone is that of the cells.
#[rustfmt::skip]
fn other_blocks() -> Vec<Case> {
    let lists: [(&str, &[f64]); 11] = [
        ("the numbers of the cells", &[8., 1.]),
        ("one ulp more", &[8_f64.next_up(), 1.]),
        ("one ulp less", &[8., 1_f64.next_down()]),
        ("the two exchanged", &[1., 8.]),
        ("those of the cells after", &[7., 1.]),
        ("no number", &[8., f64::NAN]),
        ("infinite", &[f64::INFINITY, 1.]),
        ("no block", &[]),
        ("one number too few", &[8.]),
        ("one number too many", &[8., 1., 8.]),
        ("one block too many", &[8., 1., 8., 1.]),
    ];
    let mut cases: Vec<Case> = vec![];
    for (name, lent) in lists {
        for mut call in [good_commit(), good_move()] {
            *parts_of(&mut call).blocks = lent.to_vec();
            let same = lent == kept(8);
            cases.push((name, call, (!same).then_some(Reason::only(BLOCKS))));
        }
    }
    cases
}

/// Another fault beside kept numbers that are not those of the cells: which of the two is told.
#[rustfmt::skip]
fn around_blocks() -> Vec<Case> {
    let stored = || store(&[[6., 7., 0., 1.]], 8);
    let mut cases: Vec<Case> = vec![];
    let mut at = |name, mut call: Call, bend: &dyn Fn(&mut Whole), number| {
        let mut whole = parts_of(&mut call);
        whole.blocks[0] = whole.blocks[0].next_up();
        bend(&mut whole);
        cases.push((name, call, Some(Reason::only(number))));
    };
    let (most, none): (&dyn Fn(&mut Whole), &dyn Fn(&mut Whole)) = (&|w| w.list.changes = 2, &|_| {});
    let last = |w: &mut Whole| (w.stamp.generation, w.list.stamp.generation) = (u64::MAX, u64::MAX);
    for call in [good_commit(), good_move()] {
        let again = || call.clone();
        at("1 before 20", again(), &|w| w.spec.cell = 0., SPEC);
        at("2 before 20", again(), &|w| w.spec.max_cells = 7, COUNT);
        at("3 before 20: a length", again(), &|w| w.cells.truncate(31), CELLS);
        at("3 before 20: a cell", again(), &|w| w.cells[5] = f64::NAN, CELLS);
        at("20 before 12", again(), &last, BLOCKS);
    }
    at("20 before 6 in a commit", good_commit(), most, BLOCKS);
    at("6 before 20 in a move", good_move(), most, ROOM);
    at("4 before 20", moved(store(&[NAN], 8), &[good(0)], RING_A.to_vec()), none, STORED);
    for removed in [NAN.to_vec(), FLAT.to_vec(), RING_A[..3].to_vec()] {
        at("20 before 10", moved(stored(), &[good(0)], removed), none, BLOCKS);
    }
    for (changes, _) in &faulty() {
        at("20 before a faulty change", commit(8, listed(changes)), none, BLOCKS);
        at("20 before a faulty change", moved(stored(), changes, vec![]), none, BLOCKS);
    }
    at("20 before 11", moved(store(&[RING_B], 1), &[], RING_A.to_vec()), none, BLOCKS);
    cases
}

/// A rebuild asks for the count alone: 1, 2, 3, 20, 10, 11.
fn rebuilt_blocks() -> Vec<Case> {
    let only = |number| Some(Reason::only(number));
    let mut cases: Vec<Case> = vec![];
    let mut at = |name, mut call: Call, lent: &[f64], reason| {
        let Call::FromParts { blocks, .. } = &mut call else {
            unreachable!()
        };
        *blocks = lent.to_vec();
        cases.push((name, call, reason));
    };
    let held = || HELD.repeat(8);
    let good = || parts(held(), RING_A.to_vec(), 8);
    let anything = [f64::NAN, f64::INFINITY];
    at("any numbers", good(), &anything, None);
    at("numbers of -0.0", good(), &[-0., -0.], None);
    at("no block", good(), &[], only(BLOCKS));
    at("one number too few", good(), &anything[..1], only(BLOCKS));
    at(
        "one block too many",
        good(),
        &anything.repeat(2),
        only(BLOCKS),
    );
    let few = parts(HELD.repeat(7), RING_A.to_vec(), 8);
    at("3 before 20 in a rebuild", few, &[], only(CELLS));
    let bad = parts(held(), NAN.to_vec(), 8);
    at("20 before 10 in a rebuild", bad, &[], only(BLOCKS));
    let both = parts(held(), [RING_A, RING_B].concat(), 1);
    at("20 before 11 in a rebuild", both, &[], only(BLOCKS));
    cases
}
