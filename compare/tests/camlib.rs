//! The oracle's refusals held against camlib's own, and what the generators reach.
use compare::call::{Answer, Call, Reason, Spec};
use compare::generate::{FAMILIES, Rng, family};
use compare::memory::Memory;
use compare::oracle::ranges::{BLOCK, blocks_len, renew};
use compare::oracle::stock::{Bar, camlib_spec, camlib_stock, cells, change_to_camlib, to_camlib};
use compare::oracle::{answer, stock};
use compare::run::number;
use plain::turning::stock::{TurnCell, TurnStock};
use std::collections::BTreeSet;

const CALLS: usize = 20_000;

fn calls(name: &str) -> impl Iterator<Item = Call> {
    let (make, mut rng) = (family(name).unwrap(), Rng::new(7));
    (0..CALLS).map(move |_| make(&mut rng))
}

fn minus_zero(x: &f64) -> bool {
    x.to_bits() == (-0_f64).to_bits()
}

#[test]
fn every_refusal_is_reached() {
    let reached = |name: &str| -> Vec<u32> {
        let numbers = calls(name).map(|call| number(&answer(&call)));
        numbers.collect::<BTreeSet<u32>>().into_iter().collect()
    };
    for (name, ..) in FAMILIES {
        let wanted: &[u32] = match name {
            "root" | "length" => &[0, 5],
            "stock" => &[0, 1, 2, 3, 20, 21],
            "thread" | "thread_inner" | "drill" => &[0, 1, 2, 3, 5, 6],
            "nose" | "short_chords" | "polygon" => &[0, 1, 2, 3, 5, 6],
            "apply" => &[0, 1, 2, 3, 6, 7, 8, 12, 19, 20, 21, 22, 23],
            "changes_to" => &[0, 1, 2, 3, 6],
            "rings" => &[0, 1, 2, 4, 10, 11, 12],
            "moves" => &[0, 1, 2, 3, 4, 6, 7, 8, 10, 11, 12, 19, 20, 21, 22, 23],
            "parts" => &[0, 1, 2, 3, 10, 11, 20],
            "volume" => &[0, 1, 2, 3, 4],
            "envelope_at" => &[0, 1, 2, 3],
            "renew" | "range" => &[0, 1, 2, 3, 20],
            "profile" => &[0, 17, 18],
            "passes" => &[0, 1, 2, 3, 20, 25],
            "proposals" => &[0, 1, 2, 3, 5, 25],
            _ => &[0, 14],
        };
        assert_eq!(reached(name), wanted, "{name}");
    }
}

/// Stamps at both ends and any between; one list of five is for another stock, by its edition, its
/// generation or both.
#[test]
fn stamps_of_every_kind_are_reached() {
    for name in ["apply", "moves"] {
        let (mut editions, mut generations) = (BTreeSet::new(), BTreeSet::new());
        let mut spoiled = [0; 4];
        for call in calls(name) {
            let (Call::Apply { stamp, list, .. } | Call::ApplyMove { stamp, list, .. }) = call
            else {
                panic!()
            };
            editions.insert(stamp.edition);
            generations.insert(stamp.generation);
            let other = list.stamp.edition != stamp.edition;
            let later = list.stamp.generation != stamp.generation;
            spoiled[other as usize + 2 * later as usize] += 1;
        }
        assert!([0, 1, u32::MAX].iter().all(|e| editions.contains(e)));
        let edges = [0, 1, u64::MAX - 1, u64::MAX];
        assert!(edges.iter().all(|g| generations.contains(g)));
        assert!(editions.len() > 1000 && generations.len() > 1000);
        let part = (CALLS - spoiled[0]) as f64 / CALLS as f64;
        assert!((0.19..0.21).contains(&part), "{spoiled:?}");
        assert!(spoiled[1..].iter().all(|n| *n > CALLS / 30), "{spoiled:?}");
    }
}

/// 19 beside another reason, as the generators have them: which one is told.
#[test]
fn a_stale_list_meets_every_other_reason() {
    for (name, before, after) in [
        (
            "apply",
            &[1, 2, 3][..],
            &[0, 6, 7, 8, 12, 20, 21, 22, 23][..],
        ),
        (
            "moves",
            &[1, 2, 3, 4, 6],
            &[0, 7, 8, 10, 11, 12, 20, 21, 22, 23],
        ),
    ] {
        let (mut told, mut hidden) = (BTreeSet::new(), BTreeSet::new());
        for mut call in calls(name) {
            let first = number(&answer(&call));
            let (Call::Apply { stamp, list, .. } | Call::ApplyMove { stamp, list, .. }) = &mut call
            else {
                panic!()
            };
            if list.stamp == *stamp {
                continue;
            }
            list.stamp = *stamp;
            let second = number(&answer(&call));
            if first == 19 {
                hidden.insert(second);
            } else {
                assert_eq!(first, second);
                told.insert(first);
            }
        }
        assert!(told.iter().eq(before), "{name}: {told:?}");
        assert!(hidden.iter().eq(after), "{name}: {hidden:?}");
    }
}

/// 20 beside another reason, in the same way: one list of five is damaged, and most of those are refused.
#[test]
fn damaged_numbers_meet_every_other_reason() {
    let most: &[u32] = &[0, 6, 7, 8, 12, 21, 22, 23];
    for (name, before, after) in [
        ("apply", &[1, 2, 3, 19][..], most),
        (
            "moves",
            &[1, 2, 3, 4, 6, 19],
            &[0, 7, 8, 10, 11, 12, 21, 22, 23],
        ),
        ("range", &[1, 2, 3], &[0]),
    ] {
        let (mut told, mut hidden) = (BTreeSet::new(), BTreeSet::new());
        let mut refused = 0;
        for mut call in calls(name) {
            let first = number(&answer(&call));
            let (Call::Apply {
                spec,
                cells,
                blocks,
                ..
            }
            | Call::ApplyMove {
                spec,
                cells,
                blocks,
                ..
            }
            | Call::Range {
                spec,
                cells,
                blocks,
                ..
            }) = &mut call
            else {
                panic!()
            };
            let len = stock::bar(spec).map_or(0, |bar| blocks_len(bar.n));
            let own = renew(spec, cells, len);
            let own = own.unwrap_or_else(|_| vec![f64::NAN; 3]);
            if *blocks == own {
                continue;
            }
            *blocks = own;
            let second = number(&answer(&call));
            if first == 20 {
                hidden.insert(second);
                refused += 1;
            } else {
                assert_eq!(first, second);
                told.insert(first);
            }
        }
        assert!(told.iter().eq(before), "{name}: {told:?}");
        assert!(hidden.iter().eq(after), "{name}: {hidden:?}");
        let part = refused as f64 / CALLS as f64;
        assert!((0.08..0.2).contains(&part), "{name}: {refused}");
    }
}

/// Bars of every number of bins about a block's, blocks with no material, ranges that begin and end in every
/// way, and -0.0 among the kept numbers that are accepted.
#[test]
fn ranges_of_every_kind_are_reached() {
    let mut bins = BTreeSet::new();
    let (mut found, mut whole, mut empty, mut signed, mut one) = (0, 0, 0, 0, 0);
    for call in calls("range") {
        let Ok(Answer::Found(answered)) = answer(&call) else {
            continue;
        };
        let Call::Range {
            spec,
            cells: lent,
            blocks,
            lo,
            hi,
        } = call
        else {
            panic!()
        };
        let bar = stock::bar(&spec).unwrap();
        bins.insert(bar.n);
        found += answered.is_some() as usize;
        empty += blocks
            .as_chunks::<2>()
            .0
            .iter()
            .any(|[upper, lower]| upper < lower) as usize;
        signed += blocks.iter().any(minus_zero) as usize;
        let cells = cells(&bar, &lent).unwrap();
        if let Some((first, last)) = compare::oracle::ranges::bins(&bar, &cells, lo, hi) {
            whole += (first.div_ceil(BLOCK) < (last + 1) / BLOCK) as usize;
            one += (first == last) as usize;
        }
    }
    for n in [
        1, 63, 64, 65, 127, 128, 129, 130, 192, 193, 4095, 4096, 4097, 16383, 16384,
    ] {
        assert!(bins.contains(&n), "{n}");
    }
    let counts = [found, whole, empty, signed, one];
    println!("found, with whole blocks, empty blocks, -0.0, one bin: {counts:?}");
    assert!(counts.iter().all(|c| *c > CALLS / 40), "{counts:?}");
}

#[test]
fn a_refusal_writes_nothing() {
    for (name, ..) in FAMILIES {
        for call in calls(name).take(1000) {
            let mut memory = Memory::of(&call);
            memory.write(&Err(Reason::only(1)));
            assert_eq!(memory, Memory::of(&call));
        }
    }
}

/// But for its position, where it has one.
#[test]
fn a_position_is_all_that_is_written() {
    for name in ["apply", "rings", "moves", "parts"] {
        for call in calls(name).take(1000) {
            let mut memory = Memory::of(&call);
            memory.write(&Err(Reason::at(10, 3)));
            let position = memory.lent.pop().unwrap();
            assert_eq!((position.name, position.words()), ("position", &[3][..]));
            let mut before = Memory::of(&call);
            assert_eq!(before.lent.pop().unwrap().words(), [7_777_777]);
            assert_eq!(memory, before);
        }
    }
}

/// 1 and 2 are camlib's, but for the limit of 16,384 cells and a count that camlib's cast brings down.
#[test]
fn camlib_refuses_the_spec_too() {
    for call in calls("stock") {
        let Call::Validate { spec } = call else {
            continue;
        };
        let ours = stock::bar(&spec).map(|bar| bar.n).ok();
        let theirs = camlib_spec(&spec).validate().ok();
        let theirs = theirs.filter(|n| *n <= 16384);
        assert_eq!(ours, theirs, "{spec:?}");
    }
}

/// 3 is camlib's, but for -0.0.
#[test]
fn camlib_refuses_the_cells_too() {
    for call in calls("volume") {
        let Call::Volume {
            spec, cells: lent, ..
        } = call
        else {
            panic!()
        };
        let Ok(bar) = stock::bar(&spec) else { continue };
        if !lent.len().is_multiple_of(4) {
            assert_eq!(cells(&bar, &lent), Err(Reason::only(3)));
            continue;
        }
        let (parts, _) = lent.as_chunks::<4>();
        let parts: Vec<TurnCell> = parts.iter().map(to_camlib).collect();
        let theirs = TurnStock::from_parts(camlib_spec(&bar.spec), parts, vec![]).is_ok();
        let theirs = theirs && !lent.iter().any(minus_zero);
        assert_eq!(cells(&bar, &lent).is_ok(), theirs, "{spec:?}");
    }
}

/// 7, 8, 21, 22 and 23 are camlib's, but for -0.0 in an after-cell.
#[test]
fn camlib_refuses_the_changes_too() {
    for call in calls("apply") {
        let outcome = answer(&call);
        if matches!(number(&outcome), 1 | 2 | 3 | 6 | 12 | 19 | 20) {
            continue;
        }
        let Call::Apply {
            spec,
            cells: lent,
            list,
            ..
        } = call
        else {
            panic!()
        };
        let bar = stock::bar(&spec).unwrap();
        let mut stock = camlib_stock(&bar, &cells(&bar, &lent).unwrap(), &[]);
        let (records, _) = list.records.as_chunks::<8>();
        let pairs = list.indices.iter().zip(records).take(list.changes);
        let changes: Vec<_> = pairs
            .map(|(index, record)| compare::call::Change {
                index: *index,
                before: record[..4].try_into().unwrap(),
                after: record[4..].try_into().unwrap(),
            })
            .collect();
        let stored = changes.iter().any(|c| c.after.iter().any(minus_zero));
        let theirs: Vec<_> = changes.iter().map(change_to_camlib).collect();
        assert_eq!(outcome.is_ok(), stock.apply(&theirs).is_ok() && !stored);
    }
}

/// 10 is camlib's.
#[test]
fn camlib_refuses_the_rings_too() {
    for call in calls("parts") {
        let outcome = answer(&call);
        if matches!(number(&outcome), 1..=3 | 20) {
            continue;
        }
        let Call::FromParts {
            spec,
            cells: lent,
            given,
            ..
        } = call
        else {
            panic!()
        };
        let Bar { spec, .. } = stock::bar(&spec).unwrap();
        let (rings, rest) = given.as_chunks::<4>();
        let cells: Vec<TurnCell> = lent.as_chunks::<4>().0.iter().map(to_camlib).collect();
        let theirs = TurnStock::from_parts(camlib_spec(&spec), cells, rings.to_vec());
        let refused = theirs.is_err() || !rest.is_empty();
        assert_eq!(number(&outcome) == 10, refused);
    }
}

/// A count past what camlib's own cast holds is 2 here.
#[test]
fn an_infinite_count_is_refused() {
    let spec = Spec {
        z_min: 0.,
        z_max: 1.,
        outer: 1.,
        bore: 0.,
        cell: f64::from_bits(1),
        max_cells: usize::MAX,
    };
    assert_eq!(camlib_spec(&spec).validate(), Ok(usize::MAX));
    assert_eq!(answer(&Call::Validate { spec }), Err(Reason::only(2)));
}

/// The most pieces in hand, each step made by camlib on a stock with one ring; up to the first over 256.
fn most_in_hand(bar: &Bar, rings: &[[f64; 4]], ring: [f64; 4]) -> usize {
    let cells = stock::fresh(bar);
    let remove = |stored: &[[f64; 4]], r: &[f64; 4]| {
        let mut stock = camlib_stock(bar, &cells, stored);
        stock.remove_ring([r[0], r[1]], [r[2], r[3]]);
        stock.rings()[stored.len()..].to_vec()
    };
    let mut pieces = remove(&[], &ring);
    let mut most = pieces.len();
    for stored in rings {
        pieces = pieces.iter().flat_map(|p| remove(&[*stored], p)).collect();
        most = most.max(pieces.len());
        if most > 256 {
            break;
        }
    }
    most
}

/// 256 pieces in hand are accepted and 257 are not, and both are reached; so are stores of 255 and 256
/// rings.
#[test]
fn the_limit_of_pieces_is_reached() {
    let mut accepted = BTreeSet::new();
    let mut refused = BTreeSet::new();
    let mut stored = BTreeSet::new();
    for call in calls("rings") {
        let outcome = answer(&call);
        if let Ok(Answer::Stock(_, _, rings, _, _)) = &outcome {
            stored.insert(rings.len());
        }
        let Call::RemoveRing {
            spec, store, ring, ..
        } = call
        else {
            panic!()
        };
        if store.count < 70 || store.rings.len() < 1024 || !matches!(number(&outcome), 0 | 11) {
            continue;
        }
        let bar = stock::bar(&spec).unwrap();
        let (rings, _) = store.rings.as_chunks::<4>();
        let most = most_in_hand(&bar, &rings[..store.count], ring);
        match outcome {
            Ok(_) => accepted.insert(most),
            Err(_) => refused.insert(most),
        };
    }
    assert!(
        accepted.contains(&255) && accepted.contains(&256),
        "{accepted:?}"
    );
    assert!(accepted.iter().all(|most| *most <= 256));
    assert!(refused.contains(&257), "{refused:?}");
    assert!(stored.contains(&255), "{stored:?}");
    assert_eq!(stored.last(), Some(&256));
}
