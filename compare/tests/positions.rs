//! Req 04, Req 08 and Req 09 of 02: each refusal of a list says the number and the position that 02 gives, by the oracle; the library is
//! held against it in tests/limits.rs, which makes these calls too.
use compare::call::{Call, Reason};
use compare::generate::{Rng, family};
use compare::memory::Memory;
use compare::oracle::answer;
use compare::positions::{Case, blocks, commits, rings, stale};
use compare::record;
use std::collections::{BTreeMap, BTreeSet};

fn cases() -> Vec<Case> {
    [commits(), rings(), stale(), blocks()].concat()
}

#[test]
fn each_case_has_its_number_and_position() {
    for (name, call, reason) in cases() {
        assert_eq!(answer(&call).err(), reason, "{name}: {}", call.name());
    }
}

/// The five numbers of a change and the one of a ring, each at the first place and at later ones.
#[test]
fn every_number_is_there_at_several_places() {
    let mut places: BTreeMap<u32, BTreeSet<usize>> = BTreeMap::new();
    for (_, _, reason) in cases() {
        if let Some(Reason {
            number,
            place: Some(k),
        }) = reason
        {
            places.entry(number).or_default().insert(k);
        }
    }
    let numbers: Vec<u32> = places.keys().copied().collect();
    assert_eq!(numbers, [7, 8, 10, 21, 22, 23]);
    assert_eq!(places[&7].first(), Some(&1));
    for number in [8, 10, 21, 22, 23] {
        assert_eq!(places[&number].first(), Some(&0), "{number}");
    }
    for number in [7, 8, 21, 22, 23] {
        assert_eq!(places[&number].last(), Some(&16383), "{number}");
    }
}

/// A position is below the number of changes, and of rings at most length / 4; no other number has one.
#[test]
fn a_position_is_in_its_list() {
    let mut seen: BTreeMap<u32, usize> = BTreeMap::new();
    for name in ["apply", "rings", "moves", "parts", "stock"] {
        let (make, mut rng) = (family(name).unwrap(), Rng::new(5));
        for call in (0..30_000).map(|_| make(&mut rng)) {
            let Err(Reason { number, place }) = answer(&call) else {
                continue;
            };
            *seen.entry(number).or_default() += 1;
            let most = match &call {
                Call::Apply { list, .. } | Call::ApplyMove { list, .. } if number != 10 => {
                    list.changes.wrapping_sub(1)
                }
                Call::ApplyMove { removed: rings, .. } | Call::FromParts { given: rings, .. } => {
                    rings.len() / 4
                }
                _ => 0,
            };
            let listed = !matches!(call, Call::Bin { .. });
            let has_one = listed && matches!(number, 7 | 8 | 10 | 21 | 22 | 23);
            assert_eq!(place.is_some(), has_one, "{number} of {}", call.name());
            assert!(
                place.is_none_or(|k| k <= most),
                "{number} of {}",
                call.name()
            );
            assert!(number != 7 || place != Some(0));
        }
    }
    assert!(
        [7, 8, 10, 21, 22, 23].iter().all(|n| seen[n] > 100),
        "{seen:?}"
    );
    assert!(!seen.contains_key(&9));
}

/// A recorded line ends with `= NUMBER POSITION`, or with `= NUMBER` where there is no position.
#[test]
fn a_line_ends_with_the_position() {
    for (name, call, reason) in cases() {
        let line = record::line(&call, &answer(&call));
        let (_, said) = line.split_once(" = ").unwrap();
        match reason {
            None => assert!(said.starts_with("0 "), "{name}"),
            Some(Reason { number, place }) => {
                let place = place.map_or(String::new(), |k| format!(" {k}"));
                assert_eq!(said, format!("{number}{place}"), "{name}");
            }
        }
    }
}

/// What is lent last is the position, and it holds a pattern.
#[test]
fn a_position_is_lent_with_a_pattern() {
    for (name, call, _) in cases() {
        let memory = Memory::of(&call);
        let last = memory.lent.last().unwrap();
        assert_eq!(
            (last.name, last.words()),
            ("position", &[7_777_777][..]),
            "{name}"
        );
    }
}
