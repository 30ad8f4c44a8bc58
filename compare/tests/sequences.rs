//! What generated sequences reach, and that a difference in one is found and made small.
use compare::call::{Answer, Call, List, Outcome, Reason, Simple, Stamp, Verdict};
use compare::count::Counts;
use compare::generate::Rng;
use compare::generate::sequence::{MOST_STEPS, sequence};
use compare::oracle::answer;
use compare::oracle::stock::{bar, camlib_stock, fresh};
use compare::sequence::{AS_IT_IS, Action, Bent, Sequence, run};
use compare::shrink::shrink;
use std::cell::RefCell;
use std::collections::BTreeMap;

const SEQUENCES: usize = 4000;

fn sequences(seed: u64) -> impl Iterator<Item = Sequence> {
    let mut rng = Rng::new(seed);
    (0..SEQUENCES).map(move |_| sequence(&mut rng))
}

fn fails(sequence: &Sequence, bent: Bent) -> bool {
    run(sequence, bent, &mut Counts::default()).is_err()
}

/// The first sequence that the bent outcomes make fail, made small.
fn least(bent: Bent) -> Sequence {
    let mut all = sequences(11);
    let found = all.find(|s| s.steps.len() > 5 && fails(s, bent));
    shrink(&found.expect("one fails"), |s| fails(s, bent))
}

#[test]
fn no_sequence_differs_and_every_refusal_is_reached() {
    let mut counts = Counts::default();
    for s in sequences(7) {
        assert!((1..=MOST_STEPS).contains(&s.steps.len()));
        let end = run(&s, AS_IT_IS, &mut counts);
        assert!(end.is_ok(), "{end:?}");
    }
    let reached = |name: &str| -> Vec<u32> {
        let wanted = |n: &u32| counts.wanted(name, *n) > 0;
        (0..26).filter(wanted).collect()
    };
    for name in ["thread_cut", "thread_cut_inner", "drill"] {
        assert_eq!(reached(name), [0, 1, 2, 3, 5, 6], "{name}");
    }
    assert_eq!(reached("preview"), [0, 1, 2, 3, 5, 6]);
    assert_eq!(reached("preview_polygon"), [0, 1, 2, 3, 5, 6]);
    let all = [0, 1, 2, 3, 6, 7, 8, 12, 19, 20, 21, 22, 23];
    assert_eq!(reached("apply"), all);
    assert_eq!(reached("changes_to"), [0, 1, 2, 3, 6]);
    assert_eq!(reached("remove_ring"), [0, 1, 2, 4, 10, 11, 12]);
    let all = [0, 1, 2, 3, 4, 6, 7, 8, 10, 11, 12, 19, 20, 21, 22, 23];
    assert_eq!(reached("apply_move"), all);
    assert_eq!(reached("from_parts"), [0, 1, 2, 3, 10, 11, 20]);
    assert_eq!(reached("volume"), [0, 1, 2, 3, 4]);
    assert_eq!(reached("envelope_at"), [0, 1, 2, 3]);
    assert_eq!(reached("renew"), [0, 1, 2, 3, 20]);
    assert_eq!(reached("range"), [0, 1, 2, 3, 20]);
    assert_eq!(reached("check_passes"), [0, 1, 2, 3, 20, 25]);
}

/// The position of the first change of the list whose bin holds something else.
fn first_other(cells: &[f64], list: &List) -> Option<usize> {
    let (cells, _) = cells.as_chunks::<4>();
    let (records, _) = list.records.as_chunks::<8>();
    let pairs = list.indices.iter().zip(records).take(list.changes);
    let mut others = pairs.map(|(i, record)| cells[*i] != record[..4]);
    others.position(|other| other)
}

/// Commits and moves of lists that nothing befell, on stocks that may have changed since.
#[derive(Default)]
struct Seen {
    /// How many were refused with each number.
    refused: BTreeMap<u32, usize>,
    /// Refused with 19, where every bin listed holds what the list says: camlib commits them.
    held: usize,
}

/// With `differences` the lists of `changes_to` are among them. 19 is told where the stamps are not equal, and where nothing comes
/// before it, and no other number of the list where they are not.
fn stale(seed: u64, differences: bool) -> Seen {
    let seen = RefCell::new(Seen::default());
    let see = |call: &Call, outcome: Outcome| {
        let (Call::Apply {
            stamp, cells, list, ..
        }
        | Call::ApplyMove {
            stamp, cells, list, ..
        }) = call
        else {
            return outcome;
        };
        let mut seen = seen.borrow_mut();
        if let Err(reason) = outcome {
            let number = reason.number;
            assert_eq!(number == 19, list.stamp != *stamp, "{call:?}");
            let other = first_other(cells, list);
            if number == 22 {
                assert_eq!(reason.place, other, "{call:?}");
            }
            seen.held += (number == 19 && other.is_none()) as usize;
            *seen.refused.entry(number).or_default() += 1;
        } else {
            assert_eq!(list.stamp, *stamp, "{call:?}");
        }
        outcome
    };
    for mut s in sequences(seed) {
        s.steps.iter_mut().for_each(|step| step.damage = None);
        s.steps
            .retain(|step| differences || !matches!(step.action, Action::Difference { .. }));
        let end = run(&s, &see, &mut Counts::default());
        assert!(end.is_ok(), "{end:?}");
    }
    seen.into_inner()
}

/// A list that a preview proposed is refused with 19 where its stock has another stamp now, whatever
/// its bins hold. Where the stamp is the same again, of a stock that was rebuilt or returned to, it is
/// refused with 22 alone, at the first bin listed that holds something else; beside it only what a list
/// has no part in. One of a difference may add material.
#[test]
fn a_stale_list_is_19_or_22_where_the_stamp_is_the_same_again() {
    let numbers = |seen: &Seen| seen.refused.keys().copied().collect::<Vec<_>>();
    let previews = stale(13, false);
    println!(
        "of previews: {:?}, {} held",
        previews.refused, previews.held
    );
    assert_eq!(numbers(&previews), [10, 11, 12, 19, 22]);
    assert!(previews.refused[&19] > 100 && previews.held > 100);
    assert!(previews.refused[&22] > 10, "{:?}", previews.refused);
    let all = stale(13, true);
    println!("and of differences: {:?}, {} held", all.refused, all.held);
    assert_eq!(numbers(&all), [10, 11, 12, 19, 22, 23]);
}

/// A commit that does not ask for the edition: a preview, a rebuild of another edition and the list
/// show it.
#[test]
fn a_wrong_edition_shrinks_to_a_list_of_another_edition() {
    let wrong = |call: &Call, outcome: Outcome| match call {
        Call::Apply { stamp, list, .. } if list.stamp.edition != stamp.edition => {
            let mut call = call.clone();
            let Call::Apply { list, .. } = &mut call else {
                unreachable!()
            };
            list.stamp.edition = stamp.edition;
            answer(&call)
        }
        _ => outcome,
    };
    let least = least(&wrong);
    assert!((1..=3).contains(&least.steps.len()), "{least:?}");
    let last = &least.steps.last().unwrap().action;
    assert!(matches!(last, Action::Commit { .. }), "{least:?}");
    assert_eq!((least.cells.len(), least.stamp.generation), (4, 0));
}

/// A commit that does not ask for the generation: a preview, a commit and the list again, or a list that
/// is damaged.
#[test]
fn a_wrong_generation_shrinks_to_a_list_of_another_generation() {
    let wrong = |call: &Call, outcome: Outcome| match call {
        Call::Apply { stamp, list, .. } if list.stamp.generation != stamp.generation => {
            let mut call = call.clone();
            let Call::Apply { list, .. } = &mut call else {
                unreachable!()
            };
            list.stamp.generation = stamp.generation;
            answer(&call)
        }
        _ => outcome,
    };
    let least = least(&wrong);
    assert!((1..=3).contains(&least.steps.len()), "{least:?}");
    let last = &least.steps.last().unwrap().action;
    assert!(matches!(last, Action::Commit { .. }), "{least:?}");
    assert_eq!(least.cells.len(), 4, "{least:?}");
}

/// A drill of more than 2 is refused by a wrong rule: one call shows it.
#[test]
fn a_wrong_refusal_shrinks_to_one_call() {
    let wrong = |call: &Call, outcome: Outcome| match call {
        Call::Cut {
            cut: Simple::Drill { radius, .. },
            ..
        } if *radius > 2. => outcome.and(Err(Reason::only(5))),
        _ => outcome,
    };
    let least = least(&wrong);
    assert!(
        matches!(
            least.steps[..],
            [ref step] if matches!(step.action, Action::Cut(Simple::Drill { .. }))
        ),
        "{least:?}"
    );
    assert_eq!((least.cells.len(), least.store.count), (4, 0), "{least:?}");
    assert_eq!(least.stamp, Stamp::default());
}

/// A wrong commit leaves out the last of two changes or more: a preview and its commit show it, on
/// two bins.
#[test]
fn a_wrong_commit_shrinks_to_a_preview_and_a_commit() {
    let wrong = |call: &Call, outcome: Outcome| match (call, &outcome) {
        (Call::Apply { cells, list, .. }, Ok(Answer::Stock(after, blocks, rings, generation, tests)))
            if list.changes > 1 =>
        {
            let mut after = after.clone();
            let last = list.indices[list.changes - 1];
            after[last] = cells.as_chunks::<4>().0[last];
            let (blocks, rings) = (blocks.clone(), rings.clone());
            let tests = tests.clone();
            Ok(Answer::Stock(after, blocks, rings, *generation, tests))
        }
        _ => outcome,
    };
    let least = least(&wrong);
    assert_eq!(least.steps.len(), 2, "{least:?}");
    assert!(matches!(least.steps[1].action, Action::Commit { .. }));
    assert_eq!(least.cells.len(), 8, "{least:?}");
}

/// A commit that leaves the kept numbers as they were: a preview and its commit show it, on one bin.
#[test]
fn a_wrong_renewal_shrinks_to_a_preview_and_a_commit() {
    let wrong = |call: &Call, outcome: Outcome| match (call, &outcome) {
        (Call::Apply { blocks, .. }, Ok(Answer::Stock(cells, _, rings, generation, tests))) => {
            let (cells, rings) = (cells.clone(), rings.clone());
            let (blocks, tests) = (blocks.clone(), tests.clone());
            Ok(Answer::Stock(cells, blocks, rings, *generation, tests))
        }
        _ => outcome,
    };
    let least = least(&wrong);
    assert_eq!(least.steps.len(), 2, "{least:?}");
    assert!(matches!(least.steps[1].action, Action::Commit { .. }));
    assert_eq!(least.cells.len(), 4, "{least:?}");
}

/// A yes that raises the generation by 1 whatever the cuts: one check of two cuts shows it, or of none.
#[test]
fn a_wrong_yes_shrinks_to_one_check() {
    let wrong = |call: &Call, outcome: Outcome| match (call, &outcome) {
        (
            Call::CheckPasses { stamp, .. },
            Ok(Answer::Checked(Verdict::Yes, cells, blocks, raised)),
        ) if *raised != stamp.generation.wrapping_add(1) => {
            let (cells, blocks) = (cells.clone(), blocks.clone());
            let once = stamp.generation.wrapping_add(1);
            Ok(Answer::Checked(Verdict::Yes, cells, blocks, once))
        }
        _ => outcome,
    };
    let least = least(&wrong);
    assert_eq!(least.steps.len(), 1, "{least:?}");
    assert!(
        matches!(&least.steps[0].action, Action::Check { passes, .. } if passes.kinds.len() != 1),
        "{least:?}"
    );
}

/// A position that is one too many: a preview and a commit that is damaged show it, or a list whose stamp
/// is the same again.
#[test]
fn a_wrong_position_shrinks_to_a_list_that_is_stale() {
    let wrong = |call: &Call, outcome: Outcome| match (call, &outcome) {
        (Call::Apply { .. }, Err(Reason { number: 22, place })) => Err(Reason {
            number: 22,
            place: place.map(|k| k + 1),
        }),
        _ => outcome,
    };
    let least = least(&wrong);
    assert!((2..=5).contains(&least.steps.len()), "{least:?}");
    let last = &least.steps.last().unwrap().action;
    assert!(matches!(last, Action::Commit { .. }), "{least:?}");
    assert_eq!(least.cells.len(), 4, "{least:?}");
}

/// A wrong ring that is covered leaves the generation: the ring that covers it and the ring show it.
#[test]
fn a_wrong_covered_ring_shrinks_to_two_rings() {
    let wrong = |call: &Call, outcome: Outcome| match (call, &outcome) {
        (
            Call::RemoveRing {
                store, generation, ..
            },
            Ok(Answer::Stock(_, _, rings, raised, tests)),
        ) if rings.len() == store.count && raised > generation => {
            let (rings, tests) = (rings.clone(), tests.clone());
            Ok(Answer::Stock(vec![], vec![], rings, *generation, tests))
        }
        _ => outcome,
    };
    let least = least(&wrong);
    assert_eq!(least.steps.len() + least.store.count, 2, "{least:?}");
}

/// How many rings a store would have, were there no limit, and the most pieces in hand up to the first
/// over 256; each step is made by camlib on a stock with one ring.
fn without_limit(call: &Call) -> Option<(usize, usize)> {
    let Call::RemoveRing {
        spec, store, ring, ..
    } = call
    else {
        return None;
    };
    let bar = bar(spec).ok()?;
    let cells = fresh(&bar);
    let (rings, _) = store.rings.as_chunks::<4>();
    let rings = &rings[..store.count];
    let removed = |stored: &[[f64; 4]], r: &[f64; 4]| {
        let mut stock = camlib_stock(&bar, &cells, stored);
        stock.remove_ring([r[0], r[1]], [r[2], r[3]]);
        stock.rings()[stored.len()..].to_vec()
    };
    let mut pieces = removed(&[], ring);
    let mut most = pieces.len();
    for stored in rings {
        pieces = pieces.iter().flat_map(|p| removed(&[*stored], p)).collect();
        most = most.max(pieces.len());
        if most > 256 {
            return Some((usize::MAX, most));
        }
    }
    Some((rings.len() + pieces.len(), most))
}

/// Stores of exactly 255 and 256 rings, and refusals at the 257th ring of a store and at the 257th
/// piece in hand.
#[test]
fn the_limits_of_rings_are_reached() {
    let stored = RefCell::new(BTreeMap::<usize, usize>::new());
    let refused = RefCell::new(BTreeMap::<(usize, usize), usize>::new());
    let see = |call: &Call, outcome: Outcome| {
        match &outcome {
            Ok(Answer::Stock(_, _, rings, _, _)) => {
                *stored.borrow_mut().entry(rings.len()).or_default() += 1;
            }
            Err(Reason { number: 11, .. }) => {
                let why = without_limit(call);
                why.into_iter().for_each(|why| {
                    *refused.borrow_mut().entry(why).or_default() += 1;
                });
            }
            _ => {}
        }
        outcome
    };
    for s in sequences(5) {
        let end = run(&s, &see, &mut Counts::default());
        assert!(end.is_ok(), "{end:?}");
    }
    let (stored, refused) = (stored.into_inner(), refused.into_inner());
    let times = |count: usize| stored.get(&count).copied().unwrap_or(0);
    println!("stores of 255: {}, of 256: {}", times(255), times(256));
    let at_257th_ring = refused.iter().filter(|((rings, _), _)| *rings == 257);
    let at_257th_ring: usize = at_257th_ring.map(|(_, times)| times).sum();
    let at_257th_piece = refused.get(&(usize::MAX, 257)).copied().unwrap_or(0);
    println!("refused at the 257th ring: {at_257th_ring}, at the 257th piece: {at_257th_piece}");
    assert!(times(255) > 10 && times(256) > 10, "{stored:?}");
    assert!(stored.keys().all(|count| *count <= 256), "{stored:?}");
    assert!(at_257th_ring > 5 && at_257th_piece > 5, "{refused:?}");
}
