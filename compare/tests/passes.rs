//! Req 13 of 02: the example of docs/PASSES.md, the order of cuts, and that no rule of a check can be left out unseen.
use compare::call::{Answer, Call, Outcome, Passes, Stamp, Verdict};
use compare::generate::passes::{another_order, check, propose};
use compare::generate::{PASSES, PROPOSALS, Rng};
use compare::limits::{pass_bar, two_steps};
use compare::memory::Memory;
use compare::oracle::answer;
use compare::oracle::passes::blocks_of;
use compare::passes::{check_of, same_in_any_order};
use compare::run::{difference, family};
use compare::shrink::shrink;
use compare::{call::PassRoom, library};
use std::collections::BTreeSet;

fn example(loose: bool) -> Call {
    let (spec, cells) = pass_bar();
    Call::ProposePasses {
        spec,
        cells,
        targets: two_steps(loose),
        rn: 0.8,
        room: PassRoom {
            kinds: 128,
            numbers: 768,
            parts: 256,
        },
    }
}

/// Proposed by the library, and checked by it; both as the oracle has it.
fn checked(proposal: &Call) -> (Outcome, Outcome) {
    let proposed = answer(proposal);
    assert_eq!(difference(proposal, &proposed), None);
    let mut memory = Memory::of(proposal);
    assert_eq!(library::run(proposal, &mut memory), 0);
    let check = check_of(proposal, &memory).unwrap();
    let verdict = answer(&check);
    assert_eq!(difference(&check, &verdict), None);
    (proposed, verdict)
}

#[test]
fn two_passes_with_a_loose_bin_between_are_a_yes() {
    let (proposed, verdict) = checked(&example(true));
    let passes = vec![
        [0.8, 0., 20.8, -0.8, 20.8, 5.],
        [0.8, 0., 28.8, 6., 28.8, 12.8],
    ];
    assert_eq!(proposed, Ok(Answer::Passes(passes)));
    let Ok(Answer::Checked(Verdict::Yes, cells, blocks, 2)) = verdict else {
        panic!("{verdict:?}")
    };
    for (i, cell) in cells.iter().enumerate() {
        let outer = match i {
            0..5 => [20., 20.],
            5 => [20., 30.],
            _ => [28., 28.],
        };
        assert_eq!(cell[..2], outer, "bin {i}");
        assert_eq!(cell[2..], [0., 0.]);
    }
    assert_eq!(blocks, [30., 0.]);
}

/// No nose makes a sharp step.
#[test]
fn without_the_loose_bin_the_bin_before_the_step_fails() {
    let (proposed, verdict) = checked(&example(false));
    assert!(matches!(&proposed, Ok(Answer::Passes(passes)) if passes.len() == 2));
    let Ok(Answer::Checked(Verdict::Bin(4), cells, blocks, 0)) = verdict else {
        panic!("{verdict:?}")
    };
    let (spec, old) = pass_bar();
    assert_eq!(cells.as_flattened(), old);
    assert_eq!(blocks, blocks_of(&spec, &old).unwrap());
}

/// P9 of 01 as passes: a nose and a thread, either order.
#[test]
fn a_nose_and_a_thread_in_either_order() {
    let spec = compare::call::Spec {
        z_min: 0.,
        z_max: 9.,
        outer: 10.,
        bore: 0.,
        cell: 3.,
        max_cells: 4096,
    };
    let line = (0, [5., 0., 9., 3., 9., 6.]);
    let thread = (1, [0., 9., 3., f64::NAN, f64::NAN, f64::NAN]);
    let cells = [10., 10., 0., 0.].repeat(3);
    for order in [[line, thread], [thread, line]] {
        let mut passes = Passes::default();
        for (kind, numbers) in order {
            passes.push(kind, numbers, &[]);
        }
        let call = Call::CheckPasses {
            spec,
            stamp: Stamp {
                edition: 2,
                generation: 7,
            },
            blocks: blocks_of(&spec, &cells).unwrap(),
            cells: cells.clone(),
            targets: [3., 5., 3., 4., 3., 5.].to_vec(),
            passes,
            after_len: 12,
            after_blocks_len: 2,
        };
        let outcome = answer(&call);
        let end = [[3., 5., 0., 0.], [3., 4., 0., 0.], [3., 5., 0., 0.]];
        let yes = Answer::Checked(Verdict::Yes, end.to_vec(), vec![5., 0.], 9);
        assert_eq!(outcome, Ok(yes));
        assert_eq!(difference(&call, &outcome), None);
    }
}

#[test]
fn no_order_matters() {
    let mut rng = Rng::new(5);
    for _ in 0..5000 {
        let call = check(&mut rng);
        let other = another_order(&mut rng, &call);
        assert!(
            same_in_any_order(&answer(&call), &answer(&other)),
            "{call:?}"
        );
    }
}

#[test]
fn no_check_and_no_proposal_differs() {
    assert_eq!(family(PASSES.0, 3000, 7), 0);
    assert_eq!(family(PROPOSALS.0, 3000, 7), 0);
}

/// Yes, each number of a cut and a bin are reached, each at the first place and further on; and of the targets every refusal.
#[test]
fn every_verdict_is_reached() {
    let mut rng = Rng::new(7);
    let mut seen = BTreeSet::new();
    let mut bins = BTreeSet::new();
    for _ in 0..20_000 {
        let call = check(&mut rng);
        let Ok(Answer::Checked(verdict, cells, ..)) = answer(&call) else {
            continue;
        };
        bins.insert(cells.len());
        seen.insert(match verdict {
            Verdict::Yes => (0, false),
            Verdict::Cut(k, number) => (number, k > 0),
            Verdict::Bin(i) => (1, i > 0),
        });
    }
    let places = [1, 5, 12, 13].map(|of| [(of, false), (of, true)]);
    let mut all = BTreeSet::from([(0, false)]);
    all.extend(places.as_flattened());
    assert_eq!(seen, all);
    assert!((1..=130).all(|n| bins.contains(&n)) && bins.contains(&4096));
}

/// The first calls that a wrong rule would answer otherwise, made small.
fn least(make: fn(&mut Rng) -> Call, differs: fn(&Call) -> bool) -> Vec<Call> {
    let mut rng = Rng::new(3);
    let calls = std::iter::repeat_with(|| make(&mut rng));
    let found = calls.filter(differs).take(4);
    found.map(|call| shrink(&call, differs)).collect()
}

/// A rule that leaves the last cut out: one cut on one bin shows it.
#[test]
fn a_cut_left_out_shrinks_to_one_cut() {
    fn differs(call: &Call) -> bool {
        let mut fewer = call.clone();
        let Call::CheckPasses { passes, .. } = &mut fewer else {
            return false;
        };
        passes.kinds.pop().is_some()
            && matches!(
                (answer(call), answer(&fewer)),
                (Ok(Answer::Checked(Verdict::Yes, a, ..)), Ok(Answer::Checked(_, b, ..))) if a != b
            )
    }
    for call in least(check, differs) {
        let Call::CheckPasses {
            cells,
            targets,
            passes,
            blocks,
            after_len,
            after_blocks_len,
            ..
        } = &call
        else {
            panic!()
        };
        assert_eq!((cells.len(), targets.len(), blocks.len()), (4, 2, 2));
        assert_eq!((*after_len, *after_blocks_len), (4, 2));
        assert_eq!(passes.kinds.len(), 1, "{call:?}");
    }
}

/// A bin that misses its target by an ulp stays one: one bin is left.
#[test]
fn a_bin_that_misses_shrinks_to_one_bin() {
    fn differs(call: &Call) -> bool {
        matches!(answer(call), Ok(Answer::Checked(Verdict::Bin(_), ..)))
    }
    for call in least(check, differs) {
        assert!(
            matches!(&call, Call::CheckPasses { cells, passes, .. } if cells.len() == 4 && passes.kinds.is_empty()),
            "{call:?}"
        );
    }
}

/// A proposal of two passes is one of few bins, each with its target.
#[test]
fn a_proposal_shrinks_to_its_runs() {
    fn differs(call: &Call) -> bool {
        matches!(answer(call), Ok(Answer::Passes(passes)) if passes.len() > 1)
    }
    for call in least(propose, differs) {
        assert!(
            matches!(&call, Call::ProposePasses { cells, targets, .. } if cells.len() < 48 && cells.len() == 2 * targets.len()),
            "{call:?}"
        );
    }
}
