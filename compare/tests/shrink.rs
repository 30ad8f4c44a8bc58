//! A call that fails is made small.
use compare::call::{Answer, Call};
use compare::generate::{Rng, blocks, cuts, envelope, rings};
use compare::oracle::ranges::blocks_len;
use compare::oracle::{answer, full_look};
use compare::shrink::shrink;

/// The first calls that fail, made small.
fn least(make: fn(&mut Rng) -> Call, fails: fn(&Call) -> bool) -> Vec<Call> {
    let mut rng = Rng::new(3);
    let calls = std::iter::repeat_with(|| make(&mut rng));
    let found = calls.filter(fails).take(5);
    found.map(|call| shrink(&call, fails)).collect()
}

/// A sag over the nose radius that cuts: one segment on one bin, all numbers whole.
#[test]
fn a_nose_shrinks_to_one_segment() {
    let fails = |call: &Call| match call {
        Call::Preview { rn, segments, .. } => {
            let sags = segments.as_chunks::<5>().0.iter().map(|s| s[4]);
            let cuts = matches!(answer(call), Ok(Answer::Changes(list, _)) if !list.is_empty());
            sags.into_iter().any(|sag| sag > *rn) && cuts
        }
        _ => false,
    };
    for call in least(cuts::nose, fails) {
        let Call::Preview {
            cells, segments, ..
        } = &call
        else {
            panic!()
        };
        assert_eq!((cells.len(), segments.len()), (4, 5), "{call:?}");
        let mut numbers = cells.iter().chain(segments);
        assert!(numbers.all(|x| x.fract() == 0.), "{call:?}");
    }
}

/// A ring that is stored in two pieces or more: one stored ring is enough.
#[test]
fn a_store_shrinks_to_one_ring() {
    let fails = |call: &Call| match (call, answer(call)) {
        (Call::RemoveRing { store, .. }, Ok(Answer::Stock(_, _, rings, _, _))) => {
            rings.len() > store.count + 1
        }
        _ => false,
    };
    for call in least(rings::remove_ring, fails) {
        assert!(
            matches!(&call, Call::RemoveRing { store, generation: 0, .. } if store.count == 1),
            "{call:?}"
        );
    }
}

/// A look at the part alone, not one point wider: two points and a u between them.
#[test]
fn a_part_not_widened_shrinks_to_one_segment() {
    let fails = |call: &Call| match call {
        Call::RadiusAt { points, u } => {
            let (points, u) = (points.clone(), *u);
            let (lo, hi) = (u, u);
            let within = Call::Within {
                points: points.clone(),
                lo,
                hi,
            };
            let Ok(Answer::Part(first, count)) = answer(&within) else {
                return false;
            };
            let part = points[2 * first..2 * (first + count)].to_vec();
            let narrow = full_look(&Call::RadiusAt { points: part, u });
            narrow != full_look(call)
        }
        _ => false,
    };
    for call in least(envelope::envelope_call, fails) {
        assert!(
            matches!(&call, Call::RadiusAt { points, .. } if points.len() == 4),
            "{call:?}"
        );
    }
}

/// A range with material over two bins or more: two bins are left, and the kept numbers are still theirs.
#[test]
fn kept_numbers_follow_a_smaller_bar() {
    let fails = |call: &Call| match call {
        Call::Range { cells, .. } if (5..4 * 200).contains(&cells.len()) => {
            matches!(answer(call), Ok(Answer::Found(Some(_))))
        }
        _ => false,
    };
    for call in least(blocks::range, fails) {
        assert!(
            matches!(&call, Call::Range { cells, blocks, .. } if cells.len() == 8 && blocks.len() == 2),
            "{call:?}"
        );
    }
}

/// Kept numbers of the right count that are refused: one bin and its block.
#[test]
fn damaged_numbers_stay_damaged() {
    let fails = |call: &Call| {
        let Call::Range { cells, blocks, .. } = call else {
            return false;
        };
        let bins = cells.len() / 4;
        let counted = bins < 200 && blocks.len() == blocks_len(bins);
        counted && matches!(answer(call), Err(reason) if reason.number == 20)
    };
    for call in least(blocks::range, fails) {
        assert!(
            matches!(&call, Call::Range { cells, blocks, .. } if cells.len() == 4 && blocks.len() == 2),
            "{call:?}"
        );
    }
}
