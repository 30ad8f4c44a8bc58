//! Ranges by 02's words (Req 09), beside camlib's `envelope_at` and beside the way over kept numbers.
use compare::call::{Call, Reason, Spec};
use compare::generate::{Rng, family};
use compare::oracle::queries::{envelope_at, walk};
use compare::oracle::ranges::{BLOCK, bins, blocks, blocks_len, kept, range, renew};
use compare::oracle::stock::{Bar, bar, cells};

const CALLS: usize = 60_000;

/// Accepted stocks of the family `envelope_at`, each with two of its heights, which favour bins' ends.
fn made() -> impl Iterator<Item = (Spec, Vec<f64>, f64, f64)> {
    let (make, mut rng) = (family("envelope_at").expect("a family"), Rng::new(9));
    let mut before = f64::NEG_INFINITY;
    (0..CALLS).filter_map(move |_| {
        let Call::EnvelopeAt { spec, cells, z } = make(&mut rng) else {
            panic!("another call")
        };
        let last = std::mem::replace(&mut before, z);
        let other = match rng.below(4) {
            0 => last,
            1 => f64::INFINITY,
            2 => f64::NEG_INFINITY,
            _ => z + spec.cell * rng.below(200) as f64,
        };
        renew(&spec, &cells, blocks_len(bar(&spec).ok()?.n)).ok()?;
        Some((spec, cells, z, other))
    })
}

fn stock(spec: &Spec, lent: &[f64]) -> (Bar, Vec<[f64; 4]>, Vec<f64>) {
    let bar = bar(spec).unwrap();
    let cells = cells(&bar, lent).unwrap();
    let own = blocks(&bar, &cells);
    (bar, cells, own)
}

#[test]
fn a_range_of_one_height_is_what_is_seen_there() {
    let mut seen = 0;
    for (spec, lent, z, _) in made() {
        let (_, _, own) = stock(&spec, &lent);
        let found = range(&spec, &lent, &own, z, z);
        assert_eq!(found, envelope_at(&spec, &lent, z), "{spec:?} {z}");
        seen += found.unwrap().is_some() as usize;
    }
    assert!(seen > CALLS / 20, "{seen}");
}

/// Whole blocks by their numbers, the other bins by their cells.
#[test]
fn the_way_over_kept_numbers_is_the_walk() {
    let (mut asked, mut whole) = (0, 0);
    for (spec, lent, a, b) in made() {
        let (bar, cells, own) = stock(&spec, &lent);
        for (lo, hi) in [(a, b), (b, a), (f64::NEG_INFINITY, a), (a, f64::INFINITY)] {
            let Some((first, last)) = bins(&bar, &cells, lo, hi) else {
                assert_eq!(range(&spec, &lent, &own, lo, hi), Ok(None));
                continue;
            };
            let (front, behind) = (first.div_ceil(BLOCK), (last + 1) / BLOCK);
            let mut parts = vec![];
            if front < behind {
                parts.extend_from_slice(&cells[first..BLOCK * front]);
                parts.extend((front..behind).map(|j| [0., own[2 * j], own[2 * j + 1], 0.]));
                parts.extend_from_slice(&cells[BLOCK * behind..=last]);
                whole += 1;
            } else {
                parts.extend_from_slice(&cells[first..=last]);
            }
            let found = range(&spec, &lent, &own, lo, hi);
            assert_eq!(found, Ok(walk(parts.into_iter())), "{spec:?} {lo} {hi}");
            asked += 1;
        }
    }
    assert!(asked > CALLS / 4 && whole > CALLS / 200, "{asked} {whole}");
}

/// The rule asks both ends for the first and for the last: that they are the lower's and the higher's
/// is run, not proved.
#[test]
fn the_first_bin_is_the_lower_ends_and_the_last_the_higher_ends() {
    let mut asked = 0;
    for (spec, lent, a, b) in made() {
        let (bar, cells, _) = stock(&spec, &lent);
        let (lo, hi) = (a.min(b), a.max(b));
        if let Some((first, last)) = bins(&bar, &cells, lo, hi) {
            let lo = lo.max(bar.spec.z_min);
            let hi = hi.min(bar.spec.z_max);
            assert_eq!(
                bins(&bar, &cells, lo, lo).unwrap().0,
                first,
                "{spec:?} {lo} {hi}"
            );
            assert_eq!(
                bins(&bar, &cells, hi, hi).unwrap().1,
                last,
                "{spec:?} {lo} {hi}"
            );
            asked += 1;
        }
    }
    assert!(asked > CALLS / 20, "{asked}");
}

#[test]
fn all_heights_are_all_bins() {
    for (spec, lent, _, _) in made() {
        let (_, cells, own) = stock(&spec, &lent);
        let found = range(&spec, &lent, &own, f64::NEG_INFINITY, f64::INFINITY);
        assert_eq!(found, Ok(walk(cells.into_iter())));
    }
}

#[test]
fn reversed_and_outside_and_no_number_answer_nothing() {
    let (spec, lent, ..) = made().next().unwrap();
    let (bar, _, own) = stock(&spec, &lent);
    let (a, b) = (bar.spec.z_min, bar.spec.z_max);
    let middle = a + (b - a) / 2.;
    for (lo, hi) in [
        (b, a),
        (middle, a),
        (b.next_up(), f64::INFINITY),
        (f64::NEG_INFINITY, a.next_down()),
        (f64::INFINITY, f64::INFINITY),
        (f64::NEG_INFINITY, f64::NEG_INFINITY),
        (f64::NAN, b),
        (a, f64::NAN),
        (f64::INFINITY, f64::NEG_INFINITY),
    ] {
        assert_eq!(range(&spec, &lent, &own, lo, hi), Ok(None), "{lo} {hi}");
    }
}

#[test]
fn damaged_numbers_are_20_and_a_negative_zero_is_none() {
    let (mut refused, mut zeros) = (0, 0);
    for (n, (spec, lent, a, b)) in made().enumerate() {
        let (bar, cells, own) = stock(&spec, &lent);
        let i = n % own.len();
        let mut damaged = vec![own.clone(); 8];
        damaged[0][i] = own[i].next_up();
        damaged[1][i] = own[i].next_down();
        damaged[2].swap(i, i ^ 1);
        damaged[3].truncate(own.len() - 2);
        damaged[4].extend([bar.spec.bore, bar.spec.outer]);
        damaged[5][i] = f64::NAN;
        damaged[6][i] = f64::INFINITY;
        damaged[7].pop();
        for lent_blocks in &damaged {
            assert_eq!(
                range(&spec, &lent, lent_blocks, a, b),
                Err(Reason::only(20))
            );
            refused += 1;
        }
        let signed: Vec<f64> = own
            .iter()
            .map(|x| if *x == 0. { -0. } else { *x })
            .collect();
        assert_eq!(kept(&bar, &cells, &signed), Ok(()));
        zeros += signed.iter().filter(|x| x.to_bits() == 1 << 63).count();
    }
    assert!(refused > CALLS && zeros > 100, "{refused} {zeros}");
}
