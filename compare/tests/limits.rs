//! Each call at a limit of document 01 answers the number that 01 gives, and the position that 02
//! gives, by the oracle and by the library.
use compare::call::{Answer, Call, Reason};
use compare::limits::{all_bins, calls, checks, corners, edges, profiles, proposals, ranges};
use compare::oracle::{answer, full_look};
use compare::run::{difference, number};

#[test]
fn limits_are_where_01_has_them() {
    for (call, expected) in calls() {
        let outcome = answer(&call);
        assert_eq!(outcome.as_ref().err(), expected.as_ref(), "{}", call.name());
        if let Some(text) = difference(&call, &outcome) {
            panic!("{text}");
        }
    }
}

/// So do calls that change every bin of a long bar.
#[test]
fn all_bins_of_a_long_bar() {
    for (call, expected) in all_bins() {
        let outcome = answer(&call);
        assert_eq!(number(&outcome), expected, "{}", call.name());
        if let Some(text) = difference(&call, &outcome) {
            panic!("{text}");
        }
    }
}

/// An envelope's corners have the radii that 001's text gives, by both oracles.
#[test]
fn corners_have_their_radii() {
    for (name, call, expected) in corners() {
        assert_eq!(answer(&call), expected, "{name}");
        assert_eq!(full_look(&call), Some(expected), "{name}");
    }
}

/// The most points have the order that they are made in, and a radius at the query.
#[test]
fn the_most_points_have_an_order_and_a_radius() {
    let orders = calls().into_iter().filter_map(|(call, _)| match call {
        Call::EnvelopeOrder { .. } => answer(&call).ok(),
        _ => None,
    });
    let orders: Vec<Answer> = orders.collect();
    assert_eq!(orders, [1, -1, 0].map(Answer::Order));
    for (call, _) in calls() {
        if let Call::RadiusAt { points, u: 100.3 } = &call
            && points.len() == 2048
        {
            assert!(matches!(answer(&call), Ok(Answer::Found(Some(_)))));
        }
    }
}

/// On the edge between two bins both are looked at, and no bin beyond the next.
#[test]
fn edges_show_the_most_of_their_bins() {
    let shown = |name: &str| -> Vec<Option<Vec<f64>>> {
        let named = edges().into_iter().filter(|(n, ..)| *n == name);
        let answers = named.map(|(_, call, _)| answer(&call));
        let found = answers.map(|a| match a {
            Ok(Answer::Found(found)) => found,
            other => panic!("{name}: {other:?}"),
        });
        found.collect()
    };
    let band = |bore: f64, outer: f64| Some(vec![bore, outer]);
    assert_eq!(
        shown("both bins of an edge"),
        [band(0., 2.), band(0.125, 3.)]
    );
    assert_eq!(shown("one ulp beside it"), [band(0.125, 2.), band(0., 1.)]);
    assert_eq!(
        shown("the ends of the bar"),
        [band(0., 1.), band(0., 1.), band(0.25, 3.)]
    );
    assert_eq!(shown("one ulp outside"), [None, None]);
    assert_eq!(
        shown("a neighbour without material"),
        [band(0., 5.), band(0., 7.), None]
    );
    assert_eq!(shown("no material anywhere"), [None, None]);
    assert_eq!(
        shown("bore and outer of two bins"),
        [band(1., 5.), band(0., 7.)]
    );
    assert_eq!(shown("a bin of z that does not hold it"), [band(0., 2.)]);
    assert_eq!(shown("an empty last bin")[0], band(0.25, 4.));
    assert_eq!(shown("a last bin turned about")[0], band(0.25, 4.));
    assert_eq!(shown("bins below an ulp")[0], band(0., 2.));
}

/// A range ends with the last bin that holds its upper end, and begins with the first that holds its lower one.
#[test]
fn ranges_show_the_most_of_their_bins() {
    let band = |bore: f64, outer: f64| Some(vec![bore, outer]);
    let mut seen = 0;
    for (name, call, number) in ranges() {
        let outcome = answer(&call);
        assert_eq!(
            outcome.as_ref().err().map_or(0, |r| r.number),
            number,
            "{name}"
        );
        let (Ok(Answer::Found(found)), Call::Range { cells, lo, .. }) = (outcome, &call) else {
            continue;
        };
        let most = (cells.as_chunks::<4>().0.iter()).position(|c| c[1] == 9.);
        match name {
            "the whole bar" | "the first edge" | "the last edge" => {
                assert_eq!(found, band(0., 10.), "{name}");
            }
            "all heights" => assert_eq!(found, band(1., 8.), "{name}"),
            "up to it" | "from it on" | "it alone" | "one height of it" => {
                assert_eq!(found, band(0.5, 9.), "{name} {most:?} {lo}");
                seen += 1;
            }
            "up to below it" | "from above it on" => {
                assert!(found.is_none() || found == band(1., 8.), "{name} {most:?}");
            }
            _ => assert_eq!(found, None, "{name}"),
        }
    }
    assert!(seen > 100);
}

/// Checks have the verdicts that Req 13 of 02 gives, and proposals as many passes.
#[test]
fn passes_have_their_verdicts() {
    for (name, call, expected) in checks() {
        let found = match answer(&call) {
            Ok(Answer::Checked(verdict, ..)) => Ok(verdict),
            Err(Reason { number, .. }) => Err(number),
            other => panic!("{name}: {other:?}"),
        };
        assert_eq!(found, expected, "{name}");
    }
    for (name, call, expected) in proposals() {
        let found = match answer(&call) {
            Ok(Answer::Passes(passes)) => Ok(passes.len()),
            Err(Reason { number, .. }) => Err(number),
            other => panic!("{name}: {other:?}"),
        };
        assert_eq!(found, expected, "{name}");
    }
}

/// The corners of a profile have the chords, or the refusal, that 02 gives; chords join by equal bits and have no -0.0.
#[test]
fn profiles_have_their_chords() {
    for (name, call, expected) in profiles() {
        let found = match answer(&call) {
            Ok(Answer::Chords(chords)) => {
                let bits = |x: [f64; 2]| x.map(f64::to_bits);
                for w in chords.windows(2) {
                    assert_eq!(bits([w[0][2], w[0][3]]), bits([w[1][0], w[1][1]]), "{name}");
                }
                let minus = (-0_f64).to_bits();
                let unsigned = chords.as_flattened().iter().all(|x| x.to_bits() != minus);
                assert!(unsigned, "{name}");
                Ok(chords.len())
            }
            Err(Reason { number, .. }) => Err(number),
            other => panic!("{name}: {other:?}"),
        };
        assert_eq!(found, expected, "{name}");
    }
}

/// Two of the sixteen chords have both ends at one place.
#[test]
fn a_chord_may_be_a_point() {
    let named = profiles()
        .into_iter()
        .find(|(n, ..)| *n == "chords that are points");
    let Ok(Answer::Chords(chords)) = answer(&named.unwrap().1) else {
        panic!()
    };
    let dots = chords.iter().filter(|c| c[..2] == c[2..4]).count();
    assert_eq!(dots, 2);
}
