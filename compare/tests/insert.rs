//! Inserts: every number that is answered is finite and not -0.0, a polygon's points may be rotated, and all points may stand in
//! the place of a part.
use compare::call::{Answer, Call, Outcome};
use compare::generate::{Rng, family};
use compare::oracle::answer;
use compare::run::difference;

const CALLS: usize = 200_000;

/// What the library does; it must be what the oracle says.
fn here(call: &Call) -> Outcome {
    let outcome = answer(call);
    if let Some(text) = difference(call, &outcome) {
        panic!("{text}");
    }
    outcome
}

fn made() -> impl Iterator<Item = Call> {
    let (make, mut rng) = (family("insert").expect("a family"), Rng::new(29));
    (0..CALLS).map(move |_| make(&mut rng))
}

#[test]
fn answers_are_finite_and_have_no_negative_zero() {
    let mut numbers = 0;
    for call in made() {
        if let Ok(Answer::Found(Some(found))) = here(&call) {
            for x in found {
                assert!(x.is_finite() && x.to_bits() != 1 << 63, "{call:?}: {x}");
                numbers += 1;
            }
        }
    }
    assert!(numbers > CALLS / 4, "{numbers}");
}

/// The same edges in another order.
#[test]
fn a_polygon_may_be_rotated() {
    let mut rotated = 0;
    for call in made() {
        let mut other = call.clone();
        let polygon = match &mut other {
            Call::Excess { polygon, .. } | Call::Penetration { polygon, .. } => polygon,
            _ => continue,
        };
        if polygon.len() < 4 || polygon.len() % 2 == 1 {
            continue;
        }
        let by = 1 + rotated % (polygon.len() / 2 - 1);
        polygon.rotate_left(2 * by);
        rotated += 1;
        assert_eq!(here(&call), here(&other), "{call:?}");
    }
    assert!(rotated > CALLS / 4, "{rotated}");
}

type Points = Vec<[f64; 2]>;

fn list(numbers: &[f64]) -> Points {
    let clean = |p: &[f64; 2]| p.map(|x| if x == 0. { 0. } else { x });
    numbers.as_chunks::<2>().0.iter().map(clean).collect()
}

fn between(p: [f64; 2], q: [f64; 2], u: f64, upright: fn(f64, f64) -> f64) -> Option<f64> {
    if u < p[0].min(q[0]) || u > p[0].max(q[0]) {
        None
    } else if p[0] == q[0] {
        Some(upright(p[1], q[1]))
    } else {
        Some(p[1] + (u - p[0]) / (q[0] - p[0]) * (q[1] - p[1]))
    }
}

/// The highest radius over all segments.
fn radius(points: &Points, u: f64) -> Option<f64> {
    let each = points
        .windows(2)
        .filter_map(|w| between(w[0], w[1], u, f64::max));
    each.reduce(f64::max)
}

fn bore(points: &Points, u: f64) -> Option<f64> {
    let us = || points.iter().map(|p| p[0]);
    if u > us().reduce(f64::max)? {
        None
    } else if u < us().reduce(f64::min)? {
        Some(0.)
    } else {
        Some(radius(points, u).unwrap_or(0.))
    }
}

/// The samples over all points.
fn sampled(
    points: &Points,
    u: f64,
    t: f64,
    of: impl Fn(f64) -> Option<f64>,
    pick: fn(f64, f64) -> f64,
) -> Option<f64> {
    let (lo, hi) = (u - t, u + t);
    let inside = points.iter().map(|p| p[0]).filter(|u| lo < *u && *u < hi);
    let mut found = of(lo)?;
    for x in [hi].into_iter().chain(inside) {
        found = pick(found, of(x)?);
    }
    Some(found)
}

fn edges(polygon: &Points, u: f64, pick: fn(f64, f64) -> f64) -> Option<f64> {
    let n = polygon.len();
    let each = (0..n).filter_map(|i| between(polygon[i], polygon[(i + 1) % n], u, pick));
    each.reduce(pick)
}

/// Excess or penetration with every point a candidate and a sample.
fn full(points: &Points, polygon: &Points, t: f64, excess: bool) -> Option<f64> {
    let us = || polygon.iter().map(|p| p[0]);
    let (lo, hi) = (us().reduce(f64::min)?, us().reduce(f64::max)?);
    let three = points.iter().flat_map(|p| [p[0] - t, p[0], p[0] + t]);
    let over = three.chain(us()).filter(|u| lo <= *u && *u <= hi);
    let at = |u: f64| {
        if excess {
            let dilated = sampled(points, u, t, |x| bore(points, x), f64::max)? + t;
            Some(edges(polygon, u, f64::max)? - dilated)
        } else {
            let eroded = sampled(points, u, t, |x| radius(points, x), f64::min)? - t;
            let lowest = edges(polygon, u, f64::min)?;
            (eroded > 0.).then_some(eroded - lowest)
        }
    };
    over.filter_map(at).reduce(f64::max)
}

/// What a part leaves out adds nothing: neither a candidate nor a sample.
#[test]
fn all_points_in_the_place_of_a_part() {
    let mut tried = 0;
    for call in made() {
        let (points, polygon, t, excess) = match &call {
            Call::Excess {
                points,
                polygon,
                tolerance,
            } => (points, polygon, tolerance, true),
            Call::Penetration {
                points,
                polygon,
                tolerance,
            } => (points, polygon, tolerance, false),
            _ => continue,
        };
        if points.len() > 48 {
            continue;
        }
        if let Ok(Answer::Found(found)) = here(&call) {
            let t = if *t == 0. { 0. } else { *t };
            let all = full(&list(points), &list(polygon), t, excess);
            assert_eq!(found.map(|x| x[0]), all, "{call:?}");
            tried += 1;
        }
    }
    assert!(tried > CALLS / 10, "{tried}");
    println!("{tried} calls");
}

/// How long a call takes on 1,024 points in no order; `cargo test --release --test insert -- --ignored --nocapture` prints it.
#[test]
#[ignore]
fn points_in_no_order() {
    let points: Points = (0..1024)
        .map(|i| [f64::from(i * 389 % 1024), 10. + f64::from(i % 7)])
        .collect();
    let polygon = [[0., 9.], [1023., 9.], [1023., 12.], [0., 12.]];
    let envelope = plain::turning::profile::Envelope::new(points.clone());
    for tolerance in [0.05, 5., 300.] {
        let start = std::time::Instant::now();
        let theirs = envelope.penetration(&polygon, tolerance);
        let rust = start.elapsed();
        let call = Call::Penetration {
            points: points.as_flattened().to_vec(),
            polygon: polygon.as_flattened().to_vec(),
            tolerance,
        };
        let mut memory = compare::memory::Memory::of(&call);
        let start = std::time::Instant::now();
        let number = compare::library::run(&call, &mut memory);
        let here = start.elapsed();
        println!("t {tolerance}: {rust:?} and {here:?}: {theirs}, {number}");
    }
}
