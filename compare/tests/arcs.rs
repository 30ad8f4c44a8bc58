//! Chords of arcs go to the nose: cells beside camlib's own arc preview, chords split over two cuts, and what a nose refuses.
use compare::call::{Answer, Call, Outcome, Reason, Room, Spec, Stamp};
use compare::generate::{Rng, family};
use compare::oracle::numbers::length;
use compare::oracle::stock::{bar, camlib_stock, fresh};
use compare::oracle::{answer, profile};
use compare::run::difference;
use plain::motion::{Curve, Plane};
use plain::turning::profile::{Seg, TurnProfile};
use plain::turning::stock::TurnSide;

const N: usize = 200;
const BAR: Spec = Spec {
    z_min: 0.,
    z_max: 50.,
    outer: 40.,
    bore: 0.,
    cell: 0.25,
    max_cells: 4096,
};

/// What the library does; it must be what the oracle says.
fn here(call: Call) -> Outcome {
    let outcome = answer(&call);
    if let Some(text) = difference(&call, &outcome) {
        panic!("{text}");
    }
    outcome
}

fn chords(points: &[[f64; 3]], tolerance: f64) -> Vec<[f64; 5]> {
    let call = Call::Segments {
        points: points.as_flattened().to_vec(),
        tolerance,
        segments_len: 5 * 4097,
    };
    match here(call) {
        Ok(Answer::Chords(chords)) => chords,
        other => panic!("{other:?}"),
    }
}

/// The cells after a nose along the chords, by preview and commit.
fn cut(cells: &[[f64; 4]], rn: f64, chords: &[[f64; 5]]) -> Vec<[f64; 4]> {
    let call = Call::Preview {
        spec: BAR,
        stamp: Stamp::default(),
        cells: cells.as_flattened().to_vec(),
        side: 0,
        rn,
        segments: chords.as_flattened().to_vec(),
        room: Room {
            indices: N,
            records: 8 * N,
        },
    };
    let Ok(Answer::Changes(changes, _)) = here(call) else {
        panic!()
    };
    let mut cells = cells.to_vec();
    for change in changes {
        cells[change.index] = change.after;
    }
    cells
}

fn arc(rng: &mut Rng) -> ([[f64; 3]; 2], f64, f64) {
    let a = [rng.between(10., 40.), rng.between(0., 50.), 0.];
    let b = [rng.between(10., 40.), rng.between(0., 50.), 0.];
    let bulge = rng.between(0.05, 1.) * rng.pick(&[1., -1.]);
    let a = [a[0], a[1], bulge];
    ([a, b], rng.between(0.1, 3.), rng.pick(&[0.1, 0.02, 0.005]))
}

/// An arc from its first to its last angle about a centre in (z, r).
struct Circle {
    c: [f64; 2],
    radius: f64,
    from: f64,
    sweep: f64,
    ends: [[f64; 2]; 2],
}

impl Circle {
    /// How far p is from the arc.
    fn distance(&self, p: [f64; 2]) -> f64 {
        let [dz, dr] = [p[0] - self.c[0], p[1] - self.c[1]];
        let turned = (dr.atan2(dz) - self.from) * self.sweep.signum();
        let on = turned.rem_euclid(std::f64::consts::TAU) <= self.sweep.abs();
        let across = |e: &[f64; 2]| (p[0] - e[0]).hypot(p[1] - e[1]);
        let ends = self.ends.iter().map(across).fold(f64::INFINITY, f64::min);
        if on {
            ends.min((dz.hypot(dr) - self.radius).abs())
        } else {
            ends
        }
    }

    /// The lowest radius at z that a nose along the arc covers. It lies on the circle about an end, or beside the arc.
    fn lowest(&self, z: f64, rn: f64) -> Option<f64> {
        let mut found = vec![];
        for e in self.ends {
            found.push(e[1] - (rn * rn - (z - e[0]).powi(2)).sqrt());
        }
        for beside in [self.radius + rn, self.radius - rn] {
            let h = (beside * beside - (z - self.c[0]).powi(2)).sqrt();
            found.extend([self.c[1] - h, self.c[1] + h]);
        }
        let covered = |r: &f64| r.is_finite() && self.distance([z, *r]) <= rn + 1e-9;
        found.into_iter().filter(covered).reduce(f64::min)
    }
}

/// Of each bin the bounds hold the exact sweep.
fn holds(cells: &[[f64; 4]], circle: &Circle, rn: f64, who: &str) {
    for (i, cell) in cells.iter().enumerate() {
        for k in 0..=32 {
            let z = BAR.cell * (i as f64 + k as f64 / 32.);
            let at = circle
                .lowest(z, rn)
                .unwrap_or(BAR.outer)
                .min(BAR.outer)
                .max(0.);
            assert!(
                cell[0] <= at + 1e-9 && at - 1e-9 <= cell[1],
                "{who}: bin {i} {cell:?} at z {z}: {at}"
            );
        }
    }
}

/// Of a bin's outer bounds both hold the exact sweep, so a radius lies within both.
#[test]
fn cells_agree_with_camlibs_arc() {
    let mut rng = Rng::new(7);
    let stock = bar(&BAR).unwrap();
    for _ in 0..300 {
        let (points, rn, tolerance) = arc(&mut rng);
        let Seg::Arc { c, sweep, .. } = TurnProfile {
            points: points.to_vec(),
        }
        .segments()
        .unwrap()[0] else {
            panic!()
        };
        let at = |p: [f64; 3]| [p[0], 0., p[1]];
        let curve = Curve::Arc {
            start: at(points[0]),
            end: at(points[1]),
            center: [c[1], 0., c[0]],
            plane: Plane::Xz,
            sweep_rad: sweep,
        };
        let mut theirs = fresh(&stock);
        let camlib = camlib_stock(&stock, &theirs, &[]);
        for change in camlib
            .preview(&curve, rn, TurnSide::Outer, tolerance)
            .unwrap()
        {
            theirs[change.index][0] = change.after.outer.lower_mm;
            theirs[change.index][1] = change.after.outer.upper_mm;
        }
        let ours = cut(&fresh(&stock), rn, &chords(&points, tolerance));
        let ends = points.map(|p| [p[1], p[0]]);
        let [dz, dr] = [ends[0][0] - c[0], ends[0][1] - c[1]];
        let circle = Circle {
            c,
            radius: dz.hypot(dr),
            from: dr.atan2(dz),
            sweep,
            ends,
        };
        holds(&ours, &circle, rn, "here");
        holds(&theirs, &circle, rn, "camlib");
        for (i, (a, b)) in ours.iter().zip(&theirs).enumerate() {
            let (lower, upper) = (a[0].max(b[0]), a[1].min(b[1]));
            assert!(
                lower <= upper + 1e-9,
                "bin {i} of {points:?}, rn {rn}: {a:?} {b:?}"
            );
        }
    }
}

/// Chords may be cut as several noses: the cells are those of one.
#[test]
fn chords_split_over_two_cuts() {
    let mut rng = Rng::new(8);
    let stock = bar(&BAR).unwrap();
    for _ in 0..300 {
        let (points, rn, tolerance) = arc(&mut rng);
        let chords = chords(&points, tolerance);
        let at = rng.below(chords.len() + 1);
        let whole = cut(&fresh(&stock), rn, &chords);
        let parts = cut(&cut(&fresh(&stock), rn, &chords[..at]), rn, &chords[at..]);
        assert_eq!(
            whole, parts,
            "{points:?}, rn {rn}, tolerance {tolerance}, split at {at}"
        );
    }
}

/// An arc that passes a million has chords, and a nose refuses them.
#[test]
fn chords_past_a_million() {
    let chords = chords(&[[1e6, 0., -1.], [1e6, 2., 0.]], 0.5);
    assert_eq!(chords[0][2], 1000001.);
    let call = Call::Preview {
        spec: BAR,
        stamp: Stamp::default(),
        cells: fresh(&bar(&BAR).unwrap()).as_flattened().to_vec(),
        side: 0,
        rn: 1.,
        segments: chords.as_flattened().to_vec(),
        room: Room {
            indices: N,
            records: 8 * N,
        },
    };
    assert_eq!(here(call), Err(Reason::only(5)));
}

/// camlib's `segments` accepts exactly where 17 does not refuse, but for what DIFFERENCES lists: over 256 points, a bulge over 1,
/// that of the last point too, and a distance at which `hypot` and the length differ.
#[test]
fn accepts_where_camlib_does() {
    let (make, mut rng) = (family("profile").expect("a family"), Rng::new(26));
    let (mut both, mut neither, mut listed) = (0, 0, 0);
    for _ in 0..200_000 {
        let Call::Segments { points, .. } = make(&mut rng) else {
            panic!()
        };
        let (whole, rest) = points.as_chunks::<3>();
        if !rest.is_empty() {
            continue;
        }
        let theirs = TurnProfile {
            points: whole.to_vec(),
        }
        .segments()
        .is_ok();
        let ours = profile::points(&points, 0.1).is_ok();
        let apart = |w: &[[f64; 3]]| {
            let [dz, dr] = [w[1][1] - w[0][1], w[1][0] - w[0][0]];
            (dz.hypot(dr) > 1e-9) == length(dz, dr).is_ok_and(|l| l > 1e-9)
        };
        let named = whole.len() > 256
            || whole.iter().any(|p| p[2].abs() > 1.)
            || !whole.windows(2).all(apart);
        if named {
            listed += 1;
        } else {
            assert_eq!(ours, theirs, "{points:?}");
            both += usize::from(ours);
            neither += usize::from(!ours);
        }
    }
    assert!(
        both > 10_000 && neither > 1_000 && listed > 100,
        "{both} {neither} {listed}"
    );
    println!("{both} accepted by both, {neither} by neither, {listed} that differences name");
}

/// More than 4,096 chords: accepted into a larger room, refused by one nose, and cut by two.
#[test]
fn more_chords_than_a_nose_takes() {
    let points: Vec<f64> = (0..6).flat_map(|k| [20., 2. * f64::from(k), 1.]).collect();
    let call = Call::Segments {
        points,
        tolerance: 1.2e-6,
        segments_len: 5 * 6000,
    };
    let Ok(Answer::Chords(chords)) = here(call) else {
        panic!()
    };
    assert_eq!(chords.len(), 5 * 1024);
    let call = Call::Preview {
        spec: BAR,
        stamp: Stamp::default(),
        cells: fresh(&bar(&BAR).unwrap()).as_flattened().to_vec(),
        side: 0,
        rn: 1.,
        segments: chords.as_flattened().to_vec(),
        room: Room {
            indices: N,
            records: 8 * N,
        },
    };
    assert_eq!(here(call), Err(Reason::only(5)));
    let cells = cut(&fresh(&bar(&BAR).unwrap()), 1., &chords[..4096]);
    cut(&cells, 1., &chords[4096..]);
}
