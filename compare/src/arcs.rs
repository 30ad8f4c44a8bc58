//! How far the told sag of a chord is from the true one: arcs through the library, and their circles in numbers of twice
//! the digits. The sag is worked out in floats, so it is no strict bound; this says by how much.
use crate::generate::Rng;
use crate::library::c::turning_segments;
use crate::oracle::MILLION;
use std::ops::{Add, Div, Mul, Sub};

/// A number as the sum of two, the second below half an ulp of the first: some 32 digits.
#[derive(Clone, Copy)]
struct Wide(f64, f64);

impl From<f64> for Wide {
    fn from(x: f64) -> Self {
        Wide(x, 0.)
    }
}

/// The rounded sum and what it lost.
fn sum(a: f64, b: f64) -> Wide {
    let s = a + b;
    let t = s - a;
    Wide(s, (a - (s - t)) + (b - t))
}

/// The rounded product and what it lost.
fn product(a: f64, b: f64) -> Wide {
    let p = a * b;
    Wide(p, a.mul_add(b, -p))
}

impl Add for Wide {
    type Output = Self;
    fn add(self, other: Self) -> Self {
        let (s, t) = (sum(self.0, other.0), sum(self.1, other.1));
        let s = sum(s.0, s.1 + t.0);
        sum(s.0, s.1 + t.1)
    }
}

impl Sub for Wide {
    type Output = Self;
    fn sub(self, other: Self) -> Self {
        self + Wide(-other.0, -other.1)
    }
}

impl Mul for Wide {
    type Output = Self;
    fn mul(self, other: Self) -> Self {
        let p = product(self.0, other.0);
        sum(p.0, p.1 + (self.0 * other.1 + self.1 * other.0))
    }
}

impl Div for Wide {
    type Output = Self;
    fn div(self, other: Self) -> Self {
        let first = self.0 / other.0;
        let left = self - other * first.into();
        let second = left.0 / other.0;
        let third = (left - other * second.into()).0 / other.0;
        sum(first, second) + third.into()
    }
}

impl Wide {
    fn root(self) -> Self {
        if self.0 <= 0. {
            return 0_f64.into();
        }
        let guess = Wide::from(self.0.sqrt());
        let better = (guess + self / guess) / 2_f64.into();
        (better + self / better) / 2_f64.into()
    }
}

/// A place in (z, r).
type Place = [Wide; 2];

fn minus(p: Place, q: Place) -> Place {
    [p[0] - q[0], p[1] - q[1]]
}

fn times(p: Place, q: Place) -> Wide {
    p[0] * q[0] + p[1] * q[1]
}

fn long(p: Place) -> Wide {
    times(p, p).root()
}

/// An arc: its ends (r, z), its bulge, and the tolerance that it is chopped to.
#[derive(Clone, Copy, Debug)]
struct Arc {
    a: [f64; 2],
    b: [f64; 2],
    bulge: f64,
    tolerance: f64,
}

fn place(p: [f64; 2]) -> Place {
    [p[1].into(), p[0].into()]
}

impl Arc {
    /// Its chords by the library, where it is accepted.
    fn chords(&self) -> Vec<[f64; 5]> {
        let points = [self.a[0], self.a[1], self.bulge, self.b[0], self.b[1], 0.];
        let mut chords = vec![[0.; 5]; 1024];
        let mut count = 0;
        let flat = chords.as_flattened_mut();
        // SAFETY: each pointer is to as many numbers as are said.
        let number = unsafe {
            turning_segments(
                points.as_ptr(),
                6,
                self.tolerance,
                flat.as_mut_ptr(),
                flat.len(),
                &mut count,
            )
        };
        chords.truncate(if number == 0 { count } else { 0 });
        chords
    }

    /// The centre and the radius of its circle.
    fn circle(&self) -> (Place, Wide) {
        let (a, b, bulge) = (place(self.a), place(self.b), Wide::from(self.bulge));
        let d = minus(b, a);
        let f = (Wide::from(1.) - bulge * bulge) / (Wide::from(4.) * bulge);
        let half = |x: Wide, y: Wide| (x + y) / 2_f64.into();
        let centre = [half(a[0], b[0]) - f * d[1], half(a[1], b[1]) + f * d[0]];
        (centre, long(minus(a, centre)))
    }
}

/// What was seen of one kind of arcs.
#[derive(Default)]
struct Seen {
    arcs: usize,
    chords: usize,
    short: usize,
    most: f64,
    off: f64,
    worst: Option<Arc>,
}

impl Seen {
    fn take(&mut self, arc: Arc) {
        let chords = arc.chords();
        if chords.is_empty() {
            return;
        }
        let (centre, radius) = arc.circle();
        self.arcs += 1;
        let mut short = false;
        for c in chords {
            let (p, q) = (place([c[0], c[1]]), place([c[2], c[3]]));
            let d = minus(q, p);
            let size = long(d);
            for end in [p, q] {
                let off = long(minus(end, centre)) - radius;
                self.off = self.off.max((off.0 + off.1).abs());
            }
            if size.0 <= 0. {
                continue;
            }
            self.chords += 1;
            let side = Wide::from(arc.bulge.signum());
            let across = [side * d[1], Wide::from(0.) - side * d[0]];
            let stands = times(minus(centre, p), across) / size;
            let over = radius + stands - c[4].into();
            let over = over.0 + over.1;
            short |= over > 0.;
            if over > self.most {
                (self.most, self.worst) = (over, Some(arc));
            }
        }
        self.short += short as usize;
    }

    fn print(&self, name: &str) {
        println!("{name}: {} arcs, {} chords", self.arcs, self.chords);
        println!(
            "  told below the true distance in some chord: {} arcs, by {:e} at most",
            self.short, self.most
        );
        println!("  ends off the circle by {:e} at most", self.off);
        if let Some(arc) = self.worst {
            println!("  the worst: {arc:?}");
        }
    }
}

/// An arc between two places, of a bulge that is no line's.
fn arc(rng: &mut Rng, size: f64, far: f64) -> Arc {
    let mut end = || [rng.between(0., size), rng.between(-far, far)];
    let (a, b) = (end(), end());
    let bulge = rng.written(0.001, 1.) * rng.pick(&[1., -1.]);
    let half = (b[0] - a[0]).hypot(b[1] - a[1]) / 2.;
    let tolerance = rng.pick(&[0.5, 0.1, 0.01, 0.001, 0.0001]) * bulge.abs() * half;
    Arc {
        a,
        b,
        bulge,
        tolerance,
    }
}

/// Measures so many arcs of shop size, and as many of coordinates to a million.
pub fn arcs(count: usize, seed: u64) {
    for (name, size, far) in [("shop size", 50., 40.), ("to a million", MILLION, MILLION)] {
        let (mut rng, mut seen) = (Rng::new(seed), Seen::default());
        (0..count).for_each(|_| seen.take(arc(&mut rng, size, far)));
        seen.print(name);
    }
}
