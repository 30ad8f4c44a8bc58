//! Chords of arcs against their exact circles, and volumes against exact sums.
use super::draw::Draw;
use super::judge::{Exact, Report};
use super::lent::{self, Cut};
use super::number::{Long, ZERO};
use super::shape::{Place, place};
use super::sweep::Sweep;
use crate::oracle::stock::Bar;

/// pi, its first 100 decimals.
const PI: &str = "1415926535897932384626433832795028841971693993751058209749445923078164062862089986280348253421170679";

pub fn pi() -> Long {
    Long::from_digits(3., PI)
}

/// What was seen of arcs at one size.
#[derive(Default)]
pub struct Arcs {
    pub arcs: usize,
    pub chords: usize,
    /// Chords whose told sag is below the true distance, by how much at most, and of which arc.
    pub short: usize,
    pub most: Long2,
    /// How far a chord's end lies off the circle at most.
    pub off: Long2,
}

type Long2 = Option<(Long, String)>;

fn raise(most: &mut Long2, by: Long, told: impl Fn() -> String) {
    if by.is_positive() && most.as_ref().is_none_or(|(m, _)| *m < by) {
        *most = Some((by, told()));
    }
}

/// The centre and the radius of the circle of an arc from a to b.
pub fn circle(a: Place, b: Place, bulge: Long) -> (Place, Long) {
    let (two, four) = (Long::from(2.), Long::from(4.));
    let f = (Long::from(1.) - bulge * bulge) / (four * bulge);
    let centre = Place {
        r: (a.r + b.r) / two + f * (b.z - a.z),
        z: (a.z + b.z) / two - f * (b.r - a.r),
    };
    (centre, distance(a, centre))
}

fn distance(a: Place, b: Place) -> Long {
    ((a.r - b.r) * (a.r - b.r) + (a.z - b.z) * (a.z - b.z)).root()
}

/// How far an arc about a centre leaves the chord from p to q at most, on the side that its bulge has.
pub fn strays(p: Place, q: Place, bulge: f64, centre: Place, radius: Long) -> Option<Long> {
    let size = distance(p, q);
    if size.is_zero() {
        return None;
    }
    let (dz, dr) = (q.z - p.z, q.r - p.r);
    let across = (centre.z - p.z) * dr - (centre.r - p.r) * dz;
    let stands = if bulge < 0. { -across } else { across } / size;
    Some(radius + stands)
}

impl Arcs {
    pub fn take(&mut self, draw: &mut Draw) {
        let (outer, far) = (draw.size.outer, draw.size.far);
        let a = [draw.number(0., outer), draw.number(-far, far)];
        let b = [draw.number(0., outer), draw.number(-far, far)];
        let bulge = (draw.rng.between(0.001, 1.) * 1e6).round() / 1e6 * draw.rng.pick(&[1., -1.]);
        let half = (b[0] - a[0]).hypot(b[1] - a[1]) / 2.;
        let part = draw.rng.pick(&[0.5, 0.1, 0.01, 0.001]) * bulge.abs() * half;
        let tolerance = if draw.size.whole {
            draw.snap(part).max(0.001)
        } else {
            part
        };
        let chords = lent::chords([a[0], a[1], bulge], b, tolerance);
        if chords.is_empty() {
            return;
        }
        self.arcs += 1;
        let told = || format!("{a:?} to {b:?}, bulge {bulge:?}, tolerance {tolerance:?}");
        let (centre, radius) = circle(place(a[0], a[1]), place(b[0], b[1]), bulge.into());
        for c in chords {
            let (p, q) = (place(c[0], c[1]), place(c[2], c[3]));
            for end in [p, q] {
                raise(&mut self.off, (distance(end, centre) - radius).abs(), told);
            }
            let Some(strays) = strays(p, q, bulge, centre, radius) else {
                continue;
            };
            self.chords += 1;
            let over = strays - c[4].into();
            self.short += over.is_positive() as usize;
            raise(&mut self.most, over, told);
        }
    }
}

/// One more nose along the chords of an arc, judged by the arc itself.
pub fn scallop(draw: &mut Draw, report: &mut Report) {
    let bar = draw.bar(12);
    let (a, b, tolerance) = draw.arc(&bar);
    let rn = draw.rng.pick(draw.size.noses);
    let inside = draw.rng.once_in(2);
    let side = if inside { -1. } else { 1. };
    let chords = lent::chords(a, b, tolerance);
    let (first, last) = (place(side * a[0], a[1]), place(side * b[0], b[1]));
    if chords.is_empty() || chords.as_flattened().iter().any(|x| x.abs() > 1e6) {
        return;
    }
    let Some(sweep) = Sweep::new(first, last, Long::from(side * a[2]), rn.into()) else {
        return;
    };
    let made = Cut::Nose(inside as u32, rn, chords);
    let cells = lent::cells_after(&bar, &made);
    report.judge(&bar, &Exact::Arc(sweep), &made, &cells);
}

/// What was seen of volumes at one size.
#[derive(Default)]
pub struct Volumes {
    pub calls: usize,
    pub bins: usize,
    /// Bounds told on the wrong side: a least above the exact one, a greatest below it.
    pub wrong: usize,
    /// The farthest bound, in mm^3, and as a part of the bar's volume before its rings.
    pub most: Long2,
    pub part: Long2,
}

impl Volumes {
    pub fn take(&mut self, draw: &mut Draw) {
        let bar = draw.bar(40);
        let cells: Vec<[f64; 4]> = (0..bar.n).map(|_| cell(draw)).collect();
        let rings = rings(draw, &bar);
        let told = lent::volume(&bar, &cells, &rings);
        self.calls += 1;
        self.bins += bar.n;
        for (k, volume) in told.into_iter().enumerate() {
            let band = |c: &[f64; 4]| if k == 0 { [c[3], c[0]] } else { [c[2], c[1]] };
            let (before, exact) = exact(&bar, &cells, &rings, band);
            let off = Long::from(volume) - exact;
            self.wrong += if k == 0 {
                off.is_positive()
            } else {
                off.is_negative()
            } as usize;
            let what = || {
                format!(
                    "{:?}, cells {cells:?}, rings {rings:?}, bound {k}: {volume:?}",
                    bar.spec
                )
            };
            raise(&mut self.most, off.abs(), what);
            if before.is_positive() {
                raise(&mut self.part, off.abs() / before, what);
            }
        }
    }
}

/// A cell with a bore somewhere below its outer surface.
fn cell(draw: &mut Draw) -> [f64; 4] {
    let outer = draw.size.outer;
    let mut radii = [0; 4].map(|_| draw.number(0., outer));
    radii.sort_by(f64::total_cmp);
    let [inner_lower, inner_upper, outer_lower, outer_upper] = radii;
    [outer_lower, outer_upper, inner_lower, inner_upper]
}

/// Up to three rings, one behind the other in z.
fn rings(draw: &mut Draw, bar: &Bar) -> Vec<[f64; 4]> {
    let count = draw.rng.below(4);
    let mut heights: Vec<f64> = (0..2 * count)
        .map(|_| draw.number(bar.spec.z_min, bar.spec.z_max))
        .collect();
    heights.sort_by(f64::total_cmp);
    let rings = heights.chunks(2).map(|z| {
        let (r, s) = (
            draw.number(0., draw.size.outer),
            draw.number(0., draw.size.outer),
        );
        [z[0], z[1], r.min(s), r.max(s)]
    });
    let within = |q: &[f64; 4]| {
        q[0] < q[1] && q[2] < q[3] && bar.spec.z_min <= q[0] && q[1] <= bar.spec.z_max
    };
    rings.filter(within).collect()
}

/// The volume of a band of each cell, before the rings and without them.
pub fn exact(
    bar: &Bar,
    cells: &[[f64; 4]],
    rings: &[[f64; 4]],
    band: impl Fn(&[f64; 4]) -> [f64; 2],
) -> (Long, Long) {
    let square = |x: f64| Long::from(x) * x.into();
    let (mut before, mut taken) = (ZERO, ZERO);
    for (i, c) in cells.iter().enumerate() {
        let [za, zb] = lent::bin(&bar.spec, i);
        let [bore, outer] = band(c);
        if bore < outer {
            before = before + (square(outer) - square(bore)) * (Long::from(zb) - za.into());
        }
        for [z0, z1, r0, r1] in rings {
            let height = Long::from(zb.min(*z1)) - za.max(*z0).into();
            let (low, high) = (r0.max(bore), r1.min(outer));
            if height.is_positive() && low < high {
                taken = taken + (square(high) - square(low)) * height;
            }
        }
    }
    (pi() * before, ZERO.greatest(pi() * (before - taken)))
}
