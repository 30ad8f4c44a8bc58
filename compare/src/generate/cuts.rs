//! Threads, drills, noses, polygons.
use super::Rng;
use super::changes::{plenty, stamp, with_room};
use super::numbers::{damaged, edge, outside, turning_point};
use super::stock::{base, damaged_cells, damaged_spec, good_cells, r_near, z_near};
use crate::call::{Call, Simple};
use crate::oracle::stock::Bar;
use crate::oracle::{MOST_POINTS, MOST_SEGMENTS};

/// A path has about so many segments at most. The limit is met by a path that is gone again and again.
const OFTEN: usize = 64;

fn cut_call(rng: &mut Rng, make: impl Fn(&mut Rng, &Bar) -> Simple) -> Call {
    let base = base(rng);
    let cells = good_cells(rng, &base);
    let call = Call::Cut {
        cut: make(rng, &base),
        spec: damaged_spec(rng, &base),
        stamp: stamp(rng),
        cells: damaged_cells(rng, &base, &cells),
        room: plenty(base.n),
    };
    with_room(rng, call, base.n)
}

pub fn thread_numbers(rng: &mut Rng, base: &Bar) -> [f64; 3] {
    let z0 = z_near(rng, base);
    let z1 = if rng.once_in(10) {
        z0
    } else {
        z_near(rng, base)
    };
    let radius = r_near(rng, base).max(0.);
    [z0, z1, radius].map(|x| damaged(rng, x))
}

pub fn thread(rng: &mut Rng) -> Call {
    cut_call(rng, |rng, base| {
        let [z0, z1, radius] = thread_numbers(rng, base);
        Simple::ThreadCut { z0, z1, radius }
    })
}

pub fn thread_inner(rng: &mut Rng) -> Call {
    cut_call(rng, |rng, base| {
        let [z0, z1, radius] = thread_numbers(rng, base);
        Simple::ThreadCutInner { z0, z1, radius }
    })
}

/// A drill of the bar.
pub fn drill_cut(rng: &mut Rng, base: &Bar) -> Simple {
    let radius = r_near(rng, base).abs().max(f64::from_bits(1));
    let cone = match rng.below(6) {
        0 => rng.pick(&[0., -0., -1.]),
        1 => edge(rng),
        2 => base.spec.cell,
        3 => rng.between(0., 2. * (base.spec.z_max - base.spec.z_min)),
        _ => rng.written(0., 8.),
    };
    let tip_z = z_near(rng, base);
    Simple::Drill {
        tip_z: damaged(rng, tip_z),
        radius: damaged(rng, radius),
        cone: damaged(rng, cone),
    }
}

pub fn drill(rng: &mut Rng) -> Call {
    cut_call(rng, drill_cut)
}

/// How many segments or points: few as a rule, now and then about the limit.
fn how_many(rng: &mut Rng, limit: usize) -> usize {
    match rng.below(60) {
        0 => limit,
        1 => limit - 1,
        2 => limit + 1,
        3 => rng.below(limit),
        _ => rng.below(7),
    }
}

pub fn side(rng: &mut Rng) -> u32 {
    match rng.below(80) {
        0 => rng.pick(&[2, 3, 0x100, u32::MAX]),
        n => n as u32 % 2,
    }
}

/// A tiny step: its square vanishes, is subnormal, or is small; or a step at which the length's rule
/// turns.
fn tiny(rng: &mut Rng) -> f64 {
    if rng.once_in(4) {
        return turning_point(rng);
    }
    let exponent = rng.pick(&[
        0, 1, 20, 51, 53, 480, 483, 484, 485, 486, 487, 490, 510, 621, 622, 623, 624, 900, 980,
    ]);
    let sign = rng.word() >> 63 << 63;
    f64::from_bits(sign | exponent << 52 | rng.word() >> 12)
}

/// The next point (r, z) of a path.
fn step(rng: &mut Rng, base: &Bar, p: [f64; 2]) -> [f64; 2] {
    match rng.below(12) {
        0 => p,
        1 | 2 => [p[0], z_near(rng, base)],
        3 | 4 => [r_near(rng, base), p[1]],
        5 => [
            p[0] + rng.between(-1e-9, 1e-9),
            p[1] + rng.between(-1e-9, 1e-9),
        ],
        6 => [p[0], p[1] + base.spec.cell * rng.between(-0.5, 0.5)],
        _ => [r_near(rng, base), z_near(rng, base)],
    }
}

/// A path's segments with their sags, about a nose of radius rn.
pub fn segments(rng: &mut Rng, base: &Bar, rn: f64) -> Vec<f64> {
    path(rng, base, rn, 15)
}

/// The same, with a tiny chord for once in so many segments.
fn path(rng: &mut Rng, base: &Bar, rn: f64, once_in: usize) -> Vec<f64> {
    let count = how_many(rng, OFTEN);
    let mut p = [r_near(rng, base), z_near(rng, base)];
    let mut list = vec![];
    for _ in 0..count {
        let mut q = step(rng, base, p);
        if rng.once_in(once_in) {
            // At the origin of r, of z or of both a step may be as tiny as it likes.
            p = rng.pick(&[[0., 0.], [p[0], 0.], [0., p[1]]]);
            q = [p[0], p[1]];
            let d = [tiny(rng), tiny(rng)];
            for k in 0..2 {
                if p[k] == 0. && !rng.once_in(4) {
                    q[k] = d[k];
                }
            }
        }
        if rng.once_in(12) && rn > 0. {
            // The nose's edge on a bin's edge.
            let by = rng.pick(&[rn, -rn]);
            p[1] = (z_near(rng, base) + by).clamp(-1e6, 1e6);
        }
        if rng.once_in(if rn == 0. { 4 } else { 30 }) {
            // A face whose nose stands as near to a bin's edge as it still counts, or just beside.
            let near = 1e-12_f64;
            let by = rng.pick(&[near, near.next_up(), near.next_down(), 0.]);
            let z = rng.pick(&[0., p[1]]) + rn + rng.pick(&[by, -by]);
            (p[1], q[1]) = (z, z);
        }
        let sag = match rng.below(10) {
            0 => rn,
            1 => rn.next_up().min(1e6),
            2 => (rn + rng.between(0., 1.)).min(1e6),
            3 => rng.between(0., rn),
            4 => rng.between(0., 0.1),
            _ => 0.,
        };
        list.extend([p[0], p[1], q[0], q[1], sag]);
        p = if rng.once_in(4) {
            [r_near(rng, base), z_near(rng, base)]
        } else {
            q
        };
    }
    list.iter_mut().for_each(|x| *x = x.clamp(-1e6, 1e6));
    if count > 0 && base.n < 9 && rng.once_in(30) {
        let goes = MOST_SEGMENTS / count + 1;
        list = list.repeat(goes);
        list.truncate(5 * (MOST_SEGMENTS + rng.below(2)));
    }
    list
}

/// A list, now and then with a number outside, or one number too many or too few.
pub fn damaged_list(rng: &mut Rng, mut list: Vec<f64>) -> Vec<f64> {
    let len = list.len();
    match rng.below(60) {
        0 if len > 0 => list[rng.below(len)] = outside(rng),
        1 if len > 0 => list[rng.below(len)] = edge(rng),
        2 if len > 0 => list.truncate(len - 1),
        3 => list.push(1.),
        4 if len > 0 => {
            let at = rng.below(len);
            list[at] = -list[at];
        }
        _ => {}
    }
    list
}

/// A nose's radius.
pub fn nose_radius(rng: &mut Rng, base: &Bar) -> f64 {
    let rn = match rng.below(12) {
        // On the tiniest bar, a face stands exactly as near to a bin's end as it still counts.
        _ if base.spec.cell < 1e-9 && rng.once_in(2) => base.spec.cell / 2.,
        0 => rng.pick(&[0., -0.]),
        1 => rng.written(0., 60.),
        2 => edge(rng).abs(),
        3 => base.spec.cell * rng.pick(&[0.5, 1., 1.5, 2.]),
        4 => rng.pick(&[0.2, 0.4, 0.8, 1.2, 5.]),
        _ => rng.written(0., 3.),
    };
    rn.min(1e6)
}

pub fn nose(rng: &mut Rng) -> Call {
    nose_along(rng, 15)
}

/// A nose along a path in which every second segment is a tiny chord.
pub fn short_chords(rng: &mut Rng) -> Call {
    nose_along(rng, 2)
}

fn nose_along(rng: &mut Rng, once_in: usize) -> Call {
    let base = base(rng);
    let cells = good_cells(rng, &base);
    let rn = nose_radius(rng, &base);
    let segments = path(rng, &base, rn, once_in);
    let call = Call::Preview {
        spec: damaged_spec(rng, &base),
        stamp: stamp(rng),
        cells: damaged_cells(rng, &base, &cells),
        side: side(rng),
        rn: damaged(rng, rn),
        segments: damaged_list(rng, segments),
        room: plenty(base.n),
    };
    with_room(rng, call, base.n)
}

/// A rectangle, a turned triangle or trapezium, or points in no shape.
pub fn polygon_points(rng: &mut Rng, base: &Bar) -> Vec<f64> {
    let (z0, z1) = (z_near(rng, base), z_near(rng, base));
    let (r0, r1) = (r_near(rng, base), r_near(rng, base) + base.spec.outer);
    let mut points: Vec<[f64; 2]> = match rng.below(5) {
        0 | 1 => vec![[z0, r0], [z1, r0], [z1, r1], [z0, r1]],
        2 => {
            let lean = rng.between(-2., 2.);
            let (low, high) = (z0.min(z1), z0.max(z1));
            vec![
                [low, r0],
                [high, r0 + lean],
                [high + 1., r1],
                [low - 1., r1],
            ]
        }
        3 => vec![[z0, r0], [z1, r0], [(z0 + z1) / 2., r1]],
        _ => {
            let count = how_many(rng, MOST_POINTS);
            let mut p = [z0, r0];
            let next = |_| {
                p = match rng.below(6) {
                    0 => p,
                    1 => [p[0], r_near(rng, base)],
                    2 => [z_near(rng, base), p[1]],
                    _ => [z_near(rng, base), r_near(rng, base)],
                };
                p
            };
            (0..count).map(next).collect()
        }
    };
    if rng.once_in(2) {
        points.reverse();
    }
    let flat = points.as_flattened().iter();
    flat.map(|x| x.clamp(-1e6, 1e6)).collect()
}

/// How far a polygon may stand out.
pub fn polygon_excess(rng: &mut Rng) -> f64 {
    match rng.below(4) {
        0 => rng.between(0., 2.),
        1 => rng.pick(&[0.5, 0.01, 1e6, 5e-324]),
        _ => rng.pick(&[0., -0.]),
    }
}

pub fn polygon(rng: &mut Rng) -> Call {
    let base = base(rng);
    let cells = good_cells(rng, &base);
    let points = polygon_points(rng, &base);
    let excess = polygon_excess(rng);
    let call = Call::PreviewPolygon {
        spec: damaged_spec(rng, &base),
        stamp: stamp(rng),
        cells: damaged_cells(rng, &base, &cells),
        side: side(rng),
        excess: damaged(rng, excess),
        points: damaged_list(rng, points),
        room: plenty(base.n),
    };
    with_room(rng, call, base.n)
}
