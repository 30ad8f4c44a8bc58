//! Cuts that are measured: bars with a cut near them, at several sizes.
use super::lent::{Cut, bin};
use super::shape::{Place, Polygon, Read, place};
use crate::call::Spec;
use crate::generate::Rng;
use crate::oracle::stock::{Bar, bar};

/// A size: how large numbers are, whether they are whole micrometres, k/1000 as a job reads them, and whether they are
/// then judged as typed, so that k/1000 is not rounded.
#[derive(Clone, Copy, Debug)]
pub struct Size {
    pub name: &'static str,
    pub outer: f64,
    pub far: f64,
    pub cells: &'static [f64],
    pub noses: &'static [f64],
    pub whole: bool,
    pub read: Read,
    /// Bars of 200 to 512 bins, as a job can have; else of a dozen.
    pub long: bool,
}

pub const SIZES: [Size; 6] = [
    Size {
        name: "job",
        outer: 30.,
        far: 40.,
        cells: &[0.05, 0.1, 1.],
        noses: &[0.4, 0.8],
        whole: true,
        read: Read::Millimetres,
        long: false,
    },
    Size {
        name: "typed",
        outer: 30.,
        far: 40.,
        cells: &[0.05, 0.1, 1.],
        noses: &[0.4, 0.8],
        whole: true,
        read: Read::Typed,
        long: false,
    },
    Size {
        name: "long",
        outer: 30.,
        far: 40.,
        cells: &[0.05, 0.1],
        noses: &[0.4, 0.8],
        whole: true,
        read: Read::Typed,
        long: true,
    },
    Size {
        name: "shop",
        outer: 30.,
        far: 40.,
        cells: &[0.05, 0.1, 1.],
        noses: &[0.4, 0.8],
        whole: false,
        read: Read::Millimetres,
        long: false,
    },
    Size {
        name: "metre",
        outer: 500.,
        far: 1000.,
        cells: &[0.1, 1., 10.],
        noses: &[0.4, 0.8, 5., 50.],
        whole: false,
        read: Read::Millimetres,
        long: false,
    },
    Size {
        name: "million",
        outer: 1e6,
        far: 9e5,
        cells: &[1., 1000., 20000.],
        noses: &[0.8, 50., 1000., 40000.],
        whole: false,
        read: Read::Millimetres,
        long: false,
    },
];

pub struct Draw {
    pub rng: Rng,
    pub size: Size,
}

impl Draw {
    pub fn new(seed: u64, size: Size) -> Self {
        Self {
            rng: Rng::new(seed),
            size,
        }
    }

    /// The number, or the nearest of whole micrometres, as a job reads it; never -0.0.
    pub fn snap(&self, x: f64) -> f64 {
        if self.size.whole {
            (x * 1000.).round() / 1000. + 0.
        } else {
            x
        }
    }

    pub fn number(&mut self, low: f64, high: f64) -> f64 {
        let x = self.rng.between(low, high);
        self.snap(x)
    }

    /// Some steps of an ulp off, but where numbers are whole micrometres.
    fn nudged(&mut self, mut x: f64) -> f64 {
        if !self.size.whole {
            for _ in 0..self.rng.below(4) {
                x = if self.rng.once_in(2) {
                    x.next_up()
                } else {
                    x.next_down()
                };
            }
        }
        x
    }

    /// A bar of few bins, or of many.
    pub fn bar(&mut self, most: usize) -> Bar {
        let Size {
            outer, far, cells, ..
        } = self.size;
        let cell = self.rng.pick(cells);
        let n = match self.size.long {
            true => 200 + self.rng.below(313),
            false => 2 + self.rng.below(most - 1),
        };
        let z_min = self.number(-far, far - n as f64 * cell);
        let z_max = self.snap(z_min + n as f64 * cell);
        let spec = Spec {
            z_min,
            z_max,
            outer,
            bore: 0.,
            cell,
            max_cells: 4096,
        };
        bar(&spec).expect("a bar")
    }

    /// An end of some bin.
    fn edge(&mut self, bar: &Bar) -> f64 {
        let i = self.rng.below(bar.n);
        bin(&bar.spec, i)[self.rng.below(2)]
    }

    fn near(&mut self, bar: &Bar, by: f64) -> f64 {
        self.number(bar.spec.z_min - by, bar.spec.z_max + by)
    }

    fn segment(&mut self, bar: &Bar, rn: f64, sag: f64) -> [f64; 5] {
        let outer = self.size.outer;
        let by = 2. * rn + bar.spec.cell;
        let (mut ar, mut az) = (self.number(0., outer), self.near(bar, by));
        let (mut br, mut bz) = (self.number(0., outer), self.near(bar, by));
        let small = if self.size.whole { 0.02 } else { 1e-3 };
        let touches = self.rng.once_in(3);
        if touches {
            // The nose's edge on a bin's edge.
            let rho = self.rng.pick(&[rn, rn - sag, rn + sag]);
            let rho = self.rng.pick(&[rho, -rho]);
            let edge = self.edge(bar);
            az = self.snap(edge + rho);
            az = self.nudged(az);
        }
        match self.rng.below(9) {
            0 | 1 => br = ar,
            2 => bz = az,
            3 => (br, bz) = (self.number(ar - 1., ar + 1.), self.snap(az + bar.spec.cell)),
            4 => bz = self.number(az - small, az + small),
            5 => br = self.number(ar - small, ar + small),
            6 => {
                (az, bz) = (
                    self.snap(bar.spec.z_min - 2. * by),
                    self.snap(bar.spec.z_max + 2. * by),
                )
            }
            7 if !self.size.whole && touches => {
                // A face whose side stands up to 1e-12 beside a bin's edge.
                az = self.edge(bar) + rn + self.rng.between(-1.5e-12, 1.5e-12);
                bz = az;
            }
            _ => {}
        }
        if self.rng.once_in(40) {
            (br, bz) = (ar, az);
        }
        if self.rng.once_in(2) {
            (ar, az, br, bz) = (br, bz, ar, az);
        }
        [ar, az, br, bz, sag].map(|x| x.clamp(-1e6, 1e6))
    }

    /// A nose along one segment as a rule, now and then along up to four.
    pub fn nose(&mut self, bar: &Bar, with_sag: bool) -> Cut {
        let rn = self.rng.pick(self.size.noses);
        let count = if self.rng.once_in(5) {
            2 + self.rng.below(3)
        } else {
            1
        };
        let segments = (0..count).map(|_| {
            let sag = match self.rng.below(if with_sag { 8 } else { 1 }) {
                0 if !with_sag => 0.,
                0 => rn,
                1 | 2 => self.number(0.001, 0.02),
                3 => self.number(0., 2. * rn),
                _ => self.number(0., rn / 2.),
            };
            self.segment(bar, rn, sag)
        });
        let segments = segments.collect();
        Cut::Nose(self.rng.below(2) as u32, rn, segments)
    }

    /// An arc near the bar: r, z and bulge of its start, r and z of its end, and a tolerance for its chords.
    pub fn arc(&mut self, bar: &Bar) -> ([f64; 3], [f64; 2], f64) {
        let outer = self.size.outer;
        let long = bar.n as f64 * bar.spec.cell;
        let a = [self.number(0., outer), self.near(bar, long)];
        let b = [
            self.number((a[0] - long).max(0.), a[0] + long),
            self.near(bar, long),
        ];
        let bulge = (self.rng.between(0.02, 1.) * 1e6).round() / 1e6 * self.rng.pick(&[1., -1.]);
        let half = (b[0] - a[0]).hypot(b[1] - a[1]) / 2.;
        let part = self.rng.pick(&[1., 0.3, 0.1, 0.01, 0.001]) * bulge.abs() * half;
        let tolerance = if self.size.whole {
            self.snap(part).max(0.001)
        } else {
            part
        };
        (
            [a[0], a[1], bulge],
            b.map(|x| x.clamp(-1e6, 1e6)),
            tolerance,
        )
    }

    /// A convex polygon: a rectangle, a triangle or what lies within some points.
    pub fn polygon(&mut self, bar: &Bar) -> Cut {
        let points = loop {
            let points = self.points(bar);
            let places: Vec<Place> = points.iter().map(|p| place(p[1], p[0])).collect();
            if points.len() > 2 && Polygon::is_convex(&places) {
                break points;
            }
        };
        let excess = match self.rng.below(3) {
            0 => self.number(0., 0.1),
            _ => 0.,
        };
        Cut::Polygon(self.rng.below(2) as u32, excess, points)
    }

    fn points(&mut self, bar: &Bar) -> Vec<[f64; 2]> {
        let outer = self.size.outer;
        let by = 3. * bar.spec.cell;
        let z = |draw: &mut Self| {
            if draw.rng.once_in(4) {
                let edge = draw.edge(bar);
                let edge = draw.snap(edge);
                return draw.nudged(edge);
            }
            draw.near(bar, by)
        };
        let count = match self.rng.below(4) {
            0 => {
                let (z0, z1) = (z(self), z(self));
                let (r0, r1) = (self.number(0., outer), outer);
                return vec![[z0, r0], [z1, r0], [z1, r1], [z0, r1]];
            }
            1 => 3,
            _ => 4 + self.rng.below(6),
        };
        let points = (0..count).map(|_| [z(self), self.number(0., outer)]);
        let mut points = hull(points.collect());
        if self.rng.once_in(2) {
            points.reverse();
        }
        points
    }

    pub fn thread(&mut self, bar: &Bar) -> Cut {
        let z = |draw: &mut Self| match draw.rng.below(3) {
            0 => {
                let edge = draw.edge(bar);
                draw.snap(edge)
            }
            1 => {
                let edge = draw.edge(bar);
                let edge = draw.snap(edge);
                draw.nudged(edge)
            }
            _ => draw.near(bar, bar.spec.cell),
        };
        let (z0, z1) = (z(self), z(self));
        Cut::Thread(
            self.rng.below(2) as u32,
            [z0, z1, self.number(0., self.size.outer)],
        )
    }

    pub fn drill(&mut self, bar: &Bar) -> Cut {
        let outer = self.size.outer;
        let radius = self.number(0.5, outer);
        let cone = match self.rng.below(8) {
            0 => 0.,
            1 => self.number(0.001, 0.1),
            2 => radius,
            _ => self.number(0.001, bar.n as f64 * bar.spec.cell),
        };
        let tip = match self.rng.below(4) {
            0 => {
                let edge = self.edge(bar);
                let edge = self.snap(edge);
                self.nudged(edge)
            }
            _ => self.near(bar, cone),
        };
        Cut::Drill([tip.clamp(-1e6, 1e6), radius, cone])
    }
}

/// The corners of what lies within the points, in order around it: by f64, so that a caller asks whether it is convex.
fn hull(mut points: Vec<[f64; 2]>) -> Vec<[f64; 2]> {
    points.sort_by(|p, q| p.partial_cmp(q).unwrap());
    points.dedup();
    let turns = |a: [f64; 2], b: [f64; 2], c: [f64; 2]| {
        (b[0] - a[0]) * (c[1] - a[1]) - (b[1] - a[1]) * (c[0] - a[0])
    };
    let chain = |all: &mut dyn Iterator<Item = [f64; 2]>| {
        let mut chain: Vec<[f64; 2]> = vec![];
        for p in all {
            while chain.len() > 1 && turns(chain[chain.len() - 2], chain[chain.len() - 1], p) <= 0.
            {
                chain.pop();
            }
            chain.push(p);
        }
        chain.pop();
        chain
    };
    let mut corners = chain(&mut points.iter().copied());
    corners.extend(chain(&mut points.iter().rev().copied()));
    corners
}
