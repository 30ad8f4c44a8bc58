//! What a cut sweeps, exactly: the lower edge of a region from which all that lies above is gone. For the inside
//! radii are negated, as the rules do it, so that "above" is towards the axis.
use super::number::{Long, ZERO};

/// A place: its radius and its z.
#[derive(Clone, Copy, Debug, PartialEq)]
pub struct Place {
    pub r: Long,
    pub z: Long,
}

pub fn place(r: f64, z: f64) -> Place {
    Place {
        r: r.into(),
        z: z.into(),
    }
}

/// How numbers are read: as the f64 that they are, in mm, or as the whole micrometres that were typed, in micrometres.
#[derive(Clone, Copy, Debug, Default, PartialEq)]
pub enum Read {
    #[default]
    Millimetres,
    Typed,
}

impl Read {
    /// A number that was handed over.
    pub fn given(self, x: f64) -> Long {
        match self {
            Read::Millimetres => x.into(),
            Read::Typed => (x * 1000.).round().into(),
        }
    }
    /// A number that the library answers.
    pub fn answer(self, x: f64) -> Long {
        match self {
            Read::Millimetres => x.into(),
            Read::Typed => Long::from(x) * Long::from(1000.),
        }
    }
    /// In mm.
    pub fn mm(self, x: Long) -> Long {
        match self {
            Read::Millimetres => x,
            Read::Typed => x / Long::from(1000.),
        }
    }
    fn place(self, r: f64, z: f64) -> Place {
        Place {
            r: self.given(r),
            z: self.given(z),
        }
    }
    /// A segment's capsule.
    pub fn capsule(self, ends: [f64; 4], radius: Long) -> Capsule {
        Capsule::new(
            self.place(ends[0], ends[1]),
            self.place(ends[2], ends[3]),
            radius,
        )
    }
    /// A polygon of points in (z, r).
    pub fn polygon(self, points: &[[f64; 2]]) -> Polygon {
        let places: Vec<Place> = points.iter().map(|[z, r]| self.place(*r, *z)).collect();
        Polygon::new(&places)
    }
}

impl Place {
    fn less(self, other: Self) -> Self {
        Self {
            r: self.r - other.r,
            z: self.z - other.z,
        }
    }
    fn times(self, other: Self) -> Long {
        self.r * other.r + self.z * other.z
    }
    fn across(self, other: Self) -> Long {
        self.r * other.z - self.z * other.r
    }
    fn square(self) -> Long {
        self.times(self)
    }
}

/// A bin's ends, as the library has rounded them.
#[derive(Clone, Copy, Debug)]
pub struct Bin {
    pub za: Long,
    pub zb: Long,
}

/// The square of a place's distance from the segment from a to b.
fn from_segment(p: Place, a: Place, b: Place) -> Long {
    let (d, q) = (b.less(a), p.less(a));
    let (along, whole) = (d.times(q), d.square());
    if !along.is_positive() {
        return q.square();
    }
    if along >= whole {
        return p.less(b).square();
    }
    let across = d.across(q);
    across * across / whole
}

/// The square of a place's distance from all that lies straight above a.
fn from_above(p: Place, a: Place) -> Long {
    p.less(Place {
        r: a.r.greatest(p.r),
        z: a.z,
    })
    .square()
}

/// The square of a place's distance from the strip below a level in a bin.
fn from_strip(p: Place, bin: Bin, level: Long) -> Long {
    let beside = ZERO.greatest(bin.za - p.z).greatest(p.z - bin.zb);
    let above = ZERO.greatest(p.r - level);
    beside * beside + above * above
}

/// A nose's way from a to b: all points within a radius of it. a has the lesser z.
#[derive(Clone, Copy, Debug)]
pub struct Capsule {
    a: Place,
    b: Place,
    radius: Long,
    d: Place,
    long: Long,
}

impl Capsule {
    pub fn new(a: Place, b: Place, radius: Long) -> Self {
        let (a, b) = if b.z < a.z { (b, a) } else { (a, b) };
        let d = b.less(a);
        Self {
            a,
            b,
            radius,
            d,
            long: d.square().root(),
        }
    }

    fn circle_at(&self, p: Place, z: Long) -> Option<Long> {
        let left = self.radius * self.radius - (p.z - z) * (p.z - z);
        (!left.is_negative()).then(|| p.r - left.root())
    }

    /// Its straight side that faces the axis.
    fn side_at(&self, z: Long) -> Option<Long> {
        if self.d.z.is_zero() {
            return None;
        }
        let moved = self.radius * self.d.r;
        let (after, before) = ((z - self.a.z) * self.long, (z - self.b.z) * self.long);
        let faces = after >= moved && before <= moved;
        faces.then(|| self.a.r + ((z - self.a.z) * self.d.r - self.radius * self.long) / self.d.z)
    }

    /// Its least radius on the line at z.
    pub fn at(&self, z: Long) -> Option<Long> {
        let all = [
            self.circle_at(self.a, z),
            self.circle_at(self.b, z),
            self.side_at(z),
        ];
        all.into_iter().flatten().reduce(Long::least)
    }

    /// How far the bin's ends lie beyond its own, the farther one; not positive where it reaches both.
    pub fn short(&self, bin: Bin) -> Long {
        let first = self.a.z - self.radius - bin.za;
        first.greatest(bin.zb - self.b.z - self.radius)
    }

    /// How much of the bin's length it shares; not positive where it shares none.
    pub fn shared(&self, bin: Bin) -> Long {
        let first = bin.za.greatest(self.a.z - self.radius);
        bin.zb.least(self.b.z + self.radius) - first
    }

    /// The greatest radius that it leaves in a bin, where it reaches both ends.
    pub fn leaves(&self, bin: Bin) -> Option<Long> {
        Some(self.at(bin.za)?.greatest(self.at(bin.zb)?))
    }

    /// The least radius that it reaches in a bin, where it reaches into it.
    pub fn deepest(&self, bin: Bin) -> Option<Long> {
        if !self.shared(bin).is_positive() {
            return None;
        }
        let low = self.a.r.least(self.b.r);
        let start = if self.a.r == low { self.a.z } else { self.b.z };
        let end = if self.b.r == low { self.b.z } else { self.a.z };
        if start <= bin.zb && bin.za <= end {
            return Some(low - self.radius);
        }
        [self.at(bin.za), self.at(bin.zb)]
            .into_iter()
            .flatten()
            .reduce(Long::least)
    }

    /// The square of a place's distance from the way and all that lies above it.
    fn from_way(&self, p: Place) -> Long {
        let over = self.a.z <= p.z && p.z <= self.b.z && !self.d.z.is_zero();
        if over && !p.less(self.a).across(self.d).is_negative() {
            return ZERO;
        }
        let rays = from_above(p, self.a).least(from_above(p, self.b));
        rays.least(from_segment(p, self.a, self.b))
    }

    /// By how much its radius would have to grow so that all above a level in the bin is gone.
    pub fn lacks(&self, bin: Bin, level: Long) -> Long {
        let corner = |z| self.from_way(Place { r: level, z });
        corner(bin.za).greatest(corner(bin.zb)).root() - self.radius
    }

    /// By how much its radius would have to shrink so that nothing below a level in the bin is touched.
    pub fn enters(&self, bin: Bin, level: Long) -> Long {
        let corner = |z| self.from_way(Place { r: level, z });
        let corners = corner(bin.za).least(corner(bin.zb));
        let ends = from_strip(self.a, bin, level).least(from_strip(self.b, bin, level));
        self.radius - corners.least(ends).root()
    }
}

/// A convex polygon, and all above it. Its edges are those that can lie lowest.
pub struct Polygon {
    edges: Vec<(Place, Place)>,
    pub lo: Long,
    pub hi: Long,
}

impl Polygon {
    pub fn new(points: &[Place]) -> Self {
        let n = points.len();
        let edges = (0..n).map(|k| (points[k], points[(k + 1) % n]));
        let edges = edges.map(|(p, q)| if q.z < p.z { (q, p) } else { (p, q) });
        let z = points.iter().map(|p| p.z);
        Self {
            edges: edges.collect(),
            lo: z.clone().reduce(Long::least).unwrap(),
            hi: z.reduce(Long::greatest).unwrap(),
        }
    }

    /// No vertex lies on another side of an edge than the others, and no edge is none.
    pub fn is_convex(points: &[Place]) -> bool {
        let n = points.len();
        let turn = |k: usize, j: usize| {
            let (p, q) = (points[k], points[(k + 1) % n]);
            q.less(p).across(points[j].less(p))
        };
        let all = (0..n).flat_map(|k| (0..n).map(move |j| (k, j)));
        let others = all.filter(|(k, j)| j != k && *j != (k + 1) % n);
        let turns: Vec<Long> = others.map(|(k, j)| turn(k, j)).collect();
        turns.iter().all(|t| t.is_positive()) || turns.iter().all(|t| t.is_negative())
    }

    /// Its lowest radius at z.
    pub fn at(&self, z: Long) -> Option<Long> {
        let over = self.edges.iter().filter(|(p, q)| p.z <= z && z <= q.z);
        over.map(|(p, q)| match p.z == q.z {
            true => p.r.least(q.r),
            false => p.r + (z - p.z) * (q.r - p.r) / (q.z - p.z),
        })
        .reduce(Long::least)
    }

    pub fn shared(&self, bin: Bin) -> Long {
        bin.zb.least(self.hi) - bin.za.greatest(self.lo)
    }

    /// The greatest radius that it leaves in a bin that it covers.
    pub fn leaves(&self, bin: Bin) -> Option<Long> {
        Some(self.at(bin.za)?.greatest(self.at(bin.zb)?))
    }

    /// The least radius that it reaches in a bin, where it reaches into it.
    pub fn deepest(&self, bin: Bin) -> Option<Long> {
        if !self.shared(bin).is_positive() {
            return None;
        }
        let inside = |z: &Long| bin.za <= *z && *z <= bin.zb;
        let corners = self
            .edges
            .iter()
            .flat_map(|(p, q)| [p.z, q.z])
            .filter(inside);
        let ends = [bin.za.greatest(self.lo), bin.zb.least(self.hi)];
        corners
            .chain(ends)
            .filter_map(|z| self.at(z))
            .reduce(Long::least)
    }

    /// The square of a place's distance from its edges.
    fn from_edges(&self, p: Place) -> Long {
        let away = self.edges.iter().map(|(a, b)| from_segment(p, *a, *b));
        away.reduce(Long::least).unwrap()
    }

    /// How far the farther corner of a level over a bin lies from it, where it covers the bin.
    pub fn lacks(&self, bin: Bin, level: Long) -> Long {
        let corner = |z| match self.at(z) {
            Some(r) if r <= level => ZERO,
            _ => self.from_edges(Place { r: level, z }),
        };
        corner(bin.za).greatest(corner(bin.zb)).root()
    }

    /// How far it would have to move so that nothing below a level in the bin is touched, at most: upwards, along z,
    /// or, where it is deepest at an end of the bin, across an edge.
    pub fn enters(&self, bin: Bin, level: Long, deepest: Long) -> Long {
        let ends = [bin.za, bin.zb]
            .into_iter()
            .filter(|z| self.at(*z) == Some(deepest));
        let across = ends.map(|z| self.from_edges(Place { r: level, z }).root());
        let straight = self.shared(bin).least(level - deepest);
        across
            .reduce(Long::greatest)
            .map_or(straight, |x| x.least(straight))
    }
}

/// A drill: its tip, its radius, and the height of its point.
#[derive(Clone, Copy, Debug)]
pub struct Drill {
    pub tip: Long,
    pub radius: Long,
    pub cone: Long,
}

impl Drill {
    /// Its radius at z, its point included.
    pub fn at(&self, z: Long) -> Long {
        if z < self.tip {
            return ZERO;
        }
        if !self.cone.is_positive() {
            return self.radius;
        }
        self.radius.least((z - self.tip) * self.radius / self.cone)
    }

    /// How far a radius that is too large by so much lies from the point's flank.
    pub fn away(&self, by: Long) -> Long {
        if !self.cone.is_positive() {
            return by;
        }
        by * self.cone / (self.cone * self.cone + self.radius * self.radius).root()
    }
}
