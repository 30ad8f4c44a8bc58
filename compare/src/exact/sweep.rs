//! A nose along an arc, exactly: all points within its radius of the arc, and what lies above.
use super::arc::circle;
use super::number::{Long, ZERO};
use super::shape::{Bin, Place};

/// The arc from a to b, at most half a circle, and the nose's radius, which is below the circle's.
#[derive(Clone, Debug)]
pub struct Sweep {
    a: Place,
    b: Place,
    centre: Place,
    radius: Long,
    rn: Long,
    /// The arc lies to the right of the way from a to b, in (z, r).
    right: bool,
}

fn distance(p: Place, q: Place) -> Long {
    ((p.r - q.r) * (p.r - q.r) + (p.z - q.z) * (p.z - q.z)).root()
}

impl Sweep {
    /// For the inside radii are negated, and the arc then lies on the other side of its chord.
    pub fn new(a: Place, b: Place, bulge: Long, rn: Long) -> Option<Self> {
        let (centre, radius) = circle(a, b, bulge);
        (rn < radius).then(|| Self {
            a,
            b,
            centre,
            radius,
            rn,
            right: bulge.is_positive(),
        })
    }

    /// A place so far from the centre lies in the direction of a point of the arc.
    fn faces(&self, p: Place, away: Long) -> bool {
        let side = |z: Long, r: Long| (self.b.r - self.a.r) * z - (self.b.z - self.a.z) * r;
        let point = side(p.z - self.centre.z, p.r - self.centre.r) * self.radius;
        let chord = side(self.centre.z - self.a.z, self.centre.r - self.a.r) * away;
        let turn = point + chord;
        turn.is_zero() || turn.is_positive() == self.right
    }

    /// The place on a circle about a centre at z, on its lower or its upper side.
    fn on(&self, centre: Place, size: Long, z: Long, upper: bool) -> Option<Place> {
        let left = size * size - (z - centre.z) * (z - centre.z);
        if left.is_negative() {
            return None;
        }
        let root = left.root();
        let r = if upper {
            centre.r + root
        } else {
            centre.r - root
        };
        Some(Place { r, z })
    }

    /// The least radius within the nose's of the arc, on the line at z.
    pub fn at(&self, z: Long) -> Option<Long> {
        let about = |p| self.on(p, self.rn, z, false);
        let (wide, narrow) = (self.radius + self.rn, self.radius - self.rn);
        let facing = |p: Option<Place>, away| p.filter(|p| self.faces(*p, away));
        let all = [
            about(self.a),
            about(self.b),
            facing(self.on(self.centre, wide, z, false), wide),
            facing(self.on(self.centre, narrow, z, true), narrow),
        ];
        all.into_iter().flatten().map(|p| p.r).reduce(Long::least)
    }

    /// Places of a bin: its ends and seven between them.
    fn places(bin: Bin) -> impl Iterator<Item = Long> {
        let step = (bin.zb - bin.za) / Long::from(8.);
        let between = (1..8).map(move |k| bin.za + step * Long::from(k as f64));
        between.chain([bin.za, bin.zb])
    }

    /// The greatest radius that it leaves at the places of a bin; none where one is not reached.
    pub fn leaves(&self, bin: Bin) -> Option<Long> {
        let each = Self::places(bin).map(|z| self.at(z));
        each.reduce(|a, b| Some(a?.greatest(b?))).flatten()
    }

    /// The least that it reaches at the places of a bin.
    pub fn deepest(&self, bin: Bin) -> Option<Long> {
        Self::places(bin)
            .filter_map(|z| self.at(z))
            .reduce(Long::least)
    }

    /// How far a place lies from the arc and from what is above its ends and its sides.
    fn from_arc(&self, p: Place) -> Long {
        let away = distance(p, self.centre);
        let ends = [self.a, self.b].map(|q| {
            let above = Place {
                r: q.r.greatest(p.r),
                z: q.z,
            };
            distance(p, above)
        });
        let near = ends[0].least(ends[1]);
        let sides = [self.centre.z - self.radius, self.centre.z + self.radius].map(|z| Place {
            r: self.centre.r,
            z,
        });
        let beside = |q: &Place| q.r <= p.r && self.faces(*q, self.radius);
        let near = sides
            .iter()
            .filter(|q| beside(q))
            .fold(near, |x, q| x.least((p.z - q.z).abs()));
        if self.faces(p, away) {
            near.least((away - self.radius).abs())
        } else {
            near
        }
    }

    /// By how much the nose would have to be larger so that all above a level at the places of a bin is gone.
    pub fn lacks(&self, bin: Bin, level: Long) -> Long {
        let short = |z| match self.at(z) {
            Some(r) if r <= level => None,
            _ => Some(self.from_arc(Place { r: level, z }) - self.rn),
        };
        let each = Self::places(bin).filter_map(short);
        each.reduce(Long::greatest).unwrap_or(ZERO)
    }

    /// By how much the nose would have to be smaller so that nothing below a level at the places of a bin is touched.
    pub fn enters(&self, bin: Bin, level: Long) -> Long {
        let deeper = Self::places(bin).filter(|z| self.at(*z).is_some_and(|r| r < level));
        let each = deeper.map(|z| self.rn - self.from_arc(Place { r: level, z }));
        each.reduce(Long::greatest).unwrap_or(ZERO)
    }
}
