//! A bar's cells after a cut, held against what the cut sweeps exactly.
use super::lent::{Cut, bin, cells_after};
use super::number::Long;
use super::shape::{Bin, Capsule, Drill, Polygon, Read};
use super::sweep::Sweep;
use crate::oracle::stock::Bar;

/// What was seen of one of the two bounds of a surface.
#[derive(Default)]
pub struct Seen {
    /// Bins in which it says something.
    pub bins: usize,
    /// Bins in which it says too much.
    pub wrong: usize,
    /// By how much in radius at most, where the sweep reaches as far as the bound says.
    pub most: Option<(Long, String)>,
    /// Bins of which a strip along z is not as the bound says, whatever the radius.
    pub strips: usize,
    /// The widest of them.
    pub widest: Option<(Long, String)>,
    /// How far what is said lies from what the sweep does, at most.
    pub away: Option<(Long, String)>,
}

fn raise(most: &mut Option<(Long, String)>, by: Long, told: impl Fn() -> String) {
    let more = by.is_positive() && most.as_ref().is_none_or(|(m, _)| *m < by);
    if more {
        *most = Some((by, told()));
    }
}

impl Seen {
    fn take(&mut self, off: Off, read: Read, told: impl Fn() -> String) {
        let (away, strip) = match off {
            Off::Not => return,
            Off::Radius(by, away) => {
                raise(&mut self.most, read.mm(by), &told);
                (away, false)
            }
            Off::Strip(width, away) => {
                raise(&mut self.widest, read.mm(width), &told);
                (away, true)
            }
        };
        self.wrong += 1;
        self.strips += strip as usize;
        raise(&mut self.away, read.mm(away), &told);
    }
}

/// What was seen of one kind of cut at one size.
#[derive(Default)]
pub struct Report {
    pub read: Read,
    pub calls: usize,
    pub bins: usize,
    /// The bound above which all is certainly gone (outer.upper, inner.lower).
    pub sure: Seen,
    /// The bound below which all is certainly metal (outer.lower, inner.upper).
    pub deep: Seen,
}

/// What a cut does in a bin, exactly; radii of the inside are negated.
pub enum Exact {
    Noses(Vec<Capsules>),
    Polygon(Polygon, Long),
    Thread(Long, Long, Long),
    Drill(Drill),
    /// A nose along an arc, at some places of each bin.
    Arc(Sweep),
}

/// A segment's capsules: the shrunk one, where the sag is no more than the radius, and the grown one.
pub struct Capsules {
    shrunk: Option<Capsule>,
    grown: Capsule,
}

/// By how much a bound says too much.
enum Off {
    Not,
    Radius(Long, Long),
    Strip(Long, Long),
}

impl Exact {
    pub fn new(cut: &Cut, read: Read) -> Self {
        let flip = |r: f64| if cut.is_inside() { -r } else { r };
        match cut {
            Cut::Nose(_, rn, segments) => {
                let capsules = segments.iter().map(|[ar, az, br, bz, sag]| {
                    let ends = [flip(*ar), *az, flip(*br), *bz];
                    let (rn, sag) = (read.given(*rn), read.given(*sag));
                    Capsules {
                        shrunk: (sag <= rn).then(|| read.capsule(ends, rn - sag)),
                        grown: read.capsule(ends, rn + sag),
                    }
                });
                Exact::Noses(capsules.collect())
            }
            Cut::Polygon(_, excess, points) => {
                let points: Vec<[f64; 2]> = points.iter().map(|[z, r]| [*z, flip(*r)]).collect();
                Exact::Polygon(read.polygon(&points), read.given(*excess))
            }
            Cut::Thread(_, [z0, z1, r]) => {
                let (z0, z1) = (read.given(*z0), read.given(*z1));
                Exact::Thread(z0.least(z1), z0.greatest(z1), read.given(flip(*r)))
            }
            Cut::Drill([tip, radius, cone]) => Exact::Drill(Drill {
                tip: read.given(*tip),
                radius: read.given(*radius),
                cone: read.given(*cone),
            }),
        }
    }

    /// The greatest radius left in the bin; none where a part of the bin is not reached. Over several segments it
    /// is the least of those that each leaves alone, which is no less than what they leave together.
    pub fn leaves(&self, bin: Bin) -> Option<Long> {
        match self {
            Exact::Noses(all) => {
                let each = all.iter().filter_map(|c| c.shrunk?.leaves(bin));
                each.reduce(Long::least)
            }
            Exact::Polygon(p, excess) => Some(p.leaves(bin)? + *excess),
            Exact::Thread(..) => None,
            Exact::Drill(d) => Some(-d.at(bin.za)),
            Exact::Arc(s) => s.leaves(bin),
        }
    }

    /// The least radius reached in the bin; none where nothing reaches into it.
    pub fn deepest(&self, bin: Bin) -> Option<Long> {
        match self {
            Exact::Noses(all) => {
                let each = all.iter().filter_map(|c| c.grown.deepest(bin));
                each.reduce(Long::least)
            }
            Exact::Polygon(p, _) => p.deepest(bin),
            Exact::Thread(lo, hi, r) => (bin.za.greatest(*lo) < bin.zb.least(*hi)).then_some(*r),
            Exact::Drill(d) => (d.tip < bin.zb).then(|| -d.at(bin.zb)),
            Exact::Arc(s) => s.deepest(bin),
        }
    }

    /// By how much it is too much to say that all above the level is gone; `left` is what `leaves` says, within the bar.
    /// Of several segments the nearest one counts.
    fn sure(&self, bin: Bin, level: Long, left: Option<Long>) -> Off {
        if left.is_some_and(|left| left <= level) {
            return Off::Not;
        }
        match self {
            Exact::Noses(all) => {
                let each = all
                    .iter()
                    .filter_map(|c| Some((c.shrunk?.lacks(bin, level), c.shrunk?)));
                let (away, capsule) = each.min_by_key(|(away, _)| *away).expect("a capsule");
                match capsule.leaves(bin) {
                    Some(left) => Off::Radius(left - level, away),
                    None => Off::Strip(capsule.short(bin), away),
                }
            }
            Exact::Polygon(p, excess) => {
                let left = left.expect("a bin that is covered");
                Off::Radius(left - level, p.lacks(bin, level - *excess))
            }
            Exact::Thread(..) => unreachable!("a thread leaves no such bound"),
            Exact::Drill(d) => {
                let by = left.expect("a radius") - level;
                Off::Radius(by, d.away(by))
            }
            Exact::Arc(s) => match left {
                Some(left) => Off::Radius(left - level, s.lacks(bin, level)),
                None => Off::Strip(s.lacks(bin, level), s.lacks(bin, level)),
            },
        }
    }

    /// By how much it is too much to say that nothing below the level is touched; `still` says of a segment, by its
    /// number, that it does not move the bound. Of several segments the deepest one counts.
    fn deep(
        &self,
        bin: Bin,
        level: Long,
        reached: Option<Long>,
        still: impl Fn(Option<usize>) -> bool,
    ) -> Off {
        let by = match reached {
            Some(reached) if reached < level => level - reached,
            _ => return Off::Not,
        };
        let (k, shared, away) = match self {
            Exact::Noses(all) => {
                let away = all.iter().map(|c| c.grown.enters(bin, level)).max();
                let each = all
                    .iter()
                    .enumerate()
                    .filter_map(|(k, c)| Some((c.grown.deepest(bin)?, k)));
                let (_, k) = each.min().expect("a capsule");
                (Some(k), all[k].grown.shared(bin), away.expect("a capsule"))
            }
            Exact::Polygon(p, _) => (None, p.shared(bin), p.enters(bin, level, level - by)),
            Exact::Thread(lo, hi, _) => {
                let shared = bin.zb.least(*hi) - bin.za.greatest(*lo);
                (None, shared, by.least(shared))
            }
            Exact::Drill(d) => (None, bin.zb - d.tip, d.away(by).least(bin.zb - d.tip)),
            Exact::Arc(s) => {
                let away = s.enters(bin, level);
                (None, away, away)
            }
        };
        if still(k) {
            Off::Strip(shared, away)
        } else {
            Off::Radius(by, away)
        }
    }
}

/// The cut along one of its segments alone; another cut as it is.
fn alone(cut: &Cut, k: usize) -> Cut {
    match cut {
        Cut::Nose(side, rn, segments) => Cut::Nose(*side, *rn, vec![segments[k]]),
        other => other.clone(),
    }
}

impl Report {
    /// One more cut on a fresh bar.
    pub fn take(&mut self, bar: &Bar, cut: &Cut) {
        self.judge(
            bar,
            &Exact::new(cut, self.read),
            cut,
            &cells_after(bar, cut),
        );
    }

    /// One more nose with no sag, handed over with a sag as a margin and judged without it.
    pub fn take_with_margin(&mut self, bar: &Bar, cut: &Cut, margin: f64) {
        let Cut::Nose(side, rn, segments) = cut else {
            unreachable!("a nose has a margin")
        };
        let wider = segments
            .iter()
            .map(|[ar, az, br, bz, _]| [*ar, *az, *br, *bz, margin]);
        let wider = Cut::Nose(*side, *rn, wider.collect());
        self.judge(
            bar,
            &Exact::new(cut, self.read),
            &wider,
            &cells_after(bar, &wider),
        );
    }

    /// A bin's ends: as the library rounds them, or of the numbers that were typed.
    fn ends(&self, bar: &Bar, i: usize) -> Bin {
        match self.read {
            Read::Millimetres => {
                let [za, zb] = bin(&bar.spec, i).map(Long::from);
                Bin { za, zb }
            }
            Read::Typed => {
                let cell = self.read.given(bar.spec.cell);
                let za = self.read.given(bar.spec.z_min) + cell * Long::from(i as f64);
                let zb = (za + cell).least(self.read.given(bar.spec.z_max));
                Bin { za, zb }
            }
        }
    }

    /// The cells that a cut is said to leave, by the library's call for `made`.
    pub fn judge(&mut self, bar: &Bar, exact: &Exact, made: &Cut, cells: &[[f64; 4]]) {
        let read = self.read;
        self.calls += 1;
        let inside = made.is_inside();
        let flip = |r: f64| read.answer(if inside { -r } else { r });
        // The surface before the cut, and how deep it can come.
        let (start, floor) = match inside {
            true => (flip(bar.spec.bore), flip(bar.spec.outer)),
            false => (flip(bar.spec.outer), flip(bar.spec.bore)),
        };
        let bounds = |c: &[f64; 4]| if inside { (c[2], c[3]) } else { (c[1], c[0]) };
        for (i, cell) in cells.iter().enumerate() {
            let here = self.ends(bar, i);
            if here.za >= here.zb {
                continue;
            }
            self.bins += 1;
            let (sure, deep) = bounds(cell);
            let (sure_at, deep_at) = (flip(sure), flip(deep));
            let within = |r: Long| r.greatest(floor).least(start);
            let told = |of: &str, bound: f64, exactly: Option<Long>| {
                let exactly = exactly.map_or("no radius".into(), |r| read.mm(r.abs()).digits(30));
                let ends = bin(&bar.spec, i);
                format!(
                    "{} on {:?}: {of} of bin {i}, {ends:?}, {bound:?}, exactly {exactly}",
                    made.told(),
                    bar.spec
                )
            };
            if sure_at < start {
                self.sure.bins += 1;
                let left = exact.leaves(here).map(within);
                let off = exact.sure(here, sure_at, left);
                self.sure.take(off, read, || told("sure bound", sure, left));
            }
            self.deep.bins += (deep_at < start) as usize;
            let reached = exact.deepest(here).map(within);
            let alone = |k| bounds(&cells_after(bar, &alone(made, k))[i]).1;
            let still =
                |k: Option<usize>| deep_at == start || k.is_some_and(|k| flip(alone(k)) == start);
            let off = exact.deep(here, deep_at, reached, still);
            self.deep
                .take(off, read, || told("deep bound", deep, reached));
        }
    }
}
