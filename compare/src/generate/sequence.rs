//! Sequences of calls on one stock.
use super::Rng;
use super::blocks::{base_or_blocks, ends, patchy_cells};
use super::changes::{edition, other, stamp};
use super::cuts::{damaged_list, drill_cut, nose_radius, polygon_excess};
use super::cuts::{polygon_points, segments, side, thread_numbers};
use super::numbers::{any, damaged, edge, outside};
use super::passes::in_sequence;
use super::rings::{about_the_limit, damaged_rings, few_stored, limit_stored, nonempty};
use super::rings::{far_edge, ring, side_by_side};
use super::stock::{damaged_spec, z_near};
use crate::call::{Room, Simple, Stamp, Store};
use crate::oracle::MOST_RINGS;
use crate::oracle::ranges::blocks_len;
use crate::oracle::stock::{Bar, fresh};
use crate::sequence::{Action, Damage, Sequence, Step};

/// No sequence has more steps.
pub const MOST_STEPS: usize = 40;

/// What the steps of a sequence are made from.
struct Maker {
    base: Bar,
    /// The stamp at the start.
    stamp: Stamp,
    /// Rings that were used before, to meet again.
    used: Vec<[f64; 4]>,
    steps: Vec<Step>,
}

pub fn sequence(rng: &mut Rng) -> Sequence {
    let base = base_or_blocks(rng);
    let cells = match rng.below(4) {
        0 => patchy_cells(rng, &base),
        _ => fresh(&base),
    };
    let next = ring(rng, &base);
    let (rings, next) = match rng.below(16) {
        0 => limit_stored(rng, &base),
        1..6 => few_stored(rng, &base, next),
        _ => (vec![], next),
    };
    let mut used = rings.clone();
    used.push(next);
    let mut maker = Maker {
        base,
        stamp: stamp(rng),
        used,
        steps: vec![],
    };
    let most = rng.pick(&[2, 5, 10, 20, MOST_STEPS]);
    let count = 1 + rng.below(most);
    let at = rng.below(count);
    while maker.steps.len() < count {
        if maker.steps.len() == at && rings.len() > 60 {
            maker.step(rng, Action::Ring(next));
        } else {
            maker.some_steps(rng);
        }
    }
    maker.steps.truncate(MOST_STEPS);
    Sequence {
        spec: base.spec,
        stamp: maker.stamp,
        cells: cells.as_flattened().to_vec(),
        store: store(rng, &rings),
        steps: maker.steps,
    }
}

/// The rings as lent, with room for all that may be stored, for few more or for none.
fn store(rng: &mut Rng, rings: &[[f64; 4]]) -> Store {
    let room = match rng.below(12) {
        0 => rings.len() + rng.below(5),
        1 => 64,
        2 => MOST_RINGS + 44,
        3 => 0,
        _ => MOST_RINGS,
    };
    let len = 4 * room.max(rings.len()) + rng.below(4);
    let mut lent = rings.as_flattened().to_vec();
    lent.resize_with(len, || any(rng));
    Store {
        rings: lent,
        count: rings.len(),
    }
}

impl Maker {
    /// One more step; now and then its call is damaged.
    fn step(&mut self, rng: &mut Rng, action: Action) {
        let damage = rng.once_in(12).then(|| self.damage(rng, &action));
        self.steps.push(Step { action, damage });
    }

    /// A call, and after a preview as a rule its commit. A difference from an earlier stock is one for
    /// that stock, so that before its commit the stock is as a rule again that one.
    fn some_steps(&mut self, rng: &mut Rng) {
        if rng.once_in(30) {
            return self.kept_over_a_rebuild(rng);
        }
        let action = match rng.below(38) {
            0..5 => self.nose(rng),
            5..7 => self.polygon(rng),
            7..12 => Action::Cut(self.simple(rng)),
            12..14 => Action::Commit { back: rng.below(3) },
            14..17 => {
                let back = rng.below(3);
                self.moved(rng, back)
            }
            17..23 => Action::Ring(self.some_ring(rng)),
            23..26 => Action::Difference {
                back: rng.below(4),
                from_now: rng.once_in(3),
            },
            26 => Action::Return { back: rng.below(4) },
            27 => self.rebuild(rng),
            28 | 29 => Action::Volume,
            30 => Action::Renew,
            31..34 => {
                let (lo, hi) = ends(rng, &self.base);
                Action::Range { lo, hi }
            }
            34 | 35 => {
                let (passes, targets) = in_sequence(rng, &self.base);
                Action::Check { passes, targets }
            }
            _ => Action::EnvelopeAt(match rng.below(8) {
                0 => any(rng),
                1 => outside(rng),
                _ => z_near(rng, &self.base),
            }),
        };
        let commits = match action {
            Action::Nose { .. } | Action::Polygon { .. } | Action::Cut(_) => !rng.once_in(4),
            Action::Difference { .. } => rng.once_in(2),
            _ => false,
        };
        let first = match action {
            Action::Difference {
                back,
                from_now: false,
            } if !rng.once_in(4) => Some(back),
            _ => None,
        };
        self.step(rng, action);
        if commits {
            if let Some(back) = first {
                self.step(rng, Action::Return { back });
            }
            let commit = match rng.below(4) {
                0 => self.moved(rng, 0),
                _ => Action::Commit { back: 0 },
            };
            self.step(rng, commit);
        }
    }

    /// Two cuts of a rebuilt stock are previewed, the second is committed, and the stock is rebuilt: the
    /// first list, kept, has the stock's stamp again, but where the edition is another one.
    fn kept_over_a_rebuild(&mut self, rng: &mut Rng) {
        let again = Action::Rebuild {
            more: vec![],
            edition: None,
        };
        self.step(rng, again.clone());
        for _ in 0..2 {
            let cut = Action::Cut(self.simple(rng));
            self.step(rng, cut);
        }
        self.step(rng, Action::Commit { back: 0 });
        let rebuilt = match rng.below(4) {
            0 => self.rebuild(rng),
            _ => again,
        };
        self.step(rng, rebuilt);
        let kept = match rng.below(4) {
            0 => self.moved(rng, 1),
            _ => Action::Commit { back: 1 },
        };
        self.step(rng, kept);
    }

    fn nose(&self, rng: &mut Rng) -> Action {
        let rn = nose_radius(rng, &self.base);
        let segments = segments(rng, &self.base, rn);
        Action::Nose {
            side: side(rng),
            rn: damaged(rng, rn),
            segments: damaged_list(rng, segments),
        }
    }

    fn polygon(&self, rng: &mut Rng) -> Action {
        let points = polygon_points(rng, &self.base);
        let excess = polygon_excess(rng);
        Action::Polygon {
            side: side(rng),
            excess: damaged(rng, excess),
            points: damaged_list(rng, points),
        }
    }

    fn simple(&self, rng: &mut Rng) -> Simple {
        if rng.once_in(3) {
            return drill_cut(rng, &self.base);
        }
        let [z0, z1, radius] = thread_numbers(rng, &self.base);
        match rng.below(2) {
            0 => Simple::ThreadCut { z0, z1, radius },
            _ => Simple::ThreadCutInner { z0, z1, radius },
        }
    }

    /// A ring on the bar, one that was used before, or a damaged one.
    fn some_ring(&mut self, rng: &mut Rng) -> [f64; 4] {
        let mut next = match rng.below(4) {
            0 => rng.pick(&self.used),
            _ => ring(rng, &self.base),
        };
        self.used.push(next);
        match rng.below(40) {
            0 => next[rng.below(4)] = rng.pick(&[f64::NAN, f64::INFINITY, f64::NEG_INFINITY]),
            1 => next.swap(0, 1),
            2 => far_edge(rng, &mut next),
            _ => {}
        }
        next
    }

    fn rings(&mut self, rng: &mut Rng) -> Vec<f64> {
        let mut rings = match rng.below(40) {
            // As many as a store holds, or one fewer or more.
            0 => side_by_side(&self.base, MOST_RINGS - 1 + rng.below(3)),
            1 => {
                let (mut rings, whole) = about_the_limit(rng, &self.base);
                rings.push(whole);
                rings
            }
            _ => (0..rng.below(4)).map(|_| self.some_ring(rng)).collect(),
        };
        if !rng.once_in(12) {
            rings.retain(nonempty);
        }
        damaged_rings(rng, rings)
    }

    fn moved(&mut self, rng: &mut Rng, back: usize) -> Action {
        let removed = self.rings(rng);
        Action::Move { back, removed }
    }

    fn rebuild(&mut self, rng: &mut Rng) -> Action {
        Action::Rebuild {
            more: self.rings(rng),
            edition: rng.once_in(3).then(|| edition(rng)),
        }
    }

    fn damage(&self, rng: &mut Rng, action: &Action) -> Damage {
        damage(rng, &self.base, self.stamp, action)
    }
}

/// The kinds of damage that can befall the action's call, as `damage` numbers them.
fn kinds(action: &Action) -> &'static [usize] {
    match action {
        Action::Nose { .. } | Action::Polygon { .. } | Action::Cut(_) => &[0, 1, 2, 3, 3, 10],
        Action::Difference { .. } => &[0, 1, 2, 3, 3, 10],
        Action::Commit { .. } => &[0, 1, 2, 4, 4, 5, 5, 6, 10, 11, 12, 13, 14, 15, 16, 17, 18],
        Action::Move { .. } => &[
            0, 1, 2, 4, 4, 5, 6, 7, 8, 9, 10, 11, 12, 13, 14, 15, 16, 17, 18,
        ],
        Action::Ring(_) => &[0, 7, 7, 8, 9, 12],
        Action::Rebuild { .. } => &[0, 1, 2, 9, 10, 16],
        Action::Renew => &[0, 1, 2, 16],
        Action::Range { .. } => &[0, 1, 2, 13, 14, 15, 16, 17],
        Action::Check { .. } => &[0, 1, 2, 10, 12, 13, 14, 15, 16, 17],
        Action::Volume => &[0, 1, 2, 7, 8, 9],
        Action::EnvelopeAt(_) | Action::Return { .. } => &[0, 1, 2],
    }
}

fn damage(rng: &mut Rng, base: &Bar, start: Stamp, action: &Action) -> Damage {
    let edges = [
        -0.,
        f64::NAN,
        base.spec.outer.next_up(),
        outside(rng),
        edge(rng),
    ];
    let value = rng.pick(&edges);
    match rng.pick(kinds(action)) {
        0 => {
            let mut tries = (0..100).map(|_| damaged_spec(rng, base));
            let damaged = tries.find(|s| *s != base.spec);
            Damage::Spec(damaged.unwrap_or(base.spec))
        }
        1 => Damage::Cell {
            at: rng.below(4 * base.n),
            value,
        },
        2 => Damage::Cells(4 * base.n + rng.below(9) - rng.below(5)),
        3 => Damage::Room(Room {
            indices: rng.below(6),
            records: rng.below(48),
        }),
        4 => Damage::Record {
            at: rng.below(24),
            value,
        },
        5 => Damage::Index {
            at: rng.below(3),
            value: rng.pick(&[0, base.n, usize::MAX]),
        },
        6 => Damage::Changes(rng.pick(&[0, 1, base.n + 1, usize::MAX, 1 << 61])),
        7 => Damage::Stored {
            at: rng.below(12),
            value,
        },
        8 => Damage::Count(rng.pick(&[0, 1, MOST_RINGS + 1, usize::MAX, 1 << 62])),
        9 => Damage::Rings(rng.below(40)),
        10 => Damage::Stamp(other(rng, start)),
        11 => Damage::Listed(other(rng, start)),
        12 => Damage::Both(Stamp {
            edition: edition(rng),
            generation: u64::MAX - rng.below(3) as u64,
        }),
        13 => Damage::Block {
            at: rng.below(130),
            value: rng.pick(&[value, 0., f64::INFINITY, base.spec.bore]),
        },
        14 => Damage::Ulp(rng.below(130)),
        15 => Damage::Exchanged(rng.below(130)),
        16 => Damage::Blocks(blocks_len(base.n) + rng.below(4) - rng.below(3)),
        17 => Damage::Earlier,
        _ => Damage::Last(rng.pick(&[base.n, usize::MAX])),
    }
}
