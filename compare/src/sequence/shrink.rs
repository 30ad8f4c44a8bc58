//! Fewer steps, and smaller ones.
use super::{Action, Sequence, Step};
use crate::call::Call;
use crate::oracle::answer;
use crate::oracle::stock::{bar, fresh};
use crate::shrink::{Items, Parts, Shrink, Way, cut_items, runs, simple_numbers, ways_of_parts};

impl Step {
    fn parts<'a>(&'a mut self, parts: &mut Parts<'a>) {
        match &mut self.action {
            Action::Nose { rn, segments, .. } => {
                parts.items.push(Items::Flat(segments, 5));
                parts.numbers.push(rn);
            }
            Action::Polygon { excess, points, .. } => {
                parts.items.push(Items::Flat(points, 2));
                parts.numbers.push(excess);
            }
            Action::Cut(cut) => parts.numbers.extend(simple_numbers(cut)),
            Action::Move { removed: rings, .. } | Action::Rebuild { more: rings, .. } => {
                parts.items.push(Items::Flat(rings, 4));
            }
            Action::Ring(ring) => parts.numbers.extend(ring),
            Action::EnvelopeAt(z) => parts.numbers.push(z),
            Action::Range { lo, hi } => parts.numbers.extend([lo, hi]),
            Action::Check { passes, targets } => {
                parts.items.extend(cut_items(passes));
                parts.pairs.push(targets);
            }
            _ => {}
        }
        if let Some(damage) = &mut self.damage {
            parts.numbers.extend(damage.numbers());
        }
    }

    /// A simpler step of its kind; false where there is none.
    fn simplify(&mut self) -> bool {
        if let Action::Rebuild { edition, .. } = &mut self.action
            && edition.take().is_some()
        {
            return true;
        }
        let Action::Move { removed, .. } = &self.action else {
            return self.damage.take().is_some();
        };
        // A move of one ring or of none may do as a ring or a commit.
        self.action = match removed.as_chunks::<4>().0 {
            [ring] => Action::Ring(*ring),
            [] => Action::Commit { back: 0 },
            _ => return self.damage.take().is_some(),
        };
        true
    }
}

/// A sequence whose own stock is not accepted is none.
fn accepted(sequence: &Sequence) -> bool {
    let Sequence {
        spec, cells, store, ..
    } = sequence.clone();
    answer(&Call::Volume { spec, cells, store }).is_ok()
}

impl Shrink for Sequence {
    fn parts(&mut self) -> Parts<'_> {
        let mut parts = Parts {
            spec: Some(&mut self.spec),
            cells: vec![&mut self.cells],
            items: vec![Items::Store(&mut self.store)],
            stamps: vec![&mut self.stamp],
            ..Parts::default()
        };
        for step in &mut self.steps {
            step.parts(&mut parts);
        }
        parts
    }

    fn ways(&self) -> Vec<Way<Self>> {
        let mut ways: Vec<Way<Self>> = vec![];
        for (start, count) in runs(self.steps.len()) {
            ways.push(Box::new(move |s: &mut Sequence| {
                let end = start + count;
                let whole = end <= s.steps.len();
                if whole {
                    s.steps.drain(start..end);
                }
                whole
            }));
        }
        ways.push(Box::new(|s: &mut Sequence| {
            let Ok(bar) = bar(&s.spec) else { return false };
            let fresh = fresh(&bar).as_flattened().to_vec();
            let new = s.cells != fresh;
            s.cells = fresh;
            new
        }));
        for k in 0..self.steps.len() {
            let way = move |s: &mut Sequence| s.steps.get_mut(k).is_some_and(Step::simplify);
            ways.push(Box::new(way));
        }
        ways.extend(ways_of_parts(self));
        let checked = |way: Way<Self>| -> Way<Self> {
            Box::new(move |s: &mut Sequence| way(s) && accepted(s))
        };
        ways.into_iter().map(checked).collect()
    }
}
