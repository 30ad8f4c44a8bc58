//! Proposed passes with their targets, in any order, and proposals.
use super::Rng;
use super::blocks::{damaged_blocks, own, patchy_cells, some_len};
use super::changes::{edition, stamp};
use super::cuts::{nose_radius, polygon_excess, polygon_points, segments};
use super::numbers::{any, edge, outside};
use super::stock::{base, damaged_cells, damaged_spec, good_cells, r_near, z_near};
use crate::call::{Call, PassRoom, Passes, Spec, Stamp};
use crate::oracle::cuts::stock_with_length;
use crate::oracle::passes::{cells_of, inside, turn};
use crate::oracle::stock::{Bar, bar, fresh};
use crate::oracle::{MANY_CELLS, MOST_CELLS, MOST_PASSES, clean};

type Cell = [f64; 4];

/// A bar of 1 to 130 bins, now and then of many or of the most.
fn bar_of_passes(rng: &mut Rng) -> Bar {
    if rng.once_in(2) {
        return base(rng);
    }
    let n = match rng.below(1000) {
        0 => rng.pick(&[MANY_CELLS, MANY_CELLS, MANY_CELLS + 1, MOST_CELLS]),
        _ => 1 + rng.below(130),
    };
    bar_of(rng, n)
}

/// A bar of so many bins, or by rounding one more.
fn bar_of(rng: &mut Rng, n: usize) -> Bar {
    loop {
        let cell = rng.pick(&[1., 0.5, 0.25, 0.1, 0.7, 1. / 3.]);
        let z_min = rng.pick(&[0., -8., 0.1, -20.3, 100.]);
        let outer = rng.pick(&[10., 50., 12.7, 30.]);
        let spec = Spec {
            z_min,
            z_max: z_min + n as f64 * cell,
            outer,
            bore: rng.pick(&[0., 0., -0., 3.175]),
            cell,
            max_cells: rng.pick(&[MOST_CELLS, usize::MAX]),
        };
        if let Ok(Bar { n, .. }) = bar(&spec) {
            return Bar { spec, n };
        }
    }
}

/// How many cuts: few as a rule, now and then about the limit.
fn how_many(rng: &mut Rng, base: &Bar) -> usize {
    let many = rng.below(if base.n > 1000 { 400 } else { 60 });
    match many {
        0 => MOST_PASSES - 1 + rng.below(3),
        1 | 2 => rng.below(MOST_PASSES + 2),
        3..8 => 0,
        8..20 => rng.below(33),
        _ => 1 + rng.below(6),
    }
}

/// A good outside cut: its kind, its numbers with any bits in the places that are not used, and what stands beside them.
fn good_cut(rng: &mut Rng, base: &Bar) -> (u32, [f64; 6], Vec<f64>) {
    let mut numbers = [0.; 6].map(|_| any(rng));
    let kind = rng.pick(&[0, 0, 0, 0, 1, 1, 2, 2, 3, 3]);
    let mut beside = vec![];
    match kind {
        0 => {
            let rn = nose_radius(rng, base);
            let sag = match rng.below(6) {
                0 => rn,
                1 => rng.between(0., rn),
                2 => rng.written(0., 1.),
                _ => 0.,
            };
            let (a, b) = (z_near(rng, base), z_near(rng, base));
            let r = r_near(rng, base);
            let q = if rng.once_in(2) { r } else { r_near(rng, base) };
            numbers = [rn, sag, r + rn.min(10.), a, q + rn.min(10.), b];
        }
        1 => {
            let z = [z_near(rng, base), z_near(rng, base)];
            numbers[..3].copy_from_slice(&[z[0], z[1], r_near(rng, base).max(0.)]);
        }
        2 => {
            numbers[0] = nose_radius(rng, base);
            beside = segments(rng, base, numbers[0]);
            // a long path is the exception, since each is walked four times
            if !rng.once_in(20) {
                beside.truncate(5 * rng.below(7));
            }
        }
        _ => {
            numbers[0] = polygon_excess(rng);
            beside = polygon_points(rng, base);
            if !rng.once_in(20) {
                beside.truncate(2 * rng.below(9));
            }
        }
    }
    let used = [6, 3, 1, 1][kind as usize];
    for x in &mut numbers[..used] {
        *x = x.clamp(-1e6, 1e6);
    }
    (kind, numbers, beside)
}

/// So many good cuts; a part may be that of another cut again, or lie within it.
fn good_passes(rng: &mut Rng, base: &Bar, count: usize) -> Passes {
    let mut passes = Passes::default();
    for k in 0..count {
        let (kind, numbers, beside) = good_cut(rng, base);
        passes.push(kind, numbers, &beside);
        if !(2..4).contains(&kind) {
            // no cut without a list reads its part
            passes.parts[2 * k] = rng.word() as usize;
            passes.parts[2 * k + 1] = rng.below(9);
        } else if rng.once_in(8) {
            let of = rng.below(k + 1);
            if passes.kinds[of] == kind {
                let size = [5, 2][kind as usize - 2];
                let (start, len) = (passes.parts[2 * of], passes.parts[2 * of + 1]);
                let gone = size * rng.below(len / size + 1);
                passes.parts[2 * k] = start + gone;
                passes.parts[2 * k + 1] = len - gone;
            }
        }
    }
    if rng.once_in(4) {
        passes.lists.extend((0..rng.below(5)).map(|_| 0.5));
    }
    passes
}

/// One cut is no longer good: a number outside its domain, another kind, a part that does not lie in the lists.
fn damage_cut(rng: &mut Rng, passes: &mut Passes) {
    let count = passes.kinds.len();
    if count == 0 {
        return;
    }
    let k = match rng.below(4) {
        0 => count - 1,
        1 => 0,
        _ => rng.below(count),
    };
    let len = passes.lists.len();
    let start = passes.parts[2 * k];
    let j = rng.below(3);
    match rng.below(22) {
        0 | 1 => passes.numbers[6 * k] = outside(rng),
        2 => passes.numbers[6 * k] = -1.,
        3 => passes.numbers[6 * k + j] = outside(rng),
        4 => passes.numbers[6 * k + j] = edge(rng),
        5 | 6 => passes.kinds[k] = 9,
        7 => passes.kinds[k] = rng.pick(&[10, 11, u32::MAX, 1 << 31, 256, 1 << 16]),
        8 => passes.kinds[k] = rng.word() as u32,
        9 => passes.parts[2 * k] = rng.pick(&[len + 1, usize::MAX, 1 << 63, usize::MAX - 4]),
        10 => {
            let left = len.wrapping_sub(start);
            passes.parts[2 * k + 1] = left.wrapping_add(1);
        }
        11 => passes.parts[2 * k + 1] = usize::MAX.wrapping_sub(start).wrapping_add(rng.below(12)),
        12 => passes.parts[2 * k + 1] = passes.parts[2 * k + 1].wrapping_sub(1),
        13 => {
            (
                passes.kinds[k],
                passes.parts[2 * k],
                passes.parts[2 * k + 1],
            ) = (2, len, 0)
        }
        14 => passes.kinds[k] = rng.below(4) as u32,
        15 if len > 0 => {
            let at = rng.below(len);
            passes.lists[at] = outside(rng);
        }
        16 if len > 0 => {
            let at = rng.below(len);
            passes.lists[at] = -passes.lists[at];
        }
        // of the last part, behind the end of the lists
        17..21 => passes.parts[2 * k] = start.wrapping_add(1 + rng.below(3)),
        _ => passes.numbers[6 * k + 5] = f64::NAN,
    }
}

/// Now and then an inside cut, one or two that are not good, or too few or too many numbers and parts.
fn damaged_passes(rng: &mut Rng, mut passes: Passes) -> Passes {
    let count = passes.kinds.len();
    match rng.below(12) {
        0 => damage_cut(rng, &mut passes),
        1 => (0..2).for_each(|_| damage_cut(rng, &mut passes)),
        2 if count > 0 && rng.once_in(2) => {
            passes.kinds[rng.below(count)] = 4 + rng.below(5) as u32;
            if rng.once_in(2) {
                damage_cut(rng, &mut passes);
            }
        }
        3 if rng.once_in(2) => {
            let gone = rng.pick(&[1, 1, 1, 3, 4, 5, 6, 7]);
            passes
                .numbers
                .truncate(passes.numbers.len().saturating_sub(gone));
        }
        4 if rng.once_in(2) => {
            let gone = 1 + rng.below(3);
            passes
                .parts
                .truncate(passes.parts.len().saturating_sub(gone));
        }
        5 => {
            passes
                .numbers
                .extend((0..1 + rng.below(7)).map(|_| f64::NAN));
            passes
                .parts
                .extend((0..1 + rng.below(3)).map(|_| usize::MAX));
        }
        _ => {}
    }
    passes
}

/// The cells that the cuts leave, where all of them are accepted; else those before.
fn left(base: &Bar, cells: &[Cell], passes: &Passes) -> Vec<Cell> {
    let accepted = bar(&base.spec).expect("a base is accepted");
    let mut stock = stock_with_length(&accepted, cells);
    let outside = passes.kinds.len() <= MOST_PASSES && !passes.kinds.iter().any(|k| inside(*k));
    match outside.then(|| turn(&mut stock, 0, passes)) {
        Some(Ok(_)) => cells_of(&stock),
        _ => cells.to_vec(),
    }
}

/// Targets about the cells, two numbers a bin: the very bounds, wider ones, and then one bin an ulp tighter.
fn targets_about(rng: &mut Rng, cells: &[Cell]) -> Vec<[f64; 2]> {
    let kind = rng.below(8);
    let wide = rng.pick(&[0., 0.001, 1., 30.]);
    let mut targets: Vec<[f64; 2]> = cells.iter().map(|c| [c[0], c[1]]).collect();
    for t in &mut targets {
        match kind {
            0..3 => {}
            3 => *t = [t[0] - wide, t[1] + wide],
            4 => *t = [(t[0] - wide).floor(), (t[1] + wide).ceil()],
            5 => *t = [-1e6, 1e6],
            6 => *t = [t[0].next_down(), t[1].next_up()],
            _ => *t = [t[0] - rng.between(0., 2.), t[1] + rng.between(0., 2.)],
        }
    }
    for _ in 0..rng.pick(&[0, 0, 1, 1, 1, 2]) {
        let i = rng.below(cells.len());
        tighten(rng, &mut targets[i], cells[i]);
    }
    if rng.once_in(6) {
        let zeros = targets.as_flattened_mut().iter_mut();
        zeros.filter(|x| **x == 0.).for_each(|x| *x = -0.);
    }
    targets
}

/// One bound an ulp within the cell's, so that the bin misses its target; the other gives way.
fn tighten(rng: &mut Rng, target: &mut [f64; 2], cell: Cell) {
    match rng.below(2) {
        0 => {
            target[0] = clean(cell[0]).next_up();
            target[1] = target[1].max(target[0]);
        }
        _ => {
            target[1] = clean(cell[1]).next_down();
            target[0] = target[0].min(target[1]);
        }
    }
}

/// The targets as lent, now and then one that is none, or too few or too many.
fn damaged_targets(rng: &mut Rng, targets: &[[f64; 2]]) -> Vec<f64> {
    let mut lent = targets.as_flattened().to_vec();
    let at = rng.below(lent.len());
    let lower = at & !1;
    match rng.below(60) {
        0 => lent[at] = outside(rng),
        1 => lent[at] = edge(rng),
        2 => (lent[lower], lent[lower + 1]) = (lent[lower + 1].next_up(), lent[lower + 1]),
        3 => lent.truncate(rng.pick(&[0, at, lent.len() - 1, lent.len() - 2])),
        4 => lent.extend(vec![1.; 1 + rng.below(3)]),
        5 => (lent[lower], lent[lower + 1]) = (lent[lower], lent[lower]),
        _ => {}
    }
    lent
}

/// A stamp; now and then its generation is spent with the last cut, or by the next one.
fn stamp_before(rng: &mut Rng, count: usize) -> Stamp {
    let count = count as u64;
    match rng.below(16) {
        0 => Stamp {
            edition: edition(rng),
            generation: u64::MAX - count,
        },
        1 => Stamp {
            edition: edition(rng),
            generation: u64::MAX - count.saturating_sub(1 + rng.below(2) as u64),
        },
        _ => stamp(rng),
    }
}

/// A length that is now and then another.
fn some_room(rng: &mut Rng, len: usize) -> usize {
    match rng.below(50) {
        0 => rng.pick(&[0, len / 4, len - 1, len - 4, len + 1, len + 4]),
        _ => len,
    }
}

pub fn check(rng: &mut Rng) -> Call {
    let base = bar_of_passes(rng);
    let cells = match rng.below(3) {
        0 => patchy_cells(rng, &base),
        _ => fresh(&base),
    };
    let count = how_many(rng, &base);
    let passes = good_passes(rng, &base, count);
    let passes = damaged_passes(rng, passes);
    let end = left(&base, &cells, &passes);
    let targets = targets_about(rng, &end);
    Call::CheckPasses {
        spec: damaged_spec(rng, &base),
        stamp: stamp_before(rng, count),
        blocks: match rng.below(4) {
            0 => damaged_blocks(rng, &base, &cells),
            _ => own(&base, &cells),
        },
        cells: damaged_cells(rng, &base, &cells),
        targets: damaged_targets(rng, &targets),
        passes,
        after_len: some_room(rng, 4 * base.n),
        after_blocks_len: match rng.below(6) {
            0 => some_len(rng, base.n),
            _ => 2 * base.n.div_ceil(64),
        },
    }
}

/// The same call with its cuts in a random order. What the numbers and parts do not reach is said: it is no number and no part.
pub fn another_order(rng: &mut Rng, call: &Call) -> Call {
    let mut call = call.clone();
    let Call::CheckPasses { passes, .. } = &mut call else {
        unreachable!()
    };
    let count = passes.kinds.len();
    let mut order: Vec<usize> = (0..count).collect();
    for k in (1..count).rev() {
        order.swap(k, rng.below(k + 1));
    }
    let before = passes.clone();
    passes.kinds = order.iter().map(|k| before.kinds[*k]).collect();
    let six = |k: &usize| [0, 1, 2, 3, 4, 5].map(|j| before.number(*k, j));
    passes.numbers = order.iter().flat_map(six).collect();
    let two = |k: &usize| match before.parts.get(2 * k..2 * k + 2) {
        Some(two) => [two[0], two[1]],
        None => [usize::MAX, usize::MAX],
    };
    passes.parts = order.iter().flat_map(two).collect();
    call
}

/// Targets as a shop has them: a few steps, and between two of them a bin or more in which either radius will do.
fn steps(rng: &mut Rng, base: &Bar) -> Vec<[f64; 2]> {
    let s = base.spec;
    let most = 1 + base.n / 3;
    let count = 1 + rng.below(6.min(most));
    let mut targets: Vec<[f64; 2]> = vec![];
    let tolerance = rng.pick(&[0.01, 0.05, 0.5, 0.]);
    let mut before: Option<f64> = None;
    for k in 0..count {
        let r = rng.written(s.bore, s.outer);
        let bins = (base.n - targets.len()) / (count - k);
        if let Some(before) = before.filter(|_| !rng.once_in(4)) {
            let loose = [before.min(r) - 1., before.max(r).max(s.outer)];
            let wide = 1 + rng.below(3);
            targets.extend(vec![loose; wide.min(bins.saturating_sub(1))]);
        }
        let more = bins.saturating_sub(if k > 0 { rng.below(3) } else { 0 });
        targets.extend(vec![[r - tolerance, r + tolerance]; more]);
        before = Some(r);
    }
    targets.resize(base.n, *targets.last().unwrap_or(&[s.bore, s.outer]));
    targets
}

fn any_targets(rng: &mut Rng, base: &Bar, cells: &[Cell]) -> Vec<[f64; 2]> {
    match rng.below(8) {
        0 => targets_about(rng, cells),
        1 => {
            let pair = |rng: &mut Rng| {
                let (a, b) = (r_near(rng, base), r_near(rng, base));
                [a.min(b), a.max(b)]
            };
            let few = [pair(rng), pair(rng), pair(rng)];
            (0..base.n).map(|_| rng.pick(&few)).collect()
        }
        2 => {
            let pair = |_| {
                let (a, b) = (r_near(rng, base), r_near(rng, base));
                [a.min(b), a.max(b)]
            };
            (0..base.n).map(pair).collect()
        }
        3 => {
            let r = edge(rng).min(1e6);
            vec![[r, r]; base.n]
        }
        // a pass for every bin: no neighbour is to stand higher
        4 => {
            let (bore, outer) = (clean(base.spec.bore), base.spec.outer);
            let below = |_| [bore, rng.between(bore, outer)];
            (0..base.n).map(below).collect()
        }
        _ => steps(rng, base),
    }
}

/// Room for passes: plenty as a rule, else for few, or one number short.
fn pass_room(rng: &mut Rng) -> PassRoom {
    let (mut kinds, mut numbers, mut parts) = (MOST_PASSES, 6 * MOST_PASSES, 2 * MOST_PASSES);
    let few = rng.below(5);
    match rng.below(16) {
        0 => kinds = few,
        1 => numbers = 6 * few + rng.below(6),
        2 => parts = 2 * few + rng.below(2),
        3 => (kinds, numbers, parts) = (few, 6 * few, 2 * few),
        4..8 => {
            let over = rng.below(9);
            kinds = MOST_PASSES + over;
            numbers = 6 * (MOST_PASSES + over) + rng.below(6);
            parts = 2 * (MOST_PASSES + over) + rng.below(2);
        }
        _ => {}
    }
    PassRoom {
        kinds,
        numbers,
        parts,
    }
}

pub fn propose(rng: &mut Rng) -> Call {
    let mut base = bar_of_passes(rng);
    if rng.once_in(12) {
        // more bins than there may be passes
        let n = 125 + rng.below(10);
        base = bar_of(rng, n);
    }
    let cells = match rng.below(4) {
        0 => good_cells(rng, &base),
        _ => fresh(&base),
    };
    let targets = any_targets(rng, &base, &cells);
    let rn = match rng.below(40) {
        0 => outside(rng),
        1 => edge(rng),
        2 => rng.pick(&[-1., -0., f64::from_bits(1)]),
        3..12 => nose_radius(rng, &base),
        _ => rng.pick(&[0.2, 0.4, 0.8, 1.2, 0.]),
    };
    Call::ProposePasses {
        spec: damaged_spec(rng, &base),
        cells: damaged_cells(rng, &base, &cells),
        targets: damaged_targets(rng, &targets),
        rn,
        room: pass_room(rng),
    }
}

/// Cuts and targets for a stock of a sequence, whatever its cells are then: targets that every stock meets, or of a radius.
pub fn in_sequence(rng: &mut Rng, base: &Bar) -> (Passes, Vec<f64>) {
    let count = rng.below(5);
    let passes = good_passes(rng, base, count);
    let passes = match rng.below(6) {
        0 => damaged_passes(rng, passes),
        _ => passes,
    };
    let s = base.spec;
    let target = match rng.below(3) {
        0 => [s.bore, r_near(rng, base).max(s.bore)],
        _ => [s.bore, s.outer],
    };
    let targets = vec![target; base.n];
    (passes, damaged_targets(rng, &targets))
}
