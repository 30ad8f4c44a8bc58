//! Req 13 of 02: passes checked and proposed.
//!
//! camlib has neither. A check previews and applies each cut on one `TurnStock`, in turn, by camlib's own code with 01's length,
//! after what 01 and 02 refuse; then each bin is held against its target. The proposer is the rule of docs/PASSES.md.
use super::cuts::{nose_numbers, polygon_numbers, stock_with_length, thread};
use super::ranges::{blocks, counted, kept};
use super::stock::{Bar, bar, camlib_stock, cells};
use super::{
    ARC, ARGUMENT, CELLS, GENERATION, MOST_PASSES, TARGETS, clean, demand, demand_at, usable,
};
use crate::call::{Answer, Outcome, Passes, Reason, Spec, Stamp, Verdict};
use length::turning::stock::{TurnChange, TurnSide, TurnStock};

/// An inside cut by its kind.
pub fn inside(kind: u32) -> bool {
    (4..=8).contains(&kind)
}

/// 25: two numbers a bin, each usable, the lower not above the upper; as they are read.
fn good_targets(bar: &Bar, lent: &[f64]) -> Result<Vec<[f64; 2]>, Reason> {
    demand(lent.len() == 2 * bar.n, TARGETS)?;
    let (targets, _) = lent.as_chunks::<2>();
    let good = |t: &[f64; 2]| t.iter().all(|x| usable(*x)) && t[0] <= t[1];
    demand(targets.iter().all(good), TARGETS)?;
    Ok(targets.iter().map(|t| t.map(clean)).collect())
}

/// What cut k of outside cuts proposes, with room for every cell: 13, 5.
fn preview(stock: &TurnStock, passes: &Passes, k: usize) -> Result<Vec<TurnChange>, Reason> {
    let number = |j: usize| passes.number(k, j);
    let part = || passes.part(k).ok_or(Reason::only(ARGUMENT));
    let nose = |rn: f64, segments: &[f64]| {
        let (rn, segments) = nose_numbers(rn, segments)?;
        let changes = stock.preview_segments(&segments, rn, TurnSide::Outer);
        Ok(changes.expect("camlib previews what 01 accepts"))
    };
    match passes.kinds[k] {
        0 => {
            let line = [number(2), number(3), number(4), number(5), number(1)];
            nose(number(0), &line)
        }
        1 => {
            let [z0, z1, radius] = thread(number(0), number(1), number(2))?;
            Ok(stock.thread_cut(z0, z1, radius))
        }
        2 => nose(number(0), part()?),
        3 => {
            let (excess, points) = polygon_numbers(number(0), part()?)?;
            Ok(stock.preview_polygon(&points, TurnSide::Outer, excess))
        }
        9 => Err(Reason::only(ARC)),
        _ => Err(Reason::only(ARGUMENT)),
    }
}

/// Every cut in turn, of outside cuts: the first that is refused by its preview, or by its commit with 12, ends it, with its
/// place. The generation afterwards.
pub fn turn(stock: &mut TurnStock, generation: u64, passes: &Passes) -> Result<u64, Reason> {
    let mut now = generation;
    for k in 0..passes.kinds.len() {
        let changes = preview(stock, passes, k).map_err(|r| Reason::at(r.number, k))?;
        demand_at(now < u64::MAX, GENERATION, k)?;
        stock
            .apply(&changes)
            .expect("what a preview proposes is accepted");
        now += 1;
    }
    Ok(now)
}

/// The cells as they are stored.
pub fn cells_of(stock: &TurnStock) -> Vec<[f64; 4]> {
    let cell = |c: &length::turning::stock::TurnCell| {
        let [o, i] = [c.outer, c.inner];
        [o.lower_mm, o.upper_mm, i.lower_mm, i.upper_mm].map(clean)
    };
    stock.cells().iter().map(cell).collect()
}

/// The first bin whose outer bounds are not within its target.
pub fn first_miss(cells: &[[f64; 4]], targets: &[[f64; 2]]) -> Option<usize> {
    let misses = |(c, t): (&[f64; 4], &[f64; 2])| c[0] < t[0] || c[1] > t[1];
    cells.iter().zip(targets).position(misses)
}

/// 1, 2, 3 of the cells and of the room, 20 of the kept numbers and of the room for them, 25; then a verdict.
pub fn check(
    spec: &Spec,
    stamp: Stamp,
    lent: &[f64],
    lent_blocks: &[f64],
    targets: &[f64],
    passes: &Passes,
    [after_len, after_blocks_len]: [usize; 2],
) -> Outcome {
    let bar = bar(spec)?;
    let old = cells(&bar, lent)?;
    demand(after_len == 4 * bar.n, CELLS)?;
    kept(&bar, &old, lent_blocks)?;
    counted(&bar, after_blocks_len)?;
    demand(passes.kinds.len() <= MOST_PASSES, TARGETS)?;
    demand(!passes.kinds.iter().any(|k| inside(*k)), TARGETS)?;
    let targets = good_targets(&bar, targets)?;
    let mut stock = stock_with_length(&bar, &old);
    let said = verdict(&mut stock, stamp.generation, passes, &targets);
    let (cells, generation) = match said {
        (Verdict::Yes, raised) => (cells_of(&stock), raised),
        _ => (old, stamp.generation),
    };
    let blocks = blocks(&bar, &cells);
    Ok(Answer::Checked(said.0, cells, blocks, generation))
}

/// The verdict on outside cuts of a stock, and the generation after a yes. The stock is then the one that all cuts before the first
/// refused one leave.
pub fn verdict(
    stock: &mut TurnStock,
    generation: u64,
    passes: &Passes,
    targets: &[[f64; 2]],
) -> (Verdict, u64) {
    match turn(stock, generation, passes) {
        Err(reason) => {
            let place = reason.place.expect("a cut's refusal has a place");
            (Verdict::Cut(place, reason.number), generation)
        }
        Ok(raised) => match first_miss(&cells_of(stock), targets) {
            Some(i) => (Verdict::Bin(i), generation),
            None => (Verdict::Yes, raised),
        },
    }
}

/// 1, 2, 3, 25 of the targets, 5 of the nose's radius; then a level pass for each longest run of bins with one target, some bin of
/// which stands over it, as many as there is room for.
pub fn propose(
    spec: &Spec,
    lent: &[f64],
    targets: &[f64],
    rn: f64,
    room: usize,
) -> Result<Vec<[f64; 6]>, Reason> {
    let bar = bar(spec)?;
    let cells = cells(&bar, lent)?;
    let targets = good_targets(&bar, targets)?;
    demand(usable(rn) && rn >= 0., ARGUMENT)?;
    let stock = camlib_stock(&bar, &cells, &[]);
    let mut passes = levels(&bar, &cells, &targets, clean(rn), |i| stock.bin(i));
    passes.truncate(room.min(MOST_PASSES));
    Ok(passes)
}

/// The passes, by rising z.
pub fn levels(
    bar: &Bar,
    cells: &[[f64; 4]],
    targets: &[[f64; 2]],
    rn: f64,
    bin: impl Fn(usize) -> [f64; 2],
) -> Vec<[f64; 6]> {
    let mut passes = vec![];
    let mut first = 0;
    for run in targets.chunk_by(|a, b| a == b) {
        let last = first + run.len() - 1;
        let high = cells[first..=last].iter().any(|c| c[1] > run[0][1]);
        let ends = ends(bar, targets, rn, [first, last], &bin);
        if let (true, Some([a, b])) = (high, ends) {
            let r = aim(run[0]) + rn;
            passes.push([rn, 0., r, a, r, b]);
        }
        first = last + 1;
    }
    passes
}

fn aim([lower, upper]: [f64; 2]) -> f64 {
    (lower + upper) / 2.
}

/// Where the pass of a run of bins begins and ends; none where that is the wrong way round.
fn ends(
    bar: &Bar,
    targets: &[[f64; 2]],
    rn: f64,
    [i, j]: [usize; 2],
    bin: impl Fn(usize) -> [f64; 2],
) -> Option<[f64; 2]> {
    let aim = aim(targets[i]);
    let inset = rn + bar.spec.cell / 16.;
    let stands_over = |k: usize| targets[k][0] > aim;
    let ([za, _], [_, zb]) = (bin(i), bin(j));
    let a = match i {
        0 => za - rn,
        _ if stands_over(i - 1) => za + inset,
        _ => za,
    };
    let b = match j + 1 {
        n if n == bar.n => zb + rn,
        next if stands_over(next) => zb - inset,
        _ => zb,
    };
    (a <= b).then_some([a, b])
}

/// The kept numbers of a stock that is accepted.
pub fn blocks_of(spec: &Spec, lent: &[f64]) -> Result<Vec<f64>, Reason> {
    let bar = bar(spec)?;
    let cells = cells(&bar, lent)?;
    Ok(blocks(&bar, &cells))
}
