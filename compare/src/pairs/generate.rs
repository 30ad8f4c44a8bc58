//! Stock files to be compared in pairs: a stock and its later selves, branches, rings cut again, numbers one digit off, other bars,
//! and damaged files.
use super::oracle::Ring;
use crate::call::Spec;
use crate::files::form;
use crate::files::generate::{Stock, bend, file, stock};
use crate::generate::Rng;
use crate::generate::rings::{about_the_limit, ring};
use crate::generate::sequence::sequence;
use crate::oracle::MOST_RINGS;
use crate::oracle::stock::{bar, camlib_spec};
use crate::sequence::{Sequence, left_by};
use plain::turning::stock::TurnStock;

/// Sequences on more cells than this are taken now and then only.
const FEW: usize = 40;

/// The stock that a sequence leaves.
fn left(sequence: &Sequence) -> Stock {
    let (spec, stamp, cells, store) = left_by(sequence);
    Stock {
        spec,
        edition: stamp.edition,
        cells: cells.as_chunks::<4>().0.to_vec(),
        rings: store.rings.as_chunks::<4>().0[..store.count].to_vec(),
    }
}

/// A sequence on a stock of few cells, as a rule.
fn some_sequence(rng: &mut Rng) -> Sequence {
    loop {
        let sequence = sequence(rng);
        if sequence.cells.len() <= 4 * FEW || rng.once_in(50) {
            return sequence;
        }
    }
}

/// The stock after some of the first steps.
fn earlier(rng: &mut Rng, whole: &Sequence) -> Stock {
    let mut sequence = whole.clone();
    sequence.steps.truncate(rng.below(whole.steps.len() + 1));
    left(&sequence)
}

/// The stock of another branch: some steps are left out.
fn branch(rng: &mut Rng, whole: &Sequence) -> Stock {
    let mut sequence = whole.clone();
    sequence.steps.retain(|_| !rng.once_in(3));
    left(&sequence)
}

/// A place inside of a range, or nearly.
fn inside(rng: &mut Rng, low: f64, high: f64) -> f64 {
    match rng.below(4) {
        0 => low.next_up(),
        1 => high.next_down(),
        2 => low / 2. + high / 2.,
        _ => rng.between(low, high),
    }
}

/// A ring in two, along z or along r, where there is a place between its edges.
fn in_two(rng: &mut Rng, rings: &mut Vec<Ring>) {
    let at = rng.below(rings.len());
    let from = rng.pick(&[0, 2]);
    let whole = rings[at];
    let place = inside(rng, whole[from], whole[from + 1]);
    if whole[from] < place && place < whole[from + 1] {
        rings[at][from + 1] = place;
        let mut rest = whole;
        rest[from] = place;
        let to = rng.pick(&[at, at + 1, rings.len()]);
        rings.insert(to, rest);
    }
}

/// Rings over the same points, cut again and in another order.
fn cut_again(rng: &mut Rng, stock: &mut Stock) {
    let most = match rng.below(40) {
        0 => MOST_RINGS,
        1..4 => 64,
        _ => rng.pick(&[1, 2, 3, 8]),
    };
    for _ in 0..most {
        if !stock.rings.is_empty() && stock.rings.len() < MOST_RINGS {
            in_two(rng, &mut stock.rings);
        }
    }
    if rng.once_in(2) {
        for k in (1..stock.rings.len()).rev() {
            stock.rings.swap(k, rng.below(k + 1));
        }
    }
}

/// What camlib stores of rings, at most as many as a file may have.
fn stored(spec: &Spec, given: &[Ring]) -> Vec<Ring> {
    let mut stock = TurnStock::new(camlib_spec(spec)).unwrap();
    for [z0, z1, r0, r1] in given {
        stock.remove_ring([*z0, *z1], [*r0, *r1]);
    }
    let rings = stock.rings().iter().map(|r| r.map(|x| x + 0.));
    rings.take(MOST_RINGS).collect()
}

/// The same bar with other rings: some more, some less, or some that are at 11's limit against one over the whole bar.
fn other_rings(rng: &mut Rng, stock: &mut Stock) {
    let base = bar(&stock.spec).expect("a sequence's bar is accepted");
    let mut rings = stock.rings.clone();
    match rng.below(16) {
        0 => rings = about_the_limit(rng, &base).0,
        1 => rings = vec![about_the_limit(rng, &base).1],
        2 if !rings.is_empty() => drop(rings.remove(rng.below(rings.len()))),
        _ => (0..1 + rng.below(4)).for_each(|_| rings.push(ring(rng, &base))),
    }
    stock.rings = stored(&stock.spec, &rings);
}

/// One number of a cell, of a ring or of the bar, one last digit off.
fn one_digit(rng: &mut Rng, stock: &mut Stock) {
    let [cell, ring] = [&stock.cells, &stock.rings].map(|list| rng.below(list.len().max(1)));
    let number = match rng.below(3) {
        0 => match rng.below(5) {
            0 => &mut stock.spec.z_min,
            1 => &mut stock.spec.z_max,
            2 => &mut stock.spec.outer,
            3 => &mut stock.spec.bore,
            _ => &mut stock.spec.cell,
        },
        1 if !stock.rings.is_empty() => &mut stock.rings[ring][rng.below(4)],
        _ => &mut stock.cells[cell][rng.below(4)],
    };
    *number = rng.pick(&[number.next_up(), number.next_down()]) + 0.;
}

/// A file that reads, of either form, of any edition.
fn whole_file(rng: &mut Rng, stock: &Stock) -> Vec<u8> {
    let edition = rng.pick(&[stock.edition, 0, u32::MAX]);
    let mut lines = form::lines(&stock.spec, edition, &stock.cells, &stock.rings);
    if rng.once_in(4) {
        lines[0] = form::in_form_1(&lines[0]);
    }
    lines.concat().into_bytes()
}

/// Files of one sequence and of what is near it.
pub fn files(rng: &mut Rng) -> Vec<Vec<u8>> {
    let sequence = some_sequence(rng);
    let mut stocks = vec![left(&sequence)];
    for _ in 0..3 {
        stocks.push(earlier(rng, &sequence));
        stocks.push(branch(rng, &sequence));
    }
    for change in [
        cut_again,
        cut_again,
        other_rings,
        other_rings,
        one_digit,
        one_digit,
    ] {
        for _ in 0..2 {
            let mut next = stocks[rng.below(stocks.len())].clone();
            if bar(&next.spec).is_ok() {
                change(rng, &mut next);
            }
            stocks.push(next);
        }
    }
    let mut files: Vec<Vec<u8>> = stocks.iter().map(|s| whole_file(rng, s)).collect();
    let other_bar = stock(rng);
    files.push(whole_file(rng, &other_bar));
    for _ in 0..2 {
        let mut bent = stocks[rng.below(7)].clone();
        bend(rng, &mut bent);
        files.push(whole_file(rng, &bent));
        let any = rng.below(stocks.len());
        files.push(file(rng, &stocks[any]));
    }
    files
}
