//! How far the rules' length leads from the untouched Rust: nose lines with no sag, by both camlibs.
use crate::call::Call;
use crate::generate::{self, Rng};
use crate::oracle::MILLION;
use crate::oracle::cuts::{change_with_length, segment, stock_with_length};
use crate::oracle::numbers::length;
use crate::oracle::stock::{Bar, bar, camlib_stock, cells, change_from_camlib};
use length::turning::stock as with_length;
use plain::motion::Curve;
use plain::turning::stock as camlib;

/// Lines whose lengths are of one kind.
#[derive(Default)]
struct Kind {
    lines: usize,
    lists: usize,
    values: usize,
    differ: usize,
    ulps: u64,
    mm: f64,
    farthest: String,
}

const KINDS: [&str; 4] = [
    "every number within 1,000, each part 0 or 1e-6 at least (a shop's)",
    "other, a part 2^-400 at least",
    "both parts below 2^-400, length normal",
    "both parts below 2^-400, length subnormal",
];

/// What the parts and the length of a line are, as an index into `KINDS`.
fn kind(a: [f64; 2], b: [f64; 2], rn: f64) -> usize {
    let d = [b[0] - a[0], b[1] - a[1]];
    let ordinary = |x: f64| x.abs() <= 1000.;
    let not_small = |x: f64| x == 0. || x.abs() >= 1e-6;
    if d == [0., 0.] || d.into_iter().any(|x| x.abs() >= 2_f64.powi(-400)) {
        let shop = [a, b, [rn, 0.]].as_flattened().iter().all(|x| ordinary(*x));
        !(shop && d.into_iter().all(not_small)) as usize
    } else if length(d[0], d[1]).is_ok_and(f64::is_normal) {
        2
    } else {
        3
    }
}

/// A nose line with no sag on a stock.
struct Line {
    bar: Bar,
    cells: Vec<[f64; 4]>,
    outside: bool,
    rn: f64,
    a: [f64; 2],
    b: [f64; 2],
}

/// The first segment of a nose call, where all of it is accepted.
fn line(rng: &mut Rng) -> Option<Line> {
    let call = generate::cuts::nose(rng);
    let Call::Preview {
        spec,
        cells: lent,
        side,
        rn,
        segments,
        ..
    } = call
    else {
        return None;
    };
    let bar = bar(&spec).ok()?;
    let cells = cells(&bar, &lent).ok()?;
    let usable = |x: &f64| x.is_finite() && x.abs() <= MILLION;
    let first = segments.first_chunk::<5>()?;
    let accepted = side < 2 && usable(&rn) && rn >= 0. && first.iter().all(usable);
    let (a, b, _) = segment(first);
    let outside = side == 0;
    accepted.then_some(Line {
        bar,
        cells,
        outside,
        rn,
        a,
        b,
    })
}

/// The changed cells by index, with 01's length.
fn ruled(line: &Line) -> Vec<(usize, [f64; 4])> {
    let side = match line.outside {
        true => with_length::TurnSide::Outer,
        false => with_length::TurnSide::Inner,
    };
    let stock = stock_with_length(&line.bar, &line.cells);
    let changes = stock.preview_segments(&[(line.a, line.b, 0.)], line.rn, side);
    let changes = changes.unwrap();
    changes
        .iter()
        .map(change_with_length)
        .map(|c| (c.index, c.after))
        .collect()
}

/// The changed cells by index, by the untouched Rust.
fn untouched(line: &Line) -> Vec<(usize, [f64; 4])> {
    let side = match line.outside {
        true => camlib::TurnSide::Outer,
        false => camlib::TurnSide::Inner,
    };
    let curve = Curve::Line {
        start: [line.a[0], 0., line.a[1]],
        end: [line.b[0], 0., line.b[1]],
    };
    let stock = camlib_stock(&line.bar, &line.cells, &[]);
    let changes = stock.preview(&curve, line.rn, side, 0.).unwrap();
    changes
        .iter()
        .map(change_from_camlib)
        .map(|c| (c.index, c.after))
        .collect()
}

impl Kind {
    fn merge(&mut self, other: &Kind) {
        self.lines += other.lines;
        self.lists += other.lists;
        self.values += other.values;
        self.differ += other.differ;
        self.mm = self.mm.max(other.mm);
        if other.ulps > self.ulps {
            self.ulps = other.ulps;
            self.farthest.clone_from(&other.farthest);
        }
    }

    fn take(&mut self, line: &Line) {
        let (ours, theirs) = (ruled(line), untouched(line));
        self.lines += 1;
        if !ours.iter().map(|c| c.0).eq(theirs.iter().map(|c| c.0)) {
            self.lists += 1;
            return;
        }
        for ((_, ours), (_, theirs)) in ours.iter().zip(&theirs) {
            for (x, y) in ours.iter().zip(theirs) {
                self.value(line, *x, *y);
            }
        }
    }

    fn value(&mut self, line: &Line, x: f64, y: f64) {
        self.values += 1;
        if x == y {
            return;
        }
        self.differ += 1;
        self.mm = self.mm.max((x - y).abs());
        // Radii in cells are not negative, so their bits are in order.
        let ulps = x.to_bits().abs_diff(y.to_bits());
        if ulps > self.ulps {
            self.ulps = ulps;
            let Line { a, b, rn, .. } = line;
            self.farthest = format!("{x:e} for {y:e}, a {a:?} b {b:?} rn {rn}");
        }
    }
}

/// Lines from a seed, and what was seen of them.
#[derive(Default)]
pub struct Far {
    rng: Rng,
    kinds: [Kind; 4],
}

impl Far {
    pub fn new(seed: u64) -> Self {
        Self {
            rng: Rng::new(seed),
            ..Self::default()
        }
    }

    /// One more line.
    pub fn take(&mut self) {
        let line = loop {
            if let Some(line) = line(&mut self.rng) {
                break line;
            }
        };
        self.kinds[kind(line.a, line.b, line.rn)].take(&line);
    }

    pub fn merge(&mut self, other: &Far) {
        for (kind, more) in self.kinds.iter_mut().zip(&other.kinds) {
            kind.merge(more);
        }
    }

    /// How many values differ and by how much.
    pub fn print(&self) {
        println!(
            "| lines, by their parts | lines | lists that differ | values | differ | share | by at most, mm | by at most, ulps |"
        );
        println!("|---|---|---|---|---|---|---|---|");
        for (name, k) in KINDS.iter().zip(&self.kinds) {
            let share = 100. * k.differ as f64 / k.values.max(1) as f64;
            println!(
                "| {name} | {} | {} | {} | {} | {share:.4} % | {:.1e} | {} |",
                k.lines, k.lists, k.values, k.differ, k.mm, k.ulps
            );
        }
        println!();
        for (name, k) in KINDS.iter().zip(&self.kinds).filter(|(_, k)| k.ulps > 0) {
            println!("- Most ulps, {name}: {}", k.farthest);
        }
    }
}

/// Prints, for so many lines, how many values differ and by how much.
pub fn far(count: usize, seed: u64) {
    let mut far = Far::new(seed);
    (0..count).for_each(|_| far.take());
    far.print();
}
