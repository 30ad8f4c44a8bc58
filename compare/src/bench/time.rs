//! Times of a call on both sides: the runs of the sides take turns.
use std::hint::black_box;
use std::time::Instant;

/// How often each side is run.
pub const RUNS: usize = 41;
const RUN_NS: f64 = 1e6;

/// Something to time, and how many calls one go of it makes.
pub struct Side<'a> {
    go: Box<dyn FnMut() + 'a>,
    calls: usize,
}

/// The untouched Rust, the Rust with 01's length, the library.
pub type Sides<'a> = [Option<Side<'a>>; 3];

pub fn side<'a, T>(calls: usize, mut go: impl FnMut() -> T + 'a) -> Option<Side<'a>> {
    let go = Box::new(move || drop(black_box(go())));
    Some(Side { go, calls })
}

/// The middle of the runs and their quartiles, in ns a call.
#[derive(Clone, Copy)]
pub struct Time {
    pub median: f64,
    pub quartiles: [f64; 2],
}

impl Time {
    pub fn shown(&self) -> String {
        let [low, high] = self.quartiles;
        let places = if self.median < 100. { 1 } else { 0 };
        format!("{:.places$} ({low:.places$}..{high:.places$})", self.median)
    }
}

fn run(side: &mut Side, goes: usize) -> f64 {
    let start = Instant::now();
    go(side, goes);
    start.elapsed().as_nanos() as f64
}

/// So many goes of a side, and how many calls they made. Callgrind counts within this function.
#[inline(never)]
#[unsafe(no_mangle)]
pub fn compare_counted_goes(side: &mut Side, goes: usize) -> usize {
    for _ in 0..goes {
        (side.go)();
    }
    goes * side.calls
}

fn go(side: &mut Side, goes: usize) {
    black_box(compare_counted_goes(side, goes));
}

/// The time of one call of each side.
pub fn times(mut sides: Sides) -> [Option<Time>; 3] {
    let goes = sides.each_mut().map(|s| {
        s.as_mut().map_or(0, |s| {
            run(s, 1);
            (RUN_NS / run(s, 1).max(1.)).clamp(1., 1e6) as usize
        })
    });
    let mut times: [Vec<f64>; 3] = [const { vec![] }; 3];
    for _ in 0..RUNS {
        for k in 0..3 {
            if let Some(s) = &mut sides[k] {
                times[k].push(run(s, goes[k]) / (goes[k] * s.calls) as f64);
            }
        }
    }
    times.map(middle)
}

fn middle(mut times: Vec<f64>) -> Option<Time> {
    times.sort_by(f64::total_cmp);
    let at = |part: usize| times.get(times.len() * part / 4).copied();
    Some(Time {
        median: at(2)?,
        quartiles: [at(1)?, at(3)?],
    })
}
