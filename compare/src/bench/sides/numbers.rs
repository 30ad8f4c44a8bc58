//! Roots and lengths.
use crate::bench::time::{Side, Sides, side};
use crate::generate::Rng;
use crate::library::c;
use std::hint::black_box;

/// So many numbers of shop size, each given once a go.
pub fn root(count: usize) -> Sides<'static> {
    let mut rng = Rng::new(1);
    let xs: Vec<f64> = (0..count).map(|_| rng.between(0.01, 2500.)).collect();
    let rust = xs.clone();
    let go = move || rust.iter().map(|x| black_box(*x).sqrt()).sum::<f64>();
    [side(count, go), None, root_side(xs)]
}

pub fn length(count: usize) -> Sides<'static> {
    let mut rng = Rng::new(1);
    let pair = |_| (rng.between(-50., 50.), rng.between(-400., 400.));
    let pairs: Vec<(f64, f64)> = (0..count).map(pair).collect();
    let [hypot, ruled] = [pairs.clone(), pairs.clone()];
    [
        side(count, move || {
            let lengths = hypot.iter().map(|p| black_box(p.0).hypot(p.1));
            lengths.sum::<f64>()
        }),
        side(count, move || ruled.iter().map(ruled_length).sum::<f64>()),
        length_side(pairs),
    ]
}

/// The rules' length in Rust.
pub fn ruled_length(p: &(f64, f64)) -> f64 {
    let (x, y) = (black_box(p.0), p.1);
    let tiny = f64::from_bits(0x26F0_0000_0000_0000);
    if x.abs() < tiny && y.abs() < tiny {
        let scale = f64::from_bits(0x6570_0000_0000_0000);
        let (u, v) = (x * scale, y * scale);
        return (u * u + v * v).sqrt() * f64::from_bits(0x1A70_0000_0000_0000);
    }
    (x * x + y * y).sqrt()
}

pub fn root_side(xs: Vec<f64>) -> Option<Side<'static>> {
    side(xs.len(), move || {
        let mut root = 0.;
        for x in &xs {
            // SAFETY: the pointer is to one f64.
            black_box(unsafe { c::turning_root(black_box(*x), &mut root) });
            black_box(root);
        }
    })
}

pub fn length_side(pairs: Vec<(f64, f64)>) -> Option<Side<'static>> {
    side(pairs.len(), move || {
        let mut length = 0.;
        for (x, y) in &pairs {
            // SAFETY: the pointer is to one f64.
            black_box(unsafe { c::turning_length(black_box(*x), *y, &mut length) });
            black_box(length);
        }
    })
}
