//! The first table: the wheel of the examples, 12 mm of a bar of radius 30, at the cells that a shop takes.
use super::each::{Row, print};
use super::queries::{row_of_rings, store};
use super::rows::spec_of;
use super::sides::*;
use super::time::Sides;
use crate::call::{Call, Simple};
use crate::oracle::stock::{Bar, bar, camlib_stock, fresh};
use std::hint::black_box;

/// Each row at cells of 0.05, 0.1 and 1 mm: 240, 120 and 12 bins.
macro_rules! at_each_cell {
    ($($name:literal, $with:literal, $make:ident;)*) => {
        &[$(
            ($name, concat!($with, "cell 0.05"), 50, $make),
            ($name, concat!($with, "cell 0.1"), 100, $make),
            ($name, concat!($with, "cell 1"), 1000, $make),
        )*]
    };
}

pub const SHOP: &[Row] = at_each_cell! {
    "new", "", fresh_wheel;
    "drill", "r 5, ", drilled;
    "preview", "a line, rn 0.8, outside, ", line_outside;
    "preview", "a line, rn 0.4, inside, ", line_inside;
    "preview", "a groove, rn 0.4, ", groove;
    "preview", "16 chords with sag, rn 0.4, ", chords_fine;
    "preview", "16 chords with sag, rn 0.8, ", chords_coarse;
    "preview_polygon", "4 points over 2 mm, ", insert;
    "thread_cut", "8 mm, ", thread;
    "apply", "a change of each bin, ", applied;
    "changes_to", "every second bin, ", differing;
    "remove_ring", "26 stored, ", detent;
    "volume", "26 rings, ", volume;
    "envelope_at", "", envelope;
    "range", "all bins but two; the Rust walks them, ", range_over;
};

/// Prints the rows whose names have the word.
pub fn shop(word: &str) {
    println!("## A wheel of 30 mm\n");
    print(word, SHOP);
}

fn wheel(cell: usize) -> Bar {
    bar(&spec_of(cell as f64 / 1000., 12., 30., 0.)).unwrap()
}

fn fresh_wheel(cell: usize) -> Sides<'static> {
    new_of(&wheel(cell))
}

fn drilled(cell: usize) -> Sides<'static> {
    let bar = wheel(cell);
    let (tip_z, radius, cone) = (-5., 5., 3.);
    let stock = stock_of(&bar);
    let go = move || stock.drill(black_box(tip_z), radius, cone);
    let cut = Simple::Drill {
        tip_z,
        radius,
        cone,
    };
    pair(go, simple(&bar, cut))
}

fn line_outside(cell: usize) -> Sides<'static> {
    nose_of(&wheel(cell), 0.8, true, &[[28.8, -1., 28.8, 13., 0.]])
}

fn line_inside(cell: usize) -> Sides<'static> {
    nose_of(&wheel(cell), 0.4, false, &[[7.6, -1., 7.6, 13., 0.]])
}

fn groove(cell: usize) -> Sides<'static> {
    nose_of(&wheel(cell), 0.4, true, &[[27.4, 5.8, 27.4, 6.2, 0.]])
}

/// A scallop over 10 mm.
fn chords(cell: usize, rn: f64) -> Sides<'static> {
    let at = |j: usize| {
        let part = j as f64 / 16.;
        [
            27. + rn + 1.5 * (part * std::f64::consts::TAU).sin(),
            1. + 10. * part,
        ]
    };
    let link = |k: usize| {
        let [a, b] = [at(k), at(k + 1)];
        [a[0], a[1], b[0], b[1], 0.01]
    };
    let links: Vec<[f64; 5]> = (0..16).map(link).collect();
    nose_of(&wheel(cell), rn, true, &links)
}

fn chords_fine(cell: usize) -> Sides<'static> {
    chords(cell, 0.4)
}

fn chords_coarse(cell: usize) -> Sides<'static> {
    chords(cell, 0.8)
}

fn insert(cell: usize) -> Sides<'static> {
    let points = [[5., 40.], [5., 26.5], [7., 26.5], [7., 40.]];
    polygon_of(&wheel(cell), &points)
}

fn thread(cell: usize) -> Sides<'static> {
    let bar = wheel(cell);
    let (z0, z1, radius) = (2., 10., 27.);
    let stock = stock_of(&bar);
    let go = move || stock.thread_cut(black_box(z0), z1, radius);
    pair(go, simple(&bar, Simple::ThreadCut { z0, z1, radius }))
}

fn applied(cell: usize) -> Sides<'static> {
    let bar = wheel(cell);
    changed_of(&bar, bar.n)
}

fn differing(cell: usize) -> Sides<'static> {
    let bar = wheel(cell);
    let mut after = fresh(&bar);
    after.iter_mut().step_by(2).for_each(|c| c[0] = 27.);
    changes_of(&bar, &after)
}

/// One ring more beside the 26 of a wheel's detents.
fn detent(cell: usize) -> Sides<'static> {
    ring_of(&wheel(cell), 26, [0., 1., 6., 7.])
}

fn volume(cell: usize) -> Sides<'static> {
    let bar = wheel(cell);
    let kept = row_of_rings(&bar, 26);
    let stock = camlib_stock(&bar, &fresh(&bar), &kept);
    let call = Call::Volume {
        spec: bar.spec,
        cells: lent(&bar),
        store: store(&kept),
    };
    pair(move || black_box(&stock).volume(), call)
}

fn envelope(cell: usize) -> Sides<'static> {
    envelope_of(&wheel(cell))
}

fn range_over(cell: usize) -> Sides<'static> {
    range_of(&wheel(cell))
}
