//! What rounding is worth: the library's bounds against the exact geometry of each kind of cut, worked out from the same
//! f64 numbers with 134 decimal digits behind the point.
//!
//! A bin's **sure** bound says that all beyond it is certainly gone: outer.upper, inner.lower. It says too much where the
//! exact sweep leaves more anywhere in the bin. Its **deep** bound says that all behind it is certainly metal: outer.lower,
//! inner.upper. It says too much where the exact sweep reaches farther. "By radius" is the difference in radius; where the
//! sweep's edge stands nearly upright it is large though the edge is a hair's breadth away. So "away" says how much larger,
//! or smaller, the nose would have to be for the bound to be right; of a polygon and a drill, how far the place lies from
//! its edge. A "strip" is a part of a bin along z that the sweep does not reach where the bound says so, or reaches where
//! the bound does not say so; then there is no difference in radius, and its width is told.
pub mod arc;
pub mod draw;
pub mod judge;
pub mod lent;
pub mod number;
pub mod shape;
pub mod sweep;

use arc::{Arcs, Volumes};
use draw::{Draw, SIZES, Size};
use judge::{Report, Seen};
use number::Long;
use shape::Read;

pub const KINDS: [&str; 9] = [
    "nose", "sag", "margin", "polygon", "drill", "thread", "scallop", "arcs", "volume",
];

/// The sag that a nose is given as a margin, mm.
const MARGIN: f64 = 1e-9;

type Most = Option<(Long, String)>;

fn most(most: &Most) -> String {
    most.as_ref()
        .map_or("0".into(), |(by, _)| format!("{:.1e}", by.near()))
}

fn worst(name: &str, most: &Most) {
    if let Some((by, input)) = most {
        println!("- {name}, {:e}: {input}", by.near());
    }
}

fn cut(kind: &str, count: usize, seed: u64, size: Size) {
    let (mut draw, mut report) = (Draw::new(seed, size), Report::default());
    report.read = size.read;
    while report.sure.bins.max(report.deep.bins) < count {
        if kind == "scallop" {
            arc::scallop(&mut draw, &mut report);
            continue;
        }
        let bar = draw.bar(12);
        let cut = match kind {
            "nose" | "margin" => draw.nose(&bar, false),
            "sag" => draw.nose(&bar, true),
            "polygon" => draw.polygon(&bar),
            "drill" => draw.drill(&bar),
            _ => draw.thread(&bar),
        };
        match kind {
            "margin" => report.take_with_margin(&bar, &cut, MARGIN),
            _ => report.take(&bar, &cut),
        }
    }
    let row = |name: &str, seen: &Seen| {
        println!(
            "| {kind} | {} | {seed} | {} | {name} | {} | {} | {} | {} | {} | {} |",
            size.name,
            report.calls,
            seen.bins,
            seen.wrong,
            most(&seen.most),
            seen.strips,
            most(&seen.widest),
            most(&seen.away)
        );
    };
    row("sure", &report.sure);
    row("deep", &report.deep);
    println!();
    for (name, seen) in [("sure", &report.sure), ("deep", &report.deep)] {
        worst(
            &format!("{kind}, {}, {name}, by radius", size.name),
            &seen.most,
        );
        worst(
            &format!("{kind}, {}, {name}, widest strip", size.name),
            &seen.widest,
        );
        worst(&format!("{kind}, {}, {name}, away", size.name), &seen.away);
    }
    println!();
}

const CUTS: &str = "| kind | size | seed | calls | bound | bins with one | says too much | by radius at most, mm | strips | widest strip, mm | away at most, mm |\n|---|---|---|---|---|---|---|---|---|---|---|";

fn one(kind: &str, count: usize, seed: u64, size: Size) {
    let mut draw = Draw::new(seed, size);
    match kind {
        "arcs" => {
            let mut seen = Arcs::default();
            while seen.chords < count {
                seen.take(&mut draw);
            }
            println!(
                "| kind | size | seed | arcs | chords | sag told too small | by at most, mm | ends off the circle at most, mm |"
            );
            println!("|---|---|---|---|---|---|---|---|");
            println!(
                "| arcs | {} | {seed} | {} | {} | {} | {} | {} |\n",
                size.name,
                seen.arcs,
                seen.chords,
                seen.short,
                most(&seen.most),
                most(&seen.off)
            );
            worst(&format!("arcs, {}, sag", size.name), &seen.most);
            worst(&format!("arcs, {}, ends", size.name), &seen.off);
            println!();
        }
        "volume" => {
            let mut seen = Volumes::default();
            while seen.bins < count {
                seen.take(&mut draw);
            }
            println!(
                "| kind | size | seed | calls | bins | bounds on the wrong side | off by at most, mm^3 | of the volume before rings |"
            );
            println!("|---|---|---|---|---|---|---|---|");
            println!(
                "| volume | {} | {seed} | {} | {} | {} | {} | {} |\n",
                size.name,
                seen.calls,
                seen.bins,
                seen.wrong,
                most(&seen.most),
                most(&seen.part)
            );
        }
        _ => {
            println!("{CUTS}");
            cut(kind, count, seed, size);
        }
    }
}

/// Measures so many bins with a bound (of arcs so many chords) of a kind, at one size or at each. Whether there are such.
pub fn exact(kind: &str, count: usize, seed: u64, size: Option<&str>) -> bool {
    let sizes = SIZES
        .into_iter()
        .filter(|s| size.is_none_or(|name| name == s.name));
    let sizes: Vec<Size> = sizes.collect();
    if !KINDS.contains(&kind) || sizes.is_empty() {
        return false;
    }
    // Of arcs and volumes circle and sum are those of the f64 numbers.
    let as_typed =
        |s: &Size| s.read == Read::Typed && ["scallop", "arcs", "volume"].contains(&kind);
    for size in sizes.into_iter().filter(|s| !as_typed(s)) {
        one(kind, count, seed, size);
    }
    true
}
