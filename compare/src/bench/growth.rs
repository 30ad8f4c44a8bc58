//! How the cost of a call grows.
use super::picture::{Panel, picture};
use super::sides;
use super::time::{Sides, Time, times};

type Make = fn(usize) -> Sides<'static>;

/// What grows, how far, the calls, and which of them the picture has.
struct Growth {
    what: &'static str,
    sizes: &'static [usize],
    calls: &'static [(&'static str, Make)],
    drawn: usize,
}

const BINS: &[(&str, Make)] = &[
    ("preview, 1 segment over all bins", sides::preview_bins),
    ("thread_cut, all bins", sides::thread_cut),
    ("drill, all bins", sides::drill),
    (
        "preview_polygon, 4 points over all bins",
        sides::polygon_bins,
    ),
    ("volume, no ring", sides::volume_bins),
    ("apply, a change of each bin", sides::apply),
    ("apply, one change", sides::apply_one),
    ("changes_to, half differ", sides::changes_to),
    ("envelope_at", sides::envelope_at),
    ("renew, all blocks; the Rust walks each", sides::renew),
    ("range, all bins but two; the Rust walks them", sides::range),
    (
        "check_passes, 128 lines, each over 32 bins",
        sides::check_short,
    ),
    (
        "propose_passes, 128 steps; the Rust is the rule's",
        sides::propose_passes,
    ),
    ("stock file read, 256 rings", sides::read_file),
    ("stock file written, 256 rings", sides::stock_line),
];
const SEGMENTS: &[(&str, Make)] = &[("preview, a chain over 1,024 bins", sides::preview_segments)];
const RINGS: &[(&str, Make)] = &[
    ("remove_ring, one apart", sides::remove_ring),
    (
        "remove_ring, empty after clipping: the check for refusal 4",
        sides::remove_nothing,
    ),
    (
        "apply_move, 3 apart, 1 where 255 are stored",
        sides::apply_move,
    ),
    ("from_parts, all apart", sides::from_parts),
    ("volume, 64 bins", sides::volume_rings),
];
const POINTS: &[(&str, Make)] = &[
    ("envelope_order", sides::envelope_order),
    ("within", sides::within),
    ("radius_at", sides::radius_at),
    ("radius_range", sides::radius_range),
];
const CORNERS: &[(&str, Make)] = &[("preview_polygon, 1,024 bins", sides::polygon_points)];

const GROWTHS: [Growth; 5] = [
    Growth {
        what: "bins",
        sizes: &[64, 256, 1024, 4096, 16384],
        calls: BINS,
        drawn: 0,
    },
    Growth {
        what: "segments",
        sizes: &[1, 4, 16, 64],
        calls: SEGMENTS,
        drawn: 0,
    },
    Growth {
        what: "stored rings",
        sizes: &[0, 16, 64, 255],
        calls: RINGS,
        drawn: 0,
    },
    Growth {
        what: "envelope points",
        sizes: &[2, 16, 128, 1024],
        calls: POINTS,
        drawn: 3,
    },
    Growth {
        what: "polygon points",
        sizes: &[3, 8, 24, 64],
        calls: CORNERS,
        drawn: usize::MAX,
    },
];

/// The Rust's time, with 01's length where it has one, and the library's.
fn both(times: [Option<Time>; 3]) -> [Option<Time>; 2] {
    [times[1].or(times[0]), times[2]]
}

/// Prints the tables of the calls whose names have the word; the picture of those drawn.
pub fn growth(word: &str) -> String {
    let mut panels = vec![];
    for growth in GROWTHS {
        let sizes = growth.sizes;
        let calls = growth.calls.iter().enumerate();
        let calls: Vec<_> = calls.filter(|(_, (name, _))| name.contains(word)).collect();
        if calls.is_empty() {
            continue;
        }
        println!("## Growth with {}\n", growth.what);
        let head: Vec<String> = sizes.iter().map(usize::to_string).collect();
        println!("| call | side | {} |", head.join(" | "));
        println!("|---|---|{}", "---|".repeat(sizes.len()));
        for (k, (name, make)) in calls {
            eprintln!("{name}, by {}", growth.what);
            let times: Vec<_> = sizes.iter().map(|n| both(times(make(*n)))).collect();
            for (k, side) in ["Rust", "library"].iter().enumerate() {
                let shown = times
                    .iter()
                    .map(|t| t[k].map_or(String::new(), |t| t.shown()));
                let shown: Vec<String> = shown.collect();
                println!("| {name} | {side} | {} |", shown.join(" | "));
            }
            let ratio = |[rust, ours]: &[Option<Time>; 2]| {
                super::ratio([*rust, None, *ours].map(|t| t.map(|t| t.median)))
            };
            let ratios: Vec<String> = times.iter().map(ratio).collect();
            println!("| {name} | library / Rust | {} |", ratios.join(" | "));
            if k == growth.drawn {
                panels.push(Panel {
                    title: name.to_string(),
                    what: growth.what.to_string(),
                    sizes,
                    lines: [0, 1].map(|k| times.iter().map(|t| t[k].map(|t| t.median)).collect()),
                });
            }
        }
        println!();
    }
    picture(&panels)
}
