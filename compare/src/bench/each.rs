//! The table of every public call, with its instructions.
use super::count::instructions;
use super::sides;
use super::time::{Sides, times};

/// A call, what it is given, and its sides.
pub type Row = (
    &'static str,
    &'static str,
    usize,
    fn(usize) -> Sides<'static>,
);

#[rustfmt::skip]
pub const EACH: [Row; 79] = [
    ("root", "1,024 of shop size", 1024, sides::root),
    ("length", "1,024 of shop size", 1024, sides::length),
    ("validate", "4,096 bins", 4096, sides::validate),
    ("bin", "4,096 bins", 4096, sides::bin),
    ("new", "4,096 bins", 4096, sides::new),
    ("preview", "1 segment over 4,096 bins", 4096, sides::preview_bins),
    ("preview", "16 segments over 1,024 bins", 16, sides::preview_segments),
    ("preview_polygon", "4 points over 4,096 bins", 4096, sides::polygon_bins),
    ("thread_cut", "4,096 bins", 4096, sides::thread_cut),
    ("thread_cut_inner", "4,096 bins", 4096, sides::thread_cut_inner),
    ("drill", "4,096 bins", 4096, sides::drill),
    ("apply", "4,096 changes of 4,096 bins", 4096, sides::apply),
    ("apply", "1 change of 4,096 bins", 4096, sides::apply_one),
    ("changes_to", "2,048 of 4,096 bins differ", 4096, sides::changes_to),
    ("remove_ring", "64 stored, one apart", 64, sides::remove_ring),
    ("remove_ring", "64 stored, one empty after clipping", 64, sides::remove_nothing),
    ("remove_ring", "60 in turn, some over others, into an empty store", 60, sides::rings_in_turn),
    ("apply_move", "64 stored, 3 apart", 64, sides::apply_move),
    ("from_parts", "64 rings apart, 8 bins", 64, sides::from_parts),
    ("volume", "4,096 bins, no ring", 4096, sides::volume_bins),
    ("volume", "64 bins, 64 rings", 64, sides::volume_rings),
    ("envelope_at", "4,096 bins", 4096, sides::envelope_at),
    ("renew", "4,096 bins; the Rust walks each block", 4096, sides::renew),
    ("range", "4,094 of 4,096 bins; the Rust walks them", 4096, sides::range),
    ("envelope_order", "1,024 points that rise", 1024, sides::envelope_order),
    ("within", "1,024 points that rise", 1024, sides::within),
    ("radius_at", "1,024 points that rise", 1024, sides::radius_at),
    ("radius_range", "1,024 points that rise", 1024, sides::radius_range),
    ("radius_at", "1,024 points in no order", 1024, sides::radius_at_no_order),
    ("radius_range", "1,024 points in no order", 1024, sides::radius_range_no_order),
    ("segments", "an arc as 512 chords", 9, sides::segments),
    ("segments", "an arc as 1 chord", 0, sides::segments),
    ("excess", "64-point insert, 1,024 points that rise", 1024, sides::excess),
    ("excess", "4-point insert, 16 points that rise", 16, sides::excess),
    ("penetration", "64-point insert, 1,024 points that rise", 1024, sides::penetration),
    ("penetration", "4-point insert, 16 points that rise", 16, sides::penetration),
    ("eroded", "1,024 points that rise", 1024, sides::eroded),
    ("check_passes", "128 lines, each over 4,096 bins", 4096, sides::check_long),
    ("check_passes", "128 lines, each over 32 of 4,096 bins", 4096, sides::check_short),
    ("check_passes", "the first of these rows, and as Rust this library's own 128 calls of preview and apply", 4096, sides::check_own),
    ("check_passes", "no cuts, 4,096 bins", 4096, sides::check_nothing),
    ("check_passes", "a no by the first of 128 lines, 4,096 bins", 4096, sides::check_bad_cut),
    ("check_passes", "a no by the last of 128 lines, 4,096 bins", 4096, sides::check_bad_last),
    ("check_passes", "25, the last of 128 cuts is inside, 4,096 bins", 4096, sides::check_inside),
    ("propose_passes", "128 steps of 4,096 bins; the Rust is the rule's", 4096, sides::propose_passes),
    ("read_part", "and `read_end`, a file of 4,096 cells and 256 rings", 4096, sides::read_file),
    ("read_end", "4,096 cells and 256 rings", 4096, sides::read_end),
    ("stock_lines", "4,096 cells and 256 rings", 4096, sides::stock_lines),
    ("stock_line", "every line of 4,096 cells and 256 rings, with `stock_lines`", 4096, sides::stock_line),
    ("validate", "16,384 bins", 16384, sides::validate),
    ("new", "16,384 bins", 16384, sides::new),
    ("preview", "1 segment over 16,384 bins", 16384, sides::preview_bins),
    ("preview_polygon", "4 points over 16,384 bins", 16384, sides::polygon_bins),
    ("thread_cut", "16,384 bins", 16384, sides::thread_cut),
    ("thread_cut_inner", "16,384 bins", 16384, sides::thread_cut_inner),
    ("drill", "16,384 bins", 16384, sides::drill),
    ("apply", "16,384 changes of 16,384 bins", 16384, sides::apply),
    ("apply", "1 change of 16,384 bins", 16384, sides::apply_one),
    ("changes_to", "8,192 of 16,384 bins differ", 16384, sides::changes_to),
    ("volume", "16,384 bins, no ring", 16384, sides::volume_bins),
    ("envelope_at", "16,384 bins", 16384, sides::envelope_at),
    ("renew", "16,384 bins; the Rust walks each block", 16384, sides::renew),
    ("range", "16,382 of 16,384 bins; the Rust walks them", 16384, sides::range),
    ("check_passes", "128 lines, each over 16,384 bins", 16384, sides::check_long),
    ("check_passes", "128 lines, each over 32 of 16,384 bins", 16384, sides::check_short),
    ("check_passes", "no cuts, 16,384 bins", 16384, sides::check_nothing),
    ("propose_passes", "128 steps of 16,384 bins; the Rust is the rule's", 16384, sides::propose_passes),
    ("read_part", "and `read_end`, a file of 16,384 cells and 256 rings", 16384, sides::read_file),
    ("read_end", "16,384 cells and 256 rings", 16384, sides::read_end),
    ("stock_lines", "16,384 cells and 256 rings", 16384, sides::stock_lines),
    ("stock_line", "every line of 16,384 cells and 256 rings, with `stock_lines`", 16384, sides::stock_line),
    ("preview", "1 segment over 64 bins", 64, sides::preview_bins),
    ("preview_polygon", "4 points over 64 bins", 64, sides::polygon_bins),
    ("thread_cut", "64 bins", 64, sides::thread_cut),
    ("drill", "64 bins", 64, sides::drill),
    ("check_passes", "128 lines, each over 32 of 64 bins", 64, sides::check_short),
    ("check_passes", "no cuts, 64 bins", 64, sides::check_nothing),
    ("preview", "1 segment over 1,024 bins", 1024, sides::preview_bins),
    ("preview_polygon", "4 points over 1,024 bins", 1024, sides::polygon_bins),
];

/// The names of the calls that the table has.
pub fn names() -> impl Iterator<Item = &'static str> {
    EACH.into_iter().map(|(name, ..)| name)
}

/// Prints the rows whose names have the word.
pub fn each(word: &str) {
    println!("## Every public call\n");
    print(word, &EACH);
}

/// A table of rows, each told apart by its call and what it is given.
pub fn print(word: &str, rows: &[Row]) {
    println!(
        "| call | with | Rust | Rust with 01's length | library | library / Rust | instructions, Rust | instructions, library | library / Rust |"
    );
    println!("|---|---|---|---|---|---|---|---|---|");
    for (name, with, size, make) in rows {
        if !name.contains(word) {
            continue;
        }
        eprintln!("{name}, {with}");
        let times = times(make(*size));
        let shown = times.map(|t| t.map_or(String::new(), |t| t.shown()));
        let medians = times.map(|t| t.map(|t| t.median));
        let [rust, ours, ratio] = instructions(&key(name, with), times);
        println!(
            "| {name} | {with} | {} | {} | {} | {} | {rust} | {ours} | {ratio} |",
            shown[0],
            shown[1],
            shown[2],
            super::ratio(medians),
        );
    }
    println!();
}

/// The row's name, for callgrind to count it by.
fn key(name: &str, with: &str) -> String {
    format!("{name}: {with}")
}

/// The sides of the row of that name.
pub fn sides_of(rows: &[Row], name: &str) -> Option<Sides<'static>> {
    let mut rows = rows.iter();
    let (_, _, size, make) = rows.find(|(call, with, ..)| key(call, with) == name)?;
    Some(make(*size))
}
