//! Times of the calls, both sides in one process with the same inputs.
//!
//! The library's side is the C call as it stands: it checks spec, cells and arguments each time. The
//! Rust's side is camlib's own function on a stock it holds, with the `Vec` it makes; `with 01's
//! length` is the Rust that the answers are compared with. Where camlib changes its stock in place, a
//! clone of the stock is part of the time, on a bar of few bins.
mod count;
mod each;
mod growth;
mod picture;
mod queries;
mod rows;
mod shop;
mod sides;
mod time;

pub use each::names;

use crate::call::{Call, Reason};
use crate::memory::Memory;
use crate::{library, oracle};
use std::hint::black_box;
use time::{RUNS, Side, Sides, side, times};

/// The library over the Rust beside it, above 1 where the library takes longer.
fn ratio(of: [Option<f64>; 3]) -> String {
    match (of[1].or(of[0]), of[2]) {
        (Some(rust), Some(ours)) => format!("{:.2}", ours / rust),
        _ => String::new(),
    }
}

/// What a table is made for: the rows that have a word, or one side of one row, for callgrind.
enum Table<'a> {
    Rows(&'a str),
    Counted(&'a str, usize),
}

impl Table<'_> {
    /// Prints a row: untouched Rust, Rust with 01's length, the library, its ratio to the Rust, and
    /// the same of instructions.
    fn row<'a>(&self, name: &str, make: impl FnOnce() -> Sides<'a>) {
        let word = match self {
            Table::Rows(word) => word,
            Table::Counted(row, side) => {
                if name == *row {
                    count::go(make()[*side].take().expect("the row has the side"));
                }
                return;
            }
        };
        if !name.contains(word) {
            return;
        }
        eprintln!("{name}");
        let times = times(make());
        let shown = times.map(|t| t.map_or(String::new(), |t| t.shown()));
        let ratio = ratio(times.map(|t| t.map(|t| t.median)));
        let [rust, ruled, ours] = shown;
        let counts = count::instructions(name, times).join(" | ");
        println!("| {name} | {rust} | {ruled} | {ours} | {ratio} | {counts} |");
    }
}

/// One side of a row, for callgrind.
pub fn counted_side(row: &str, side: usize) {
    let tables = [&shop::SHOP[..], &each::EACH[..]];
    let found = tables.iter().find_map(|rows| each::sides_of(rows, row));
    match found {
        Some(mut sides) => count::go(sides[side].take().expect("the row has the side")),
        None => rows::all(&Table::Counted(row, side)),
    }
}

/// The library's side of a call, which must be accepted. Its buffers are lent as the call before left
/// them; only the number of rings and the generation are put back.
fn library_side<'a>(call: Call) -> Option<Side<'a>> {
    assert!(oracle::answer(&call).is_ok(), "{}", call.name());
    library_sides(vec![call])
}

/// The same of calls of one kind, one after the other on one stock, all of which must be accepted: they
/// are timed as one.
fn library_sides<'a>(calls: Vec<Call>) -> Option<Side<'a>> {
    let mut memory = Memory::of(&calls[0]);
    let fresh = memory.clone();
    // Only what a call reads and then writes is put back.
    let changed = ["rings_count", "generation"];
    let kept: Vec<usize> = (0..fresh.lent.len())
        .filter(|k| changed.contains(&fresh.lent[*k].name))
        .collect();
    let mut go = move || {
        for k in &kept {
            memory.lent[*k].copy(&fresh.lent[*k]);
        }
        let run = |call| library::run(call, &mut memory);
        black_box(&calls).iter().map(run).sum::<u32>()
    };
    // Every go is accepted as the first was: a commit's list has the stock's stamp again.
    assert_eq!([go(), go()], [0, 0]);
    side(1, go)
}

/// The library's side of a call that is refused with the number.
fn refused_side<'a>(call: Call, number: u32) -> Option<Side<'a>> {
    let mut memory = Memory::of(&call);
    assert_eq!(oracle::answer(&call), Err(Reason::only(number)));
    assert_eq!(library::run(&call, &mut memory), number);
    side(1, move || library::run(black_box(&call), &mut memory))
}

/// The same with every buffer that the call writes put back to what it was before the first call.
fn cleared_side<'a>(call: Call) -> Option<Side<'a>> {
    let fresh = Memory::of(&call);
    let mut memory = fresh.clone();
    assert_eq!(library::run(&call, &mut memory), 0);
    let written = ["indices", "records"];
    side(1, move || {
        for (lent, fresh) in memory.lent.iter_mut().zip(&fresh.lent) {
            if written.contains(&fresh.name) {
                lent.copy(fresh);
            }
        }
        library::run(black_box(&call), &mut memory)
    })
}

const HEAD: &str = "Times in ns a call: the median of the runs, and their quartiles in brackets. \
Release builds, one process, the same inputs; the runs of the sides take turns. The library's \
buffers for changes are lent as the call before left them and are not cleared first, but where a \
row says so; the Rust makes its own. A ratio is the library over the Rust, with 01's length where \
that column has a number. Instructions are callgrind's, a call.";

/// Prints the tables, or the rows that have the word; the picture of the growth.
pub fn bench(word: &str) -> String {
    println!("{HEAD} {RUNS} runs.\n");
    shop::shop(word);
    each::each(word);
    let picture = growth::growth(word);
    println!("## More of each\n");
    println!(
        "| call | Rust | Rust with 01's length | library | library / Rust | instructions, Rust | instructions, library | library / Rust |"
    );
    println!("|---|---|---|---|---|---|---|---|");
    rows::all(&Table::Rows(word));
    println!();
    picture
}
