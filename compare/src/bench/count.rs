//! Instructions of a row's sides, by callgrind: it runs this program again for one side of one row.
use super::time::{Side, Time, compare_counted_goes};
use std::process::Command;

/// How many goes callgrind counts.
const GOES: usize = 3;

/// A row that takes longer than this is not counted: callgrind takes some fifty times as long.
const LONGEST_NS: f64 = 5e7;

/// Runs so many goes of a side, for callgrind to count, and prints how many calls they made.
pub fn go(mut side: Side) {
    // Once before, so that nothing is done for the first time.
    compare_counted_goes(&mut side, 1);
    let calls = compare_counted_goes(&mut side, GOES);
    println!("{}", calls + calls / GOES);
}

/// The instructions of one call of the Rust and of the library, and their ratio; nothing where a side
/// is not there, takes too long, or there is no valgrind.
pub fn instructions(row: &str, times: [Option<Time>; 3]) -> [String; 3] {
    let brief = times.iter().flatten().all(|t| t.median < LONGEST_NS);
    let there = |side: usize| brief && times[side].is_some();
    let counts = [0, 1, 2].map(|side| there(side).then(|| counted(row, side)).flatten());
    let whole = |n: Option<f64>| n.map_or(String::new(), |n| format!("{n:.0}"));
    [
        whole(counts[1].or(counts[0])),
        whole(counts[2]),
        super::ratio(counts),
    ]
}

fn counted(row: &str, side: usize) -> Option<f64> {
    let out = Command::new("valgrind")
        .args(["--tool=callgrind", "--callgrind-out-file=/dev/null"])
        .arg("--toggle-collect=compare_counted_goes")
        .arg(std::env::current_exe().ok()?)
        .args(["count", row, &side.to_string()])
        .output()
        .ok()?;
    let calls: f64 = String::from_utf8_lossy(&out.stdout).trim().parse().ok()?;
    let said = String::from_utf8_lossy(&out.stderr).into_owned();
    let line = said.lines().find(|l| l.contains("Collected :"))?;
    let count: f64 = line.split_whitespace().last()?.parse().ok()?;
    Some(count / calls)
}
