//! Times of `stock_compare` as a program, beside the same over camlib with a plain reader in std Rust.
use super::oracle::Ring;
use crate::call::Spec;
use crate::files::bench::{plain_read, plain_write};
use crate::files::form::{cell_line, ring_line};
use crate::oracle::stock::{camlib_spec, from_camlib, to_camlib};
use plain::turning::stock::TurnStock;
use std::env;
use std::fs;
use std::path::{Path, PathBuf};
use std::process::{Command, Stdio, id};
use std::time::Instant;

const RUNS: usize = 201;

/// A file's stock as camlib keeps it.
fn plain_stock(path: &str) -> TurnStock {
    let text = fs::read_to_string(path).expect("a stock file");
    let (bar, _, cells, rings) = plain_read(&text).expect("a stock file");
    let [z_min, z_max, outer, bore, cell] = bar;
    let spec = Spec {
        z_min,
        z_max,
        outer,
        bore,
        cell,
        max_cells: cells.len() / 4,
    };
    let cells = cells.as_chunks::<4>().0.iter().map(to_camlib).collect();
    let rings = rings.as_chunks::<4>().0.to_vec();
    TurnStock::from_parts(camlib_spec(&spec), cells, rings).expect("a stock")
}

/// What the rings of a stock leave of a ring.
fn left(stock: &TurnStock, ring: &Ring) -> Vec<Ring> {
    let mut copy = stock.clone();
    copy.remove_ring([ring[0], ring[1]], [ring[2], ring[3]]);
    copy.rings()[stock.rings().len()..].to_vec()
}

/// What differs between two files that read, as a person would write it with std and camlib: neither 24 nor 11 is asked.
pub fn plain_compare(first: &str, second: &str) -> String {
    let [first, second] = [first, second].map(plain_stock);
    let mut text = String::new();
    let bins = first.cells().len();
    for change in first.changes_to(&second) {
        for cell in [&change.before, &change.after] {
            text += &cell_line(change.index, bins, &from_camlib(cell));
        }
    }
    for (stock, other) in [(&first, &second), (&second, &first)] {
        for piece in stock.rings().iter().flat_map(|ring| left(other, ring)) {
            text += &ring_line(&piece);
        }
    }
    text
}

/// A file of so many cells and rings: the cells from a radius on, the rings in a row from a radius on.
fn file(cells: usize, rings: usize, radius: f64, from: f64) -> String {
    let bar = [0., cells as f64, 10., 0., 1.];
    let cell = |i: usize| [radius + i as f64 / 10_000., 10., 0., i as f64 / 10_000.];
    let ring = |i: usize| [i as f64, i as f64 + 1., from, from + 1. / (i as f64 + 3.)];
    let list = |n: usize, of: &dyn Fn(usize) -> [f64; 4]| (0..n).flat_map(of).collect::<Vec<f64>>();
    plain_write(&bar, &list(cells, &cell), &list(rings, &ring))
}

/// The file with another outer bound in one bin.
fn one_bin(text: &str) -> String {
    let mut lines: Vec<String> = text.split_inclusive('\n').map(String::from).collect();
    let at = lines.len() / 2;
    let mut fields: Vec<&str> = lines[at].split('\t').collect();
    fields[2] = "0000000000000000";
    lines[at] = fields.join("\t");
    lines.concat()
}

/// One go of a program; its output, and the time from its start to its end in ms.
fn go(words: &[&str]) -> (Vec<u8>, f64) {
    let start = Instant::now();
    let output = Command::new(words[0])
        .args(&words[1..])
        .stdin(Stdio::null())
        .output()
        .expect("the program starts");
    (output.stdout, start.elapsed().as_secs_f64() * 1000.)
}

/// The median and the least.
fn middle(mut times: Vec<f64>) -> [f64; 2] {
    times.sort_by(f64::total_cmp);
    [times[times.len() / 2], times[0]]
}

/// The times of one pair; the sides take turns.
fn row(name: &str, program: &str, folder: &Path, files: [&str; 2]) {
    let [first, second] = ["first", "second"].map(|n| folder.join(n).display().to_string());
    fs::write(&first, files[0]).expect("a file is written");
    fs::write(&second, files[1]).expect("a file is written");
    let own: PathBuf = env::current_exe().expect("the name of this program");
    let own = own.display().to_string();
    let sides: [&[&str]; 2] = [
        &[program, &first, &second],
        &[&own, "pair", &first, &second],
    ];
    assert_eq!(
        go(sides[0]).0,
        go(sides[1]).0,
        "both write the same of {name}"
    );
    let mut times = [vec![], vec![]];
    for _ in 0..RUNS {
        for (side, times) in sides.iter().zip(&mut times) {
            times.push(go(side).1);
        }
    }
    let [ours, theirs] = times.map(middle);
    let bytes = go(sides[0]).0.len();
    println!(
        "| {name} | {bytes} | {:.2} ({:.2}) | {:.2} ({:.2}) |",
        ours[0], ours[1], theirs[0], theirs[1]
    );
}

/// Prints how long a comparison takes from the program's start to its end.
pub fn bench(program: &str) {
    let top = Path::new("/dev/shm");
    let top = if top.is_dir() {
        top.into()
    } else {
        env::temp_dir()
    };
    let folder = top.join(format!("pairs-bench.{}", id()));
    fs::create_dir_all(&folder).expect("a folder for files");
    println!("## Two stock files side by side\n");
    println!(
        "ms from the program's start to its end, the median of {RUNS} runs that take turns (the least).\n"
    );
    println!("| files | bytes written | `stock_compare` | Rust |\n|---|---|---|---|");
    let full = file(4096, 256, 1., 1.);
    let most = file(16384, 256, 1., 1.);
    let rows = [
        (
            "one bin each, equal",
            file(1, 0, 1., 1.),
            file(1, 0, 1., 1.),
        ),
        ("4,096 cells, 256 rings, equal", full.clone(), full.clone()),
        ("the same, unequal in one bin", full.clone(), one_bin(&full)),
        (
            "4,096 cells all unequal, 256 rings each apart",
            full.clone(),
            file(4096, 256, 2., 5.),
        ),
        ("16,384 cells, 256 rings, equal", most.clone(), most.clone()),
        (
            "16,384 cells all unequal, 256 rings each apart",
            most.clone(),
            file(16384, 256, 2., 5.),
        ),
    ];
    for (name, first, second) in &rows {
        row(name, program, &folder, [first, second]);
    }
    fs::remove_dir_all(&folder).ok();
}
