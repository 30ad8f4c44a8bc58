//! What a call costs through the crate and as a bare C call: `cargo run --release --example cost`. Rows of `docs/BENCH.md`.
//!
//! Both ways are timed in turn, some 400 times each over a tenth of a millisecond, and the least times are told in ns a call: they are
//! those that other work on the machine disturbed least.
use std::hint::black_box;
use std::time::Instant;
use turning::{ChangeList, Cut, Spec, Stock};

extern "C" {
    fn turning_root(x: f64, root: *mut f64) -> u32;
    fn turning_envelope_at(
        z_min: f64,
        z_max: f64,
        outer: f64,
        bore: f64,
        cell: f64,
        max_cells: usize,
        cells: *const f64,
        cells_len: usize,
        z: f64,
        found: *mut u32,
        bore_lower: *mut f64,
        outer_upper: *mut f64,
    ) -> u32;
    fn turning_range(
        z_min: f64,
        z_max: f64,
        outer: f64,
        bore: f64,
        cell: f64,
        max_cells: usize,
        cells: *const f64,
        cells_len: usize,
        blocks: *const f64,
        blocks_len: usize,
        lo: f64,
        hi: f64,
        found: *mut u32,
        bore_lower: *mut f64,
        outer_upper: *mut f64,
    ) -> u32;
    fn turning_thread_cut(
        z_min: f64,
        z_max: f64,
        outer: f64,
        bore: f64,
        cell: f64,
        max_cells: usize,
        edition: u32,
        generation: u64,
        cells: *const f64,
        cells_len: usize,
        z0: f64,
        z1: f64,
        radius: f64,
        indices: *mut usize,
        indices_len: usize,
        records: *mut f64,
        records_len: usize,
        count: *mut usize,
        list_edition: *mut u32,
        list_generation: *mut u64,
    ) -> u32;
    fn turning_apply(
        z_min: f64,
        z_max: f64,
        outer: f64,
        bore: f64,
        cell: f64,
        max_cells: usize,
        edition: u32,
        generation: *mut u64,
        cells: *mut f64,
        cells_len: usize,
        blocks: *mut f64,
        blocks_len: usize,
        indices: *const usize,
        indices_len: usize,
        records: *const f64,
        records_len: usize,
        changes: usize,
        list_edition: u32,
        list_generation: u64,
        position: *mut usize,
    ) -> u32;
}

/// The time of a call in ns, over so many calls.
fn time(calls: u32, mut call: impl FnMut()) -> f64 {
    let start = Instant::now();
    for _ in 0..calls {
        call();
    }
    start.elapsed().as_nanos() as f64 / f64::from(calls)
}

fn least(times: Vec<f64>) -> f64 {
    times.into_iter().fold(f64::INFINITY, f64::min)
}

/// Times both ways in turn and writes a row.
fn row(name: &str, mut bare: impl FnMut(), mut bound: impl FnMut()) {
    let once = time(50, &mut bare).max(1.0);
    let calls = (1e5 / once).clamp(5.0, 50_000.0) as u32;
    let (mut a, mut b) = (Vec::new(), Vec::new());
    for _ in 0..401 {
        a.push(time(calls, &mut bare));
        b.push(time(calls, &mut bound));
    }
    let (a, b) = (least(a), least(b));
    println!("| {name} | {a:.1} | {b:.1} | {:.3} |", b / a);
}

fn main() -> Result<(), turning::Refusal> {
    println!("| call | C | Rust | Rust / C |\n|---|---|---|---|");
    let mut x = 2.0;
    row(
        "root",
        || unsafe {
            let mut root = 0.0;
            turning_root(black_box(x), &mut root);
            black_box(root);
        },
        || {
            let _ = black_box(turning::root(black_box(x)));
        },
    );
    x += 1.0;
    black_box(x);
    for n in [12usize, 512, 4096] {
        let spec = Spec::new(0.0, n as f64, 30.0, 0.0, 1.0);
        let stock = Stock::new(spec)?;
        let s = (0.0, n as f64, 30.0, 0.0, 1.0, spec.max_cells);
        let cells: Vec<f64> = stock
            .cells()
            .iter()
            .flat_map(|c| <[f64; 4]>::from(*c))
            .collect();
        let blocks: Vec<f64> = stock.blocks().iter().flatten().copied().collect();
        row(
            &format!("envelope_at, {n} bins"),
            || unsafe {
                let (mut found, mut bore, mut outer) = (0, 0.0, 0.0);
                turning_envelope_at(
                    s.0,
                    s.1,
                    s.2,
                    s.3,
                    s.4,
                    s.5,
                    cells.as_ptr(),
                    cells.len(),
                    black_box(3.5),
                    &mut found,
                    &mut bore,
                    &mut outer,
                );
                black_box((found, bore, outer));
            },
            || {
                let _ = black_box(stock.envelope_at(black_box(3.5)));
            },
        );
        row(
            &format!("range, {n} bins"),
            || unsafe {
                let (mut found, mut bore, mut outer) = (0, 0.0, 0.0);
                turning_range(
                    s.0,
                    s.1,
                    s.2,
                    s.3,
                    s.4,
                    s.5,
                    cells.as_ptr(),
                    cells.len(),
                    blocks.as_ptr(),
                    blocks.len(),
                    black_box(3.5),
                    black_box(9.5),
                    &mut found,
                    &mut bore,
                    &mut outer,
                );
                black_box((found, bore, outer));
            },
            || {
                let _ = black_box(stock.range(black_box(3.5), black_box(9.5)));
            },
        );
        let mut indices = vec![0usize; n];
        let mut records = vec![0.0f64; 8 * n];
        let mut list = ChangeList::new();
        let thread = Cut::ThreadCut {
            z0: 3.0,
            z1: 9.0,
            radius: 20.0,
        };
        row(
            &format!("thread_cut over 6 of {n} bins"),
            || unsafe {
                let (mut count, mut edition, mut generation) = (0, 0, 0);
                turning_thread_cut(
                    s.0,
                    s.1,
                    s.2,
                    s.3,
                    s.4,
                    s.5,
                    0,
                    0,
                    cells.as_ptr(),
                    cells.len(),
                    3.0,
                    9.0,
                    black_box(20.0),
                    indices.as_mut_ptr(),
                    n,
                    records.as_mut_ptr(),
                    8 * n,
                    &mut count,
                    &mut edition,
                    &mut generation,
                );
                black_box((count, edition, generation));
            },
            || {
                let _ = black_box(stock.preview_into(black_box(&thread), &mut list));
            },
        );
        // A list with no change: the same commit can be made again and again.
        let mut own = stock.clone();
        let mut own_list = own.thread_cut(-2.0, -1.0, 20.0)?;
        let (mut c_cells, mut c_blocks) = (cells.clone(), blocks.clone());
        let mut generation = 0u64;
        row(
            &format!("preview and commit with no change, {n} bins"),
            || unsafe {
                let (mut count, mut le, mut lg, mut position) = (0, 0, 0, 0);
                turning_thread_cut(
                    s.0,
                    s.1,
                    s.2,
                    s.3,
                    s.4,
                    s.5,
                    0,
                    generation,
                    c_cells.as_ptr(),
                    c_cells.len(),
                    -2.0,
                    -1.0,
                    20.0,
                    indices.as_mut_ptr(),
                    n,
                    records.as_mut_ptr(),
                    8 * n,
                    &mut count,
                    &mut le,
                    &mut lg,
                );
                turning_apply(
                    s.0,
                    s.1,
                    s.2,
                    s.3,
                    s.4,
                    s.5,
                    0,
                    &mut generation,
                    c_cells.as_mut_ptr(),
                    c_cells.len(),
                    c_blocks.as_mut_ptr(),
                    c_blocks.len(),
                    indices.as_ptr(),
                    n,
                    records.as_ptr(),
                    8 * n,
                    count,
                    le,
                    lg,
                    &mut position,
                );
                black_box(position);
            },
            || {
                let none = Cut::ThreadCut {
                    z0: -2.0,
                    z1: -1.0,
                    radius: 20.0,
                };
                let _ = own.preview_into(&none, &mut own_list);
                let _ = black_box(own.commit(&own_list));
            },
        );
    }
    Ok(())
}
