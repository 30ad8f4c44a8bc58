//! The times of long jobs, of a job program and of the one over camlib.
use super::driver::written;
use super::generate::cut_line;
use super::parts::answered;
use super::program::run;
use crate::generate::Rng;
use std::ffi::c_long;
use std::time::Instant;

/// How often each side runs a job.
const JOB_RUNS: usize = 3;

/// How often a job is taken in parts of one size.
const PART_RUNS: usize = 9;

/// Whether a job is to have lines of a kind.
type Wanted = fn(&str) -> bool;

/// A job of so many lines of a kind over 512 cells.
fn long_job(rng: &mut Rng, lines: usize, wanted: Wanted) -> String {
    let mut input = String::from("bar\t0\t51200\t30000\t5000\t100\n");
    let mut made = 0;
    while made < lines {
        let line = cut_line(rng, 51200, 30000);
        let kind = line.split('\t').next().unwrap();
        if wanted(kind) {
            // One ring again and again, since the store has room for 64.
            input += match kind {
                "ring" => "ring\t0\t5000\t10000\t12000\n",
                _ => &line,
            };
            made += 1;
        }
    }
    input
}

/// The median of some runs, in milliseconds, and the least and the greatest.
fn timed(input: &str, f: impl Fn(&[u8]) -> Vec<u8>) -> (Vec<u8>, [f64; 3]) {
    let mut times = vec![];
    let mut output = vec![];
    for _ in 0..JOB_RUNS {
        let start = Instant::now();
        output = f(input.as_bytes());
        times.push(start.elapsed().as_secs_f64() * 1000.);
    }
    times.sort_by(f64::total_cmp);
    let last = JOB_RUNS - 1;
    (output, [times[last / 2], times[0], times[last]])
}

/// Prints the time of long jobs, the Rust's and the program's.
pub fn bench(program: &[String], lines: usize) {
    let mut rng = Rng::new(7);
    let kinds: [(&str, Wanted); 4] = [
        ("every kind but rings", |kind| kind != "ring"),
        ("threads and drills", |kind| {
            kind.starts_with("thread") || kind == "drill"
        }),
        ("lines", |kind| kind == "line"),
        ("rings", |kind| kind == "ring"),
    ];
    println!("## Jobs of {lines} lines over 512 cells\n");
    println!("The median of {JOB_RUNS} runs in ms, and the least and the greatest in brackets.\n");
    println!("| job | Rust | program | program / Rust |\n|---|---|---|---|");
    for (name, wanted) in kinds {
        let input = long_job(&mut rng, lines, wanted);
        let (expected, rust) = timed(&input, run);
        let (found, ours) = timed(&input, |input| written(program, input));
        assert!(found == expected, "{name}: the answers differ");
        let shown =
            |[median, least, most]: [f64; 3]| format!("{median:.0} ({least:.0}..{most:.0})");
        let ratio = ours[0] / rust[0];
        println!(
            "| {name} | {} | {} | {ratio:.2} |",
            shown(rust),
            shown(ours)
        );
    }
}

unsafe extern "C" {
    /// The processor time of this process, in millionths of a second.
    fn clock() -> c_long;
}

/// A wheel with 26 detents, 300 fine passes of a nose at each.
fn detents(rng: &mut Rng) -> String {
    let mut input = String::from("bar\t0\t512000\t30000\t0\t1000\n");
    for detent in 0..26 {
        let z = 10_000 + 19_000 * detent;
        for pass in 0..300 {
            let sag = pass % 3;
            let r = 30_600 - 30 * (pass % 200);
            let [dr, az, bz] = [60, 4_000, 4_000].map(|n| rng.below(n));
            let (end, az, bz) = (r - dr, z + az, z + 4_000 + bz);
            input += &format!("line\touter\t800\t{sag}\t{r}\t{az}\t{end}\t{bz}\n");
        }
    }
    input
}

/// Prints the processor time of a job of some 300 KiB through the C calls, in parts of several sizes.
pub fn parts_bench() {
    let input = detents(&mut Rng::new(26));
    let expected = run(input.as_bytes());
    println!(
        "## A job of {} bytes in parts, through the C calls\n",
        input.len()
    );
    println!("Processor time, the least of {PART_RUNS} runs.\n");
    println!(
        "| bytes in a part | parts | ms | ns a part, over the whole at once |\n|---|---|---|---|"
    );
    let mut whole = 0.;
    for size in [input.len(), 4096, 16, 1] {
        let mut least = f64::INFINITY;
        for _ in 0..PART_RUNS {
            let start = unsafe { clock() };
            let found = answered(input.as_bytes().chunks(size));
            least = least.min((unsafe { clock() } - start) as f64 / 1000.);
            assert!(
                found == expected,
                "parts of {size} bytes: the answers differ"
            );
        }
        let parts = input.len().div_ceil(size);
        if parts == 1 {
            whole = least;
        }
        let each = (least - whole) * 1e6 / parts as f64;
        println!("| {size} | {parts} | {least:.1} | {each:.0} |");
    }
}
