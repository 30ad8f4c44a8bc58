//! Everything for a given time, on all cores: each family, sequences, jobs, and the distance from
//! the untouched Rust.
use crate::count::Counts;
use crate::far::Far;
use crate::generate::Rng;
use crate::jobs::Jobs;
use crate::pairs::{Pairs, named_program};
use crate::run::{Source, source};
use crate::trap::{self, CALLS, DIFFER};
use std::panic::{AssertUnwindSafe, catch_unwind};
use std::sync::Mutex;
use std::sync::atomic::{AtomicBool, Ordering};
use std::thread;
use std::time::{Duration, Instant};

/// What part of the time each takes, in hundredths.
const SHARES: [(&str, u64); 29] = [
    ("root", 2),
    ("length", 2),
    ("stock", 3),
    ("thread", 3),
    ("thread_inner", 3),
    ("drill", 3),
    ("apply", 4),
    ("changes_to", 3),
    ("nose", 6),
    ("short_chords", 3),
    ("polygon", 6),
    ("rings", 3),
    ("moves", 5),
    ("parts", 3),
    ("volume", 3),
    ("envelope_at", 3),
    ("renew", 1),
    ("range", 4),
    ("envelope", 3),
    ("profile", 3),
    ("insert", 3),
    ("passes", 5),
    ("proposals", 2),
    ("sequence", 7),
    ("jobs", 5),
    ("job_parts", 3),
    ("file", 3),
    ("side_by_side", 3),
    ("far", 3),
];

/// How many are made before the clock is read again.
const AT_ONCE: usize = 8;

const PROGRESS: Duration = Duration::from_secs(10);

/// What was done in the time of one family by one worker.
struct Slot {
    name: &'static str,
    seed: u64,
    made: u64,
    counts: Counts,
    panicked: bool,
}

/// What all workers have done so far.
struct State {
    slots: Mutex<Vec<Slot>>,
    far: Mutex<Far>,
    now: Mutex<&'static str>,
    done: AtomicBool,
}

/// Runs everything for about so many seconds; how many calls failed. Jobs run where a program is
/// named.
pub fn whole(seconds: u64, seed: u64, program: &[String]) -> u64 {
    let state = State {
        slots: Mutex::default(),
        far: Mutex::default(),
        now: Mutex::new(""),
        done: AtomicBool::new(false),
    };
    trap::watch();
    let workers = thread::available_parallelism().map_or(1, usize::from);
    println!("{seconds} s, seed {seed}, {workers} workers\n");
    thread::scope(|scope| {
        scope.spawn(|| progress(&state, seconds));
        let work = |worker| {
            let state = &state;
            scope.spawn(move || work(state, worker, seconds, seed, program))
        };
        let running: Vec<_> = (0..workers).map(work).collect();
        running.into_iter().for_each(|w| w.join().unwrap());
        state.done.store(true, Ordering::Relaxed);
    });
    report(&state)
}

/// Prints to standard error how far it is.
fn progress(state: &State, seconds: u64) {
    let start = Instant::now();
    let mut next = PROGRESS;
    while !state.done.load(Ordering::Relaxed) {
        thread::sleep(Duration::from_millis(200));
        if start.elapsed() >= next {
            next += PROGRESS;
            let [calls, differ] = [&CALLS, &DIFFER].map(|n| n.load(Ordering::Relaxed));
            let (spent, name) = (start.elapsed().as_secs(), *state.now.lock().unwrap());
            eprintln!("{spent} of {seconds} s, at {name}: {calls} calls, {differ} differ");
        }
    }
}

/// Each worker makes its own calls of each family.
fn work(state: &State, worker: usize, seconds: u64, seed: u64, program: &[String]) {
    let start = Instant::now();
    let shares: u64 = SHARES.iter().map(|s| s.1).sum();
    let mut seeds = Rng::new(seed.wrapping_add((worker as u64) << 32));
    let mut spent = 0;
    for (name, share) in SHARES {
        spent += share;
        let end = Duration::from_millis(1000 * seconds * spent / shares);
        let seed = seeds.word();
        let over = || start.elapsed() >= end;
        *state.now.lock().unwrap() = name;
        if name == "far" {
            let mut far = Far::new(seed);
            while !over() {
                (0..AT_ONCE).for_each(|_| far.take());
            }
            state.far.lock().unwrap().merge(&far);
        } else if let Some(source) = source_of(name, seed, program) {
            let slot = slot(name, seed, source, over);
            state.slots.lock().unwrap().push(slot);
        } else if worker == 0 {
            println!("{name}: not run, there is no program\n");
        }
    }
}

/// What makes the calls of a name; none for jobs and for pairs of files where their program is not there.
fn source_of(name: &str, seed: u64, program: &[String]) -> Option<Box<dyn Source>> {
    match name {
        "jobs" if program.is_empty() => None,
        "jobs" => Some(Box::new(Jobs::new(program, seed))),
        "side_by_side" => named_program().map(|p| Box::new(Pairs::new(p, seed)) as Box<dyn Source>),
        _ => Some(source(name, seed)),
    }
}

/// Calls of one family up to the end of its time. A panic of the oracle counts as a failure.
fn slot(
    name: &'static str,
    seed: u64,
    mut source: Box<dyn Source>,
    over: impl Fn() -> bool,
) -> Slot {
    let mut counts = Counts::default();
    let mut made = 0;
    let run = || {
        while !over() {
            let before = [counts.calls(), counts.differ()];
            for _ in 0..AT_ONCE {
                trap::at(name, seed, made);
                source.next(&mut counts);
                made += 1;
            }
            CALLS.fetch_add(counts.calls() - before[0], Ordering::Relaxed);
            DIFFER.fetch_add(counts.differ() - before[1], Ordering::Relaxed);
        }
    };
    let panicked = catch_unwind(AssertUnwindSafe(run)).is_err();
    if panicked {
        println!("{name}: a panic at number {made} of seed {seed}\n");
    }
    Slot {
        name,
        seed,
        made,
        counts,
        panicked,
    }
}

/// Prints the tables and the last line.
fn report(state: &State) -> u64 {
    let slots = state.slots.lock().unwrap();
    println!("### How many of each family\n");
    println!("| family | how many, from which seed |\n|---|---|");
    for (name, _) in SHARES {
        let of_name = slots.iter().filter(|s| s.name == name);
        let runs: Vec<String> = of_name
            .map(|s| format!("{} from {}", s.made, s.seed))
            .collect();
        if !runs.is_empty() {
            println!("| {name} | {} |", runs.join(", "));
        }
    }
    let sum = |in_sequence: bool| {
        let mut sum = Counts::default();
        let of_kind = slots
            .iter()
            .filter(|s| (s.name == "sequence") == in_sequence);
        of_kind.for_each(|s| sum.merge(&s.counts));
        sum
    };
    let [single, sequences] = [sum(false), sum(true)];
    println!("\n### Single calls, and jobs\n");
    single.print();
    println!("\n### Calls in sequences\n");
    sequences.print();
    println!("\n### How far from the untouched Rust\n");
    state.far.lock().unwrap().print();
    let panics = slots.iter().filter(|s| s.panicked).count() as u64;
    let calls = single.calls() + sequences.calls();
    let failed = single.differ() + sequences.differ();
    println!("\n{} passed, {} failed", calls - failed, failed + panics);
    failed + panics
}
