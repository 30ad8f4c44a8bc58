//! Runs a family: every call of it by the oracle and by the library.
use crate::call::{Call, Outcome};
use crate::count::Counts;
use crate::files::Files;
use crate::generate::{self, FILE, JOB_PARTS, PASSES, PROPOSALS, Rng, SEQUENCE};
use crate::guess::{Guess, guess};
use crate::jobs::Parts;
use crate::memory::Memory;
use crate::passes::{Checks, Proposals};
use crate::sequence::Sequences;
use crate::shrink::shrink;
use crate::{library, oracle, record};

/// How many differences a source prints whole.
pub const SHOWN: u64 = 5;

/// Makes what is compared, one after the other.
pub trait Source {
    /// Makes and compares the next one; counts each call of it.
    fn next(&mut self, counts: &mut Counts);
}

/// The calls of a family, from a seed.
struct Calls {
    name: String,
    make: fn(&mut Rng) -> Call,
    rng: Rng,
    seed: u64,
    made: u64,
    trace: bool,
}

/// The source of a family's calls.
pub fn source(name: &str, seed: u64) -> Box<dyn Source> {
    if name == SEQUENCE.0 {
        return Box::new(Sequences::new(seed));
    }
    if name == JOB_PARTS.0 {
        return Box::new(Parts::new(seed));
    }
    if name == FILE.0 {
        return Box::new(Files::new(seed));
    }
    if name == PASSES.0 {
        return Box::new(Checks::new(seed));
    }
    if name == PROPOSALS.0 {
        return Box::new(Proposals::new(seed));
    }
    Box::new(Calls {
        name: name.into(),
        make: generate::family(name).expect("the name is a family's"),
        rng: Rng::new(seed),
        seed,
        made: 0,
        trace: std::env::var_os("TRACE").is_some(),
    })
}

impl Source for Calls {
    fn next(&mut self, counts: &mut Counts) {
        let call = (self.make)(&mut self.rng);
        let outcome = oracle::answer(&call);
        if self.trace {
            eprintln!("{}", record::line(&call, &outcome));
        }
        let differs = difference(&call, &outcome);
        if differs.is_some() && counts.differ() < SHOWN {
            show(&self.name, self.made, self.seed, &call);
        }
        counts.add(call.name(), number(&outcome), differs.is_none());
        self.made += 1;
    }
}

/// Prints where a call that differs stands, and the smallest one that it shrinks to.
pub fn show(name: &str, at: u64, seed: u64, call: &Call) {
    let differs = |call: &Call| difference(call, &oracle::answer(call));
    let least = shrink(call, |call| differs(call).is_some());
    let text = differs(&least).unwrap_or_default();
    println!("{name}: call {at} of seed {seed} differs. The smallest found:\n{least:?}\n{text}");
}

/// The number that an outcome answers.
pub fn number(outcome: &Outcome) -> u32 {
    outcome.as_ref().err().map_or(0, |reason| reason.number)
}

/// What the library does otherwise than the outcome says, or than the full look.
pub fn difference(call: &Call, outcome: &Outcome) -> Option<String> {
    let mut memory = Memory::of(call);
    let wanted = memory.after(outcome);
    let full = oracle::full_look(call).map(|full| (memory.after(&full), full));
    let number = library::run(call, &mut memory);
    unlike(call, outcome, number, &memory, &wanted).or_else(|| {
        let (wanted, outcome) = full?;
        let text = unlike(call, &outcome, number, &memory, &wanted)?;
        Some(format!("The full look:\n{text}"))
    })
}

/// Where the number or the memory after a call are not those wanted.
pub fn unlike(
    call: &Call,
    outcome: &Outcome,
    answered: u32,
    memory: &Memory,
    wanted: &Memory,
) -> Option<String> {
    let number = number(outcome);
    if answered == number && memory == wanted {
        return None;
    }
    let mut text = format!("{}\n", record::line(call, outcome));
    text += &format!("  answered {answered}, wanted {number}\n");
    for (is, want) in memory.lent.iter().zip(&wanted.lent) {
        for (at, a, b) in is.differences(want).into_iter().take(4) {
            text += &format!("  {}[{at}] is {a:016X}, wanted {b:016X}\n", is.name);
        }
    }
    Some(text)
}

/// Runs so many of the family and prints what was seen; how many differ.
pub fn family(name: &str, count: usize, seed: u64) -> u64 {
    let mut source = source(name, seed);
    let mut counts = Counts::default();
    (0..count).for_each(|_| source.next(&mut counts));
    println!("{name}, {count} from seed {seed}\n");
    counts.print();
    println!();
    counts.differ()
}

/// Holds the root of k/1000 against the processor's for every step-th k to 1,000,000,000 and prints
/// what was seen; how many differ.
pub fn thousandths(step: usize) -> u64 {
    let (mut roots, mut differ) = (0, 0);
    let mut missed = [0, 0];
    for k in (step..=1_000_000_000).step_by(step) {
        let x = k as f64 / 1000.;
        let mut root = 0.;
        // SAFETY: the pointer is to one f64.
        let number = unsafe { library::c::turning_root(x, &mut root) };
        roots += 1;
        if number != 0 || root.to_bits() != x.sqrt().to_bits() {
            differ += 1;
            println!("{x}: answered {number}, {:016X}", root.to_bits());
        }
        match guess(x) {
            Guess::Passes => {}
            Guess::Beside => missed[0] += 1,
            Guess::Digits => missed[1] += 1,
        }
    }
    let [beside, digits] = missed;
    println!("{roots} roots of k/1000, every {step}th k: {differ} differ");
    println!("the guess misses {beside} by one; digits tell {digits} more");
    differ
}
