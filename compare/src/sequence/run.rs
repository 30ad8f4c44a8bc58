//! Runs a sequence on both sides.
use super::flat::Flat;
use super::rust::Rust;
use super::{Action, Sequence, Step};
use crate::call::{Answer, Call, Outcome, Spec, Stamp, Store};
use crate::count::Counts;
use crate::generate::{Rng, sequence};
use crate::memory::Memory;
use crate::run::{SHOWN, Source, number, unlike};
use crate::shrink::shrink;
use crate::{library, oracle, record};

/// Bends the outcome that is wanted of a call, to see that a difference is found.
pub type Bent<'a> = &'a dyn Fn(&Call, Outcome) -> Outcome;

/// Nothing is bent.
pub const AS_IT_IS: Bent = &|_, outcome| outcome;

/// The step that differs, and how.
#[derive(Debug)]
pub struct Difference {
    pub step: usize,
    pub text: String,
}

/// Sequences from a seed.
pub struct Sequences {
    rng: Rng,
    seed: u64,
    made: u64,
    trace: bool,
}

impl Sequences {
    pub fn new(seed: u64) -> Self {
        Self {
            rng: Rng::new(seed),
            seed,
            made: 0,
            trace: std::env::var_os("TRACE").is_some(),
        }
    }
}

impl Source for Sequences {
    fn next(&mut self, counts: &mut Counts) {
        let sequence = sequence::sequence(&mut self.rng);
        if self.trace {
            eprintln!("{sequence:?}");
        }
        let shown = counts.differ() < SHOWN;
        let end = run(&sequence, AS_IT_IS, counts);
        if let (Err(_), true) = (end, shown) {
            let fails = |s: &Sequence| run(s, AS_IT_IS, &mut Counts::default()).is_err();
            let least = shrink(&sequence, fails);
            let end = run(&least, AS_IT_IS, &mut Counts::default());
            println!(
                "sequence {} of seed {} differs. The smallest found:",
                self.made, self.seed
            );
            print!("{}", shown_whole(&least, end.err()));
        }
        self.made += 1;
    }
}

/// A sequence as a test can have it, and where it differs.
fn shown_whole(sequence: &Sequence, difference: Option<Difference>) -> String {
    let Sequence {
        spec,
        stamp,
        cells,
        store,
        steps,
    } = sequence;
    let mut text = format!("{spec:?}\n{stamp:?}\ncells {cells:?}\n{store:?}\n");
    for (k, step) in steps.iter().enumerate() {
        text += &format!("step {k}: {step:?}\n");
    }
    if let Some(Difference { step, text: how }) = difference {
        text += &format!("differs at step {step}:\n{how}");
    }
    text
}

/// Runs all steps, or up to the first that differs; each call is counted.
pub fn run(sequence: &Sequence, bent: Bent, counts: &mut Counts) -> Result<(), Difference> {
    let mut ours = Flat::new(sequence);
    let mut theirs = Rust::new(sequence);
    for (step, what) in sequence.steps.iter().enumerate() {
        let done = carry_out(what, &mut ours, &mut theirs, bent, counts);
        done.map_err(|text| Difference { step, text })?;
    }
    Ok(())
}

/// The stock that the Rust's side of a sequence leaves; refused calls leave it as it was.
pub fn left_by(sequence: &Sequence) -> (Spec, Stamp, Vec<f64>, Store) {
    let mut rust = Rust::new(sequence);
    for Step { action, damage } in &sequence.steps {
        match (rust.flat.call(action), damage) {
            (None, _) => {
                if let Action::Return { back } = action {
                    rust.go_back(*back);
                }
            }
            (Some(call), None) if oracle::answer(&call).is_ok() => {
                rust.carry_out(action, &call);
            }
            _ => {}
        }
    }
    let now = rust.flat.now;
    (rust.flat.spec, now.stamp, now.cells, now.store)
}

fn carry_out(
    Step { action, damage }: &Step,
    ours: &mut Flat,
    theirs: &mut Rust,
    bent: Bent,
    counts: &mut Counts,
) -> Result<(), String> {
    if let Action::Return { back } = action {
        let then = ours.stock_back(*back).clone();
        ours.earlier.push(std::mem::replace(&mut ours.now, then));
        theirs.go_back(*back);
        return same_stock(ours, theirs);
    }
    let mut call = ours.call(action).unwrap();
    let mut asked = theirs.flat.call(action).unwrap();
    if let Some(damage) = damage {
        damage.befall(&mut call, &ours.stock_back(0).blocks);
        asked = call.clone();
    }
    let outcome = oracle::answer(&asked);
    let wanted = bent(&call, outcome.clone());
    let mut memory = Memory::of(&call);
    let after = memory.after(&wanted);
    let answered = library::run(&call, &mut memory);
    let unlike = unlike(&call, &wanted, answered, &memory, &after);
    counts.add(call.name(), number(&wanted), unlike.is_none());
    if let Some(text) = unlike {
        return Err(text);
    }
    if damage.is_none() && outcome.is_ok() {
        ours.take(&call, &memory);
        let living = Ok(theirs.carry_out(action, &asked));
        if !agree(&asked, &living, &outcome) {
            return Err(record::line(&asked, &living) + "\n  is what the living stock answers\n");
        }
    }
    same_stock(ours, theirs)
}

/// Whether the living stock answers as the oracle does; of a stock, what the call lends. It counts no tests.
fn agree(call: &Call, living: &Outcome, outcome: &Outcome) -> bool {
    match (call, living, outcome) {
        (
            Call::FromParts { .. },
            Ok(Answer::Stock(_, blocks, rings, g, _)),
            Ok(Answer::Stock(_, kept, other, h, _)),
        ) => (blocks, rings, g) == (kept, other, h),
        (
            Call::Apply { .. },
            Ok(Answer::Stock(cells, blocks, _, g, _)),
            Ok(Answer::Stock(other, kept, _, h, _)),
        ) => (cells, blocks, g) == (other, kept, h),
        (
            Call::ApplyMove { .. },
            Ok(Answer::Stock(cells, blocks, rings, g, _)),
            Ok(Answer::Stock(other, kept, stored, h, _)),
        ) => (cells, blocks, rings, g) == (other, kept, stored, h),
        (
            Call::RemoveRing { .. },
            Ok(Answer::Stock(_, _, rings, g, _)),
            Ok(Answer::Stock(_, _, other, h, _)),
        ) => (rings, g) == (other, h),
        _ => living == outcome,
    }
}

/// The whole of both stocks: stamp, cells, rings stored; and the kept numbers, which on the Rust's side are fresh ones.
fn same_stock(ours: &Flat, theirs: &Rust) -> Result<(), String> {
    let bits = |numbers: &[f64]| -> Vec<u64> { numbers.iter().map(|x| x.to_bits()).collect() };
    let stored = |store: &Store| bits(&store.rings[..4 * store.count]);
    let stamp = |stamp: Stamp| vec![stamp.edition as u64, stamp.generation];
    let (now, then) = (&ours.now, &theirs.flat.now);
    let parts = [
        ("cells", bits(&now.cells), bits(&then.cells)),
        ("blocks", bits(&now.blocks), bits(&then.blocks)),
        ("rings", stored(&now.store), stored(&then.store)),
        ("stamp", stamp(now.stamp), stamp(then.stamp)),
    ];
    match parts.into_iter().find(|(_, a, b)| a != b) {
        None => Ok(()),
        Some((name, a, b)) => Err(format!("  {name} are {a:X?}, wanted {b:X?}\n")),
    }
}
