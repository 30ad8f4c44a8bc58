//! Passes checked, each list in its own order and in three others, and proposals, each checked as the library has written it.
use crate::call::{Answer, Call, Outcome, Passes, Verdict};
use crate::count::Counts;
use crate::generate::passes::{another_order, check, propose};
use crate::generate::{PASSES, PROPOSALS, Rng};
use crate::memory::{Lent, Memory};
use crate::oracle::passes::{blocks_of, inside};
use crate::run::{SHOWN, Source, difference, number, show, unlike};
use crate::{library, oracle, record};

/// So many other orders of each list.
const ORDERS: usize = 3;

/// Lists of passes from a seed.
pub struct Checks {
    rng: Rng,
    seed: u64,
    made: u64,
    trace: bool,
}

/// Proposals from a seed.
pub struct Proposals {
    rng: Rng,
    seed: u64,
    made: u64,
    trace: bool,
}

fn traced() -> bool {
    std::env::var_os("TRACE").is_some()
}

/// The name that a call is counted under: of a check its verdict too.
pub fn seen(call: &Call, outcome: &Outcome) -> &'static str {
    match outcome {
        Ok(Answer::Checked(Verdict::Yes, ..)) => "check_passes: yes",
        Ok(Answer::Checked(Verdict::Cut(_, 5), ..)) => "check_passes: a cut, 5",
        Ok(Answer::Checked(Verdict::Cut(_, 12), ..)) => "check_passes: a cut, 12",
        Ok(Answer::Checked(Verdict::Cut(..), ..)) => "check_passes: a cut, 13",
        Ok(Answer::Checked(Verdict::Bin(_), ..)) => "check_passes: a bin",
        _ => call.name(),
    }
}

/// Whether two orders of the same cuts have the answers that no order changes: the whole of a yes, the bin of a no by a bin, that
/// some cut fails, a refusal.
pub fn same_in_any_order(one: &Outcome, other: &Outcome) -> bool {
    match (one, other) {
        (
            Ok(Answer::Checked(Verdict::Cut(..), cells, blocks, g)),
            Ok(Answer::Checked(Verdict::Cut(..), others, kept, h)),
        ) => (cells, blocks, g) == (others, kept, h),
        _ => one == other,
    }
}

impl Checks {
    pub fn new(seed: u64) -> Self {
        Self {
            rng: Rng::new(seed),
            seed,
            made: 0,
            trace: traced(),
        }
    }

    /// Makes and counts the call; what is wanted of it.
    fn compare(&self, call: &Call, counts: &mut Counts) -> Outcome {
        let outcome = oracle::answer(call);
        if self.trace {
            eprintln!("{}", record::line(call, &outcome));
        }
        let same = difference(call, &outcome).is_none();
        if !same && counts.differ() < SHOWN {
            show(PASSES.0, self.made, self.seed, call);
        }
        counts.add(seen(call, &outcome), number(&outcome), same);
        outcome
    }
}

impl Source for Checks {
    fn next(&mut self, counts: &mut Counts) {
        let call = check(&mut self.rng);
        let first = self.compare(&call, counts);
        for _ in 0..ORDERS {
            let other = another_order(&mut self.rng, &call);
            let outcome = self.compare(&other, counts);
            let same = same_in_any_order(&first, &outcome);
            if !same {
                let (at, seed) = (self.made, self.seed);
                println!("passes: list {at} of seed {seed} depends on the order of its cuts:");
                println!("{}", record::line(&call, &first));
                println!("{}\n", record::line(&other, &outcome));
                counts.add("check_passes: orders", 0, false);
            }
        }
        self.made += 1;
    }
}

impl Proposals {
    pub fn new(seed: u64) -> Self {
        Self {
            rng: Rng::new(seed),
            seed,
            made: 0,
            trace: traced(),
        }
    }

    fn counted(&self, call: &Call, outcome: &Outcome, counts: &mut Counts) -> Memory {
        if self.trace {
            eprintln!("{}", record::line(call, outcome));
        }
        let mut memory = Memory::of(call);
        let wanted = memory.after(outcome);
        let answered = library::run(call, &mut memory);
        let same = unlike(call, outcome, answered, &memory, &wanted).is_none();
        if !same && counts.differ() < SHOWN {
            show(PROPOSALS.0, self.made, self.seed, call);
        }
        counts.add(seen(call, outcome), number(outcome), same);
        memory
    }
}

/// The check of what the library has proposed.
pub fn check_of(proposal: &Call, memory: &Memory) -> Option<Call> {
    let Call::ProposePasses {
        spec,
        cells,
        targets,
        ..
    } = proposal
    else {
        return None;
    };
    let buffer = |name: &str| memory.buffer(name).unwrap();
    let count = buffer("count").words()[0] as usize;
    let parts = buffer("parts").words().iter().map(|w| *w as usize);
    let passes = Passes {
        kinds: buffer("kinds").shorts_held(count),
        numbers: Lent::numbers(buffer("numbers"))[..6 * count].to_vec(),
        parts: parts.take(2 * count).collect(),
        lists: vec![],
    };
    assert!(!passes.kinds.iter().any(|k| inside(*k)));
    let blocks = blocks_of(spec, cells).ok()?;
    Some(Call::CheckPasses {
        spec: *spec,
        stamp: Default::default(),
        after_len: cells.len(),
        after_blocks_len: blocks.len(),
        cells: cells.clone(),
        blocks,
        targets: targets.clone(),
        passes,
    })
}

impl Source for Proposals {
    fn next(&mut self, counts: &mut Counts) {
        let call = propose(&mut self.rng);
        let outcome = oracle::answer(&call);
        let before = counts.differ();
        let memory = self.counted(&call, &outcome, counts);
        if outcome.is_ok() && counts.differ() == before {
            let check = check_of(&call, &memory).expect("an accepted stock has kept numbers");
            let outcome = oracle::answer(&check);
            self.counted(&check, &outcome, counts);
        }
        self.made += 1;
    }
}
