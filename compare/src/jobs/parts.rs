//! Jobs handed to the C calls in parts, in memory that is full of patterns, and their answers put together line by line.
use super::driver::refusal;
use super::generate::job;
use super::program::run;
use crate::count::Counts;
use crate::generate::Rng;
use crate::library::c::{turning_job_finish, turning_job_output, turning_job_take};
use crate::run::{SHOWN, Source};
use crate::stack::used_by;

/// So many bytes a part has.
const SIZES: [usize; 9] = [0, 1, 2, 3, 7, 127, 128, 129, 4096];

const PATTERN: u64 = 0x7FF4_5A5A_A5A5_3C3C;

type Guard = [u64; 3];

/// All that is lent to the calls of a job, each between words that no call may touch.
#[repr(C)]
#[derive(Clone)]
pub struct Lent {
    before: Guard,
    pub state: [u64; 8],
    state_end: Guard,
    pub bar: [u64; 5],
    bar_end: Guard,
    pub cells: [u64; 2048],
    cells_end: Guard,
    pub rings: [u64; 256],
    rings_end: Guard,
    pub line: [u8; 128],
    line_end: Guard,
}

impl Lent {
    /// A job before its first byte: the state is all 0, and everything else holds a pattern.
    pub fn fresh() -> Box<Self> {
        let guard = [PATTERN; 3];
        Box::new(Self {
            before: guard,
            state: [0; 8],
            state_end: guard,
            bar: [PATTERN; 5],
            bar_end: guard,
            cells: [PATTERN; 2048],
            cells_end: guard,
            rings: [PATTERN; 256],
            rings_end: guard,
            line: [0xA5; 128],
            line_end: guard,
        })
    }

    /// Whether the words between are as they were.
    fn guarded(&self) -> bool {
        let guards = [
            self.before,
            self.state_end,
            self.bar_end,
            self.cells_end,
            self.rings_end,
            self.line_end,
        ];
        guards.iter().all(|g| *g == [PATTERN; 3])
    }

    /// Every word that may be written, in order.
    pub fn words(&self) -> Vec<u64> {
        let numbers = [&self.bar[..], &self.cells, &self.rings];
        let words = self.state.iter().chain(numbers.into_iter().flatten());
        words
            .copied()
            .chain(self.line.iter().map(|b| *b as u64))
            .collect()
    }

    /// Hands over a part. The call answers 0, and holds no more than a line.
    pub fn take(&mut self, part: &[u8]) {
        // SAFETY: each array is as long as turning.h says, and none overlaps another.
        let code = unsafe {
            turning_job_take(
                &mut self.state,
                self.bar.as_mut_ptr().cast(),
                self.cells.as_mut_ptr().cast(),
                self.rings.as_mut_ptr().cast(),
                &mut self.line,
                part.as_ptr(),
                part.len(),
            )
        };
        assert_eq!(code, 0);
        assert!(self.guarded());
    }

    /// The job's refusal with its line, if the input ended here. What is not to be written is not.
    pub fn finish(&self) -> (u32, Option<u64>) {
        let mut line = PATTERN;
        // SAFETY: as above.
        let code = unsafe { turning_job_finish(&self.state, &mut line) };
        (code, (line != PATTERN).then_some(line))
    }

    /// Line k of the answer; behind it the bytes lent for it are as they were.
    pub fn output(&self, k: usize) -> Vec<u8> {
        let mut out = [0x5A_u8; 128 + 8];
        let mut len = usize::MAX;
        // SAFETY: as above.
        let code = unsafe {
            turning_job_output(
                &self.state,
                self.cells.as_ptr().cast(),
                self.rings.as_ptr().cast(),
                k,
                out.as_mut_ptr().cast(),
                &mut len,
            )
        };
        assert_eq!(code, 0);
        assert!(out[len..].iter().all(|b| *b == 0x5A));
        out[..len].to_vec()
    }

    /// The whole answer, which changes nothing; `finish` says the same as its line.
    pub fn answer(&self) -> Vec<u8> {
        let before = self.words();
        let lines = (0..).map(|k| self.output(k));
        let answer: Vec<u8> = lines.take_while(|l| !l.is_empty()).flatten().collect();
        let (code, line) = self.finish();
        assert_eq!(code, refusal(&answer));
        assert_eq!(line, refused_line(&answer));
        assert!(self.words() == before && self.guarded());
        answer
    }
}

/// The number of the refused line.
fn refused_line(answer: &[u8]) -> Option<u64> {
    let text = String::from_utf8_lossy(answer);
    let line = text.strip_prefix("refused\t")?.split('\t').next()?;
    line.parse().ok()
}

/// What the C calls answer to these parts, one after the other.
pub fn answered<'a>(parts: impl IntoIterator<Item = &'a [u8]>) -> Vec<u8> {
    let mut lent = Lent::fresh();
    for part in parts {
        lent.take(part);
        assert!(lent.state[6] <= 127 && lent.state[7] == 0);
    }
    lent.answer()
}

/// A job in parts of any sizes.
pub fn cut<'a>(rng: &mut Rng, input: &'a [u8]) -> Vec<&'a [u8]> {
    let mut rest = input;
    let mut parts = vec![];
    // of one size as a rule, so that some jobs come byte by byte
    let usual = rng.pick(&SIZES).max(1);
    while !rest.is_empty() {
        let size = if rng.once_in(3) {
            rng.pick(&SIZES)
        } else {
            usual
        };
        let (part, after) = rest.split_at(size.min(rest.len()));
        parts.push(part);
        rest = after;
    }
    parts
}

/// Jobs from a seed, through the C calls.
pub struct Parts {
    rng: Rng,
}

impl Parts {
    pub fn new(seed: u64) -> Self {
        let rng = Rng::new(seed);
        Self { rng }
    }
}

impl Source for Parts {
    fn next(&mut self, counts: &mut Counts) {
        let input = job(&mut self.rng);
        let expected = run(&input);
        let parts = cut(&mut self.rng, &input);
        let found = answered(parts.iter().copied());
        if found != expected && counts.differ() < SHOWN {
            let [job, expected, found] =
                [&input, &expected, &found].map(|b| String::from_utf8_lossy(b).into_owned());
            println!("job {job:?}\nexpected {expected:?}\nfound {found:?}");
            let sizes: Vec<usize> = parts.iter().map(|p| p.len()).collect();
            println!("parts of {sizes:?} bytes");
        }
        counts.add("job_parts", refusal(&expected), found == expected);
    }
}

/// The stack that each call needs, over so many jobs, whole: in a run of lines every kind of cut is made.
pub fn stack(count: usize, seed: u64) -> Vec<(&'static str, usize)> {
    let mut rng = Rng::new(seed);
    let mut needs = vec![];
    for _ in 0..count {
        let input = job(&mut rng);
        let mut lent = Lent::fresh();
        needs.push(("job_take", used_by(|| lent.take(&input))));
        needs.push(("job_finish", used_by(|| drop(vec![lent.finish()]))));
        needs.push(("job_output", used_by(|| drop(lent.output(0)))));
    }
    needs
}
