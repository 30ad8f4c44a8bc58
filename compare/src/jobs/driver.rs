//! Runs jobs through a program and holds what it writes against the job program over camlib.
use super::generate::job;
use super::parts::cut;
use super::program::run;
use crate::count::Counts;
use crate::generate::Rng;
use crate::run::{SHOWN, Source};
use crate::shrink::{Parts, Shrink, Way, runs, shrink};
use std::io::Write;
use std::process::{Command, Stdio};
use std::thread::yield_now;

/// What the program writes for a job.
pub fn written(program: &[String], input: &[u8]) -> Vec<u8> {
    written_in(program, [input])
}

/// The same for a job that is written to it in these parts.
fn written_in<'a>(program: &[String], parts: impl IntoIterator<Item = &'a [u8]>) -> Vec<u8> {
    let mut child = Command::new(&program[0])
        .args(&program[1..])
        .stdin(Stdio::piped())
        .stdout(Stdio::piped())
        .spawn()
        .expect("the program starts");
    // the program reads all of its input before it writes
    let mut stdin = child.stdin.take().unwrap();
    for part in parts {
        stdin.write_all(part).ok();
        // it may read this part before the next one is there
        yield_now();
    }
    drop(stdin);
    child.wait_with_output().unwrap().stdout
}

/// Jobs from a seed, through a program, a third of them in parts.
pub struct Jobs {
    program: Vec<String>,
    rng: Rng,
    cuts: Rng,
}

impl Jobs {
    pub fn new(program: &[String], seed: u64) -> Self {
        Self {
            program: program.to_vec(),
            rng: Rng::new(seed),
            cuts: Rng::new(seed),
        }
    }
}

impl Source for Jobs {
    fn next(&mut self, counts: &mut Counts) {
        let input = job(&mut self.rng);
        let expected = run(&input);
        let parts = if self.cuts.once_in(3) {
            cut(&mut self.cuts, &input)
        } else {
            vec![&input[..]]
        };
        let found = written_in(&self.program, parts);
        if found != expected && counts.differ() < SHOWN {
            let differs = |lines: &Lines| written(&self.program, &lines.0) != run(&lines.0);
            let least = shrink(&Lines(input), differs).0;
            let [job, expected, found] = [&least, &run(&least), &written(&self.program, &least)]
                .map(|bytes| String::from_utf8_lossy(bytes).into_owned());
            println!("job {job:?}\nexpected {expected:?}\nfound {found:?}");
        }
        counts.add("job", refusal(&expected), found == expected);
    }
}

/// The number of a job's refusal, or 0.
pub fn refusal(output: &[u8]) -> u32 {
    let text = String::from_utf8_lossy(output);
    let refused = text.strip_prefix("refused\t");
    let number = refused.and_then(|t| t.trim_end().rsplit('\t').next());
    number.map_or(0, |n| n.parse().unwrap())
}

/// A job's bytes, of which lines can be left out.
#[derive(Clone)]
struct Lines(Vec<u8>);

impl Shrink for Lines {
    fn parts(&mut self) -> Parts<'_> {
        Parts::default()
    }

    fn ways(&self) -> Vec<Way<Self>> {
        let count = self.0.split_inclusive(|b| *b == b'\n').count();
        let without = |(start, size): (usize, usize)| -> Way<Self> {
            Box::new(move |lines: &mut Lines| {
                let all = lines.0.split_inclusive(|b| *b == b'\n').enumerate();
                let kept = all.filter(|(k, _)| !(start..start + size).contains(k));
                let kept: Vec<u8> = kept.flat_map(|(_, line)| line).copied().collect();
                let fewer = kept.len() < lines.0.len();
                lines.0 = kept;
                fewer
            })
        };
        runs(count).into_iter().map(without).collect()
    }
}

/// Runs so many jobs through the program; how many differ.
pub fn compare(program: &[String], count: usize, seed: u64) -> u64 {
    let mut jobs = Jobs::new(program, seed);
    let mut counts = Counts::default();
    (0..count).for_each(|_| jobs.next(&mut counts));
    println!("jobs, {count} from seed {seed}\n");
    counts.print();
    println!();
    counts.differ()
}
