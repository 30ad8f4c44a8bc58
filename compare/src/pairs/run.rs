//! Pairs of stock files through a program that compares many of them, one after the other.
//!
//! The program is `test_side_by_side`, which does with each pair what `stock_compare` does with its one: both are a loop or a line
//! over `side_streams::write_differences`. A start of the program has as many pairs as are made of one sequence.
use super::generate::files;
use super::oracle::{Refused, Told, differences, told};
use super::{oracle, points};
use crate::call::Reason;
use crate::count::Counts;
use crate::generate::Rng;
use crate::run::{SHOWN, Source};
use crate::shrink::{Parts, Shrink, Way, runs, shrink};
use std::collections::VecDeque;
use std::env;
use std::fs;
use std::path::{Path, PathBuf};
use std::process::{Command, Stdio, id};
use std::sync::atomic::{AtomicU64, Ordering};

/// So many pairs of the files of one sequence.
const OF_ONE: usize = 96;

/// The program that PAIRS names, or target/bin/test_side_by_side; none where there is no such file.
pub fn named_program() -> Option<PathBuf> {
    let root = Path::new(env!("CARGO_MANIFEST_DIR")).parent().unwrap();
    let name = env::var_os("PAIRS").unwrap_or("target/bin/test_side_by_side".into());
    let program = root.join(name);
    program.is_file().then_some(program)
}

/// A folder for files, emptied at the end; in memory where there is such a place.
struct Folder(PathBuf);

static FOLDERS: AtomicU64 = AtomicU64::new(0);

impl Folder {
    fn new() -> Self {
        let memory = Path::new("/dev/shm");
        let top = if memory.is_dir() {
            memory.into()
        } else {
            env::temp_dir()
        };
        let number = FOLDERS.fetch_add(1, Ordering::Relaxed);
        let folder = top.join(format!("pairs.{}.{number}", id()));
        fs::create_dir_all(&folder).expect("a folder for files");
        Self(folder)
    }
}

impl Drop for Folder {
    fn drop(&mut self) {
        fs::remove_dir_all(&self.0).ok();
    }
}

/// What the program writes behind its pairs: of stocks of thousands of bins that it makes itself.
const BEHIND: &str = "bins 4096\n";

/// What the program writes of pairs of names, each with its names before it.
fn written(program: &Path, folder: &Folder, pairs: &[(String, String)]) -> String {
    let names = pairs.iter().flat_map(|(a, b)| [a, b]);
    let output = Command::new(program)
        .args(names)
        .current_dir(&folder.0)
        .stdin(Stdio::null())
        .stderr(Stdio::null())
        .output()
        .expect("the program starts");
    let mut text = String::from_utf8_lossy(&output.stdout).into_owned();
    // no line of a pair begins so; a program that breaks off before has nothing of it
    let behind = text.find(&format!("\n{BEHIND}"));
    text.truncate(behind.map_or(text.len(), |at| at + 1));
    text
}

/// What stands between the names of a pair and those of the next.
fn parted<'a>(output: &'a str, pairs: &[(String, String)]) -> Vec<&'a str> {
    let mut rest = output;
    let mut parts = vec![];
    for (k, (a, b)) in pairs.iter().enumerate() {
        rest = rest.strip_prefix(&format!("{a} {b}\n")).unwrap_or("");
        let next = pairs.get(k + 1).map(|(a, b)| format!("\n{a} {b}\n"));
        let before = |next: String| match rest.starts_with(&next[1..]) {
            true => Some(0),
            false => rest.find(&next).map(|at| at + 1),
        };
        let end = next.map_or(Some(rest.len()), before).unwrap_or(rest.len());
        parts.push(&rest[..end]);
        rest = &rest[end..];
    }
    parts
}

/// Two files' bytes, of which rings can be left out.
#[derive(Clone)]
struct Two([Vec<u8>; 2]);

impl Two {
    fn wanted(&self) -> String {
        let [first, second] = self.0.each_ref().map(|bytes| told(bytes));
        oracle::text(&differences(&first, &second))
    }

    fn found(&self, program: &Path) -> String {
        let folder = Folder::new();
        for (name, bytes) in ["a", "b"].iter().zip(&self.0) {
            fs::write(folder.0.join(name), bytes).expect("a file is written");
        }
        let pair = [("a".to_string(), "b".to_string())];
        let output = written(program, &folder, &pair);
        output.strip_prefix("a b\n").unwrap_or("").into()
    }
}

/// The bytes without some of their ring lines, and with the right count at their end.
fn without_rings(bytes: &[u8], start: usize, size: usize) -> Option<Vec<u8>> {
    let text = std::str::from_utf8(bytes).ok()?;
    let mut rings = 0;
    let mut lines = vec![];
    for line in text.split_inclusive('\n') {
        let ring = line.starts_with("ring");
        if !(ring && (start..start + size).contains(&rings)) {
            lines.push(line.to_string());
        }
        rings += ring as usize;
    }
    let fewer = rings > start && lines.last()?.starts_with("end");
    *lines.last_mut()? = format!("end\t{}\n", lines.len() - 1);
    fewer.then(|| lines.concat().into_bytes())
}

impl Shrink for Two {
    fn parts(&mut self) -> Parts<'_> {
        Parts::default()
    }

    fn ways(&self) -> Vec<Way<Self>> {
        let mut ways: Vec<Way<Self>> = vec![];
        for file in 0..2 {
            let rings = self.0[file].windows(5).filter(|w| w == b"ring\t").count();
            for (start, size) in runs(rings) {
                ways.push(Box::new(move |two: &mut Two| {
                    let fewer = without_rings(&two.0[file], start, size);
                    let some = fewer.is_some();
                    two.0[file] = fewer.unwrap_or_default();
                    some
                }));
            }
        }
        ways
    }
}

/// A pair that was run: what it is counted as, and where it differs its files and how.
struct Done {
    name: &'static str,
    number: u32,
    differs: Option<(Two, String)>,
}

/// Pairs from a seed.
pub struct Pairs {
    program: PathBuf,
    rng: Rng,
    seed: u64,
    made: u64,
    points: usize,
    folder: Folder,
    done: VecDeque<Done>,
}

impl Pairs {
    pub fn new(program: PathBuf, seed: u64) -> Self {
        Self {
            program,
            rng: Rng::new(seed),
            seed,
            made: 0,
            points: 0,
            folder: Folder::new(),
            done: VecDeque::new(),
        }
    }

    /// So many points were looked at.
    pub fn points(&self) -> usize {
        self.points
    }

    /// Different pairs of so many files and of one that is not there.
    fn draw(&mut self, count: usize) -> Vec<(usize, usize)> {
        let mut all: Vec<(usize, usize)> = (0..count)
            .flat_map(|a| (0..count).map(move |b| (a, b)))
            .collect();
        let many = OF_ONE.min(all.len());
        for k in 0..many {
            let other = k + self.rng.below(all.len() - k);
            all.swap(k, other);
        }
        all.truncate(many);
        if self.rng.once_in(4) {
            all[0] = self.rng.pick(&[(0, count), (count, 0), (count, count)]);
        }
        all
    }

    /// Runs the pairs of one sequence.
    fn run(&mut self) {
        let files = files(&mut self.rng);
        for (k, bytes) in files.iter().enumerate() {
            fs::write(self.folder.0.join(k.to_string()), bytes).expect("a file is written");
        }
        fs::remove_file(self.folder.0.join(files.len().to_string())).ok();
        let mut tells: Vec<Result<Told, Reason>> = files.iter().map(|b| told(b)).collect();
        tells.push(told(b""));
        let pairs = self.draw(files.len());
        let names: Vec<(String, String)> = pairs
            .iter()
            .map(|(a, b)| (a.to_string(), b.to_string()))
            .collect();
        let output = written(&self.program, &self.folder, &names);
        for ((a, b), found) in pairs.iter().zip(parted(&output, &names)) {
            let wanted = differences(&tells[*a], &tells[*b]);
            let differs = self.difference(&tells[*a], &tells[*b], &wanted, found);
            let whole = |k: &usize| files.get(*k).cloned().unwrap_or_default();
            let differs = differs.map(|how| (Two([whole(a), whole(b)]), how));
            self.done.push_back(done(&wanted, differs));
        }
    }

    /// How what was found is other than what was wanted, or covers other points.
    fn difference(
        &mut self,
        first: &Result<Told, Reason>,
        second: &Result<Told, Reason>,
        wanted: &Result<String, Refused>,
        found: &str,
    ) -> Option<String> {
        if found != oracle::text(wanted) {
            return Some("other bytes".into());
        }
        let (Ok(first), Ok(second), Ok(_)) = (first, second, wanted) else {
            return None;
        };
        match points::counted(&mut self.rng, first, second, found) {
            Ok(count) => {
                self.points += count;
                None
            }
            Err(how) => Some(how),
        }
    }

    /// The smallest pair found that differs.
    fn shown(&self, two: &Two, how: &str) -> String {
        let program = &self.program;
        let least = shrink(two, |two: &Two| two.found(program) != two.wanted());
        let [first, second] = least
            .0
            .each_ref()
            .map(|b| String::from_utf8_lossy(b).into_owned());
        let (found, wanted) = (least.found(program), least.wanted());
        format!("{how}\nfirst {first:?}\nsecond {second:?}\nfound {found:?}\nwanted {wanted:?}")
    }
}

fn done(wanted: &Result<String, Refused>, differs: Option<(Two, String)>) -> Done {
    let (name, number) = match wanted {
        Ok(lines) if lines.is_empty() => ("silent", 0),
        Ok(_) => ("written", 0),
        Err(Refused {
            file: Some(1),
            reason,
        }) => ("first file", reason.number),
        Err(Refused {
            file: Some(_),
            reason,
        }) => ("second file", reason.number),
        Err(Refused { file: None, reason }) => ("both files", reason.number),
    };
    Done {
        name,
        number,
        differs,
    }
}

impl Source for Pairs {
    fn next(&mut self, counts: &mut Counts) {
        if self.done.is_empty() {
            self.run();
        }
        let done = self.done.pop_front().expect("a sequence has pairs");
        if let (Some((two, how)), true) = (&done.differs, counts.differ() < SHOWN) {
            let shown = self.shown(two, how);
            println!("pair {} of seed {}: {shown}", self.made, self.seed);
        }
        counts.add(done.name, done.number, done.differs.is_none());
        self.made += 1;
    }
}

/// Runs so many pairs and prints what was seen; how many differ.
pub fn compare(count: usize, seed: u64) -> u64 {
    let program =
        named_program().expect("PAIRS names a program, or `compare/run` made one");
    let mut pairs = Pairs::new(program, seed);
    let mut counts = Counts::default();
    (0..count).for_each(|_| pairs.next(&mut counts));
    println!("{}, {count} from seed {seed}\n", super::SIDE_BY_SIDE.0);
    counts.print();
    println!("\n{} points where edges cross\n", pairs.points());
    counts.differ()
}
