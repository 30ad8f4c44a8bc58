//! Counts of the calls compared: by name, by the number wanted, and how many differ.
use std::collections::BTreeMap;

/// 0 is accepted; 25 is the greatest refusal number.
const NUMBERS: usize = 26;

/// What was seen of one name.
#[derive(Clone, Default)]
struct Row {
    numbers: [u64; NUMBERS],
    differ: u64,
}

impl Row {
    fn calls(&self) -> u64 {
        self.numbers.iter().sum()
    }
    fn add(&mut self, other: &Row) {
        for (sum, n) in self.numbers.iter_mut().zip(other.numbers) {
            *sum += n;
        }
        self.differ += other.differ;
    }
}

#[derive(Clone, Default)]
pub struct Counts {
    rows: BTreeMap<&'static str, Row>,
    calls: u64,
    differ: u64,
}

impl Counts {
    /// One more call: the number that was wanted, and whether the library did the same.
    pub fn add(&mut self, name: &'static str, number: u32, same: bool) {
        let row = self.rows.entry(name).or_default();
        row.numbers[number as usize] += 1;
        row.differ += !same as u64;
        self.calls += 1;
        self.differ += !same as u64;
    }
    pub fn merge(&mut self, other: &Counts) {
        self.calls += other.calls;
        self.differ += other.differ;
        for (name, row) in &other.rows {
            self.rows.entry(name).or_default().add(row);
        }
    }
    pub fn calls(&self) -> u64 {
        self.calls
    }
    pub fn differ(&self) -> u64 {
        self.differ
    }
    /// How often the number was wanted of the name.
    pub fn wanted(&self, name: &str, number: u32) -> u64 {
        let row = self.rows.get(name);
        row.map_or(0, |row| row.numbers[number as usize])
    }
    /// A table with a row a name and a column for each number that occurs; 0 is accepted.
    pub fn print(&self) {
        let mut sum = Row::default();
        self.rows.values().for_each(|row| sum.add(row));
        let occurs: Vec<usize> = (0..NUMBERS).filter(|k| sum.numbers[*k] > 0).collect();
        let columns: Vec<String> = occurs.iter().map(usize::to_string).collect();
        println!("| call | compared | {} | differ |", columns.join(" | "));
        println!("|---|---|{}---|", "---|".repeat(occurs.len()));
        let print = |name: &str, row: &Row| {
            let cells: Vec<String> = occurs.iter().map(|k| row.numbers[*k].to_string()).collect();
            let (calls, cells, differ) = (row.calls(), cells.join(" | "), row.differ);
            println!("| {name} | {calls} | {cells} | {differ} |");
        };
        for (name, row) in &self.rows {
            print(name, row);
        }
        if self.rows.len() > 1 {
            print("all", &sum);
        }
    }
}
