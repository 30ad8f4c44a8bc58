//! Seeded calls: ordinary ones, ones on the limits, damaged ones.
//!
//! A generator first makes a call that is accepted, and then damages any of its parts now and then,
//! so that several reasons for a refusal meet and their order shows.
pub mod blocks;
pub mod changes;
pub mod cuts;
pub mod envelope;
pub mod insert;
pub mod numbers;
pub mod passes;
pub mod profile;
pub mod rings;
pub mod sequence;
pub mod stock;

use crate::call::Call;

/// Numbers that look random, the same for the same seed (splitmix64).
#[derive(Default)]
pub struct Rng(u64);

impl Rng {
    pub fn new(seed: u64) -> Self {
        Self(seed)
    }
    pub fn word(&mut self) -> u64 {
        self.0 = self.0.wrapping_add(0x9E37_79B9_7F4A_7C15);
        let x = (self.0 ^ (self.0 >> 30)).wrapping_mul(0xBF58_476D_1CE4_E5B9);
        let x = (x ^ (x >> 27)).wrapping_mul(0x94D0_49BB_1331_11EB);
        x ^ (x >> 31)
    }
    /// Below the limit, which is above 0.
    pub fn below(&mut self, limit: usize) -> usize {
        ((self.word() as u128 * limit as u128) >> 64) as usize
    }
    /// Once in so many times.
    pub fn once_in(&mut self, times: usize) -> bool {
        self.below(times) == 0
    }
    pub fn pick<T: Copy>(&mut self, from: &[T]) -> T {
        from[self.below(from.len())]
    }
    pub fn between(&mut self, low: f64, high: f64) -> f64 {
        let part = (self.word() >> 11) as f64 / (1_u64 << 53) as f64;
        low + (high - low) * part
    }
    /// Between, and often one that a person would write.
    pub fn written(&mut self, low: f64, high: f64) -> f64 {
        match self.below(6) {
            0 => self.between(low, high).round().clamp(low, high),
            1 => ((self.between(low, high) * 10.).round() / 10.).clamp(low, high),
            2 => ((self.between(low, high) * 1000.).round() / 1000.).clamp(low, high),
            3 => self.pick(&[low, high]),
            _ => self.between(low, high),
        }
    }
}

/// The generator of a family's calls, by the family's name.
pub fn family(name: &str) -> Option<fn(&mut Rng) -> Call> {
    Some(match name {
        "root" => numbers::root_call,
        "length" => numbers::length_call,
        "stock" => stock::stock_call,
        "thread" => cuts::thread,
        "thread_inner" => cuts::thread_inner,
        "drill" => cuts::drill,
        "apply" => changes::apply,
        "changes_to" => changes::changes_to,
        "nose" => cuts::nose,
        "short_chords" => cuts::short_chords,
        "polygon" => cuts::polygon,
        "rings" => rings::remove_ring,
        "moves" => rings::apply_move,
        "parts" => rings::from_parts,
        "volume" => rings::volume,
        "envelope_at" => stock::envelope_at,
        "renew" => blocks::renew,
        "range" => blocks::range,
        "envelope" => envelope::envelope_call,
        "profile" => profile::segments_call,
        "insert" => insert::insert_call,
        "passes" => passes::check,
        "proposals" => passes::propose,
        _ => return None,
    })
}

/// Every family of single calls, and how many calls are made by default.
pub const FAMILIES: [(&str, usize); 23] = [
    ("root", 20_000_000),
    ("length", 20_000_000),
    ("stock", 200_000),
    ("thread", 200_000),
    ("thread_inner", 200_000),
    ("drill", 200_000),
    ("apply", 200_000),
    ("changes_to", 200_000),
    ("nose", 300_000),
    ("short_chords", 300_000),
    ("polygon", 300_000),
    ("rings", 200_000),
    ("moves", 200_000),
    ("parts", 100_000),
    ("volume", 100_000),
    ("envelope_at", 200_000),
    ("renew", 200_000),
    ("range", 1_000_000),
    ("envelope", 400_000),
    ("profile", 1_000_000),
    ("insert", 400_000),
    PASSES,
    PROPOSALS,
];

/// Passes checked against targets: each list, and the same cuts in three other orders.
pub const PASSES: (&str, usize) = ("passes", 500_000);

/// Passes proposed, and each proposal checked.
pub const PROPOSALS: (&str, usize) = ("proposals", 1_000_000);

/// Sequences of calls on one stock.
pub const SEQUENCE: (&str, usize) = ("sequence", 20_000);

/// Stock files, read in parts and written line by line.
pub const FILE: (&str, usize) = ("file", 1_000_000);

/// Jobs handed over in parts.
pub const JOB_PARTS: (&str, usize) = ("job_parts", 20_000);
