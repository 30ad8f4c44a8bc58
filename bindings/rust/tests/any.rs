//! Calls of every kind over random, damaged and limit input: none panics, every refusal has a number of the rules, a refused call
//! leaves the stock as it was, and an accepted one leaves a stock that its own file reads back.
//!
//! `TURNING_CALLS` says how many calls are made; a million without it.
use std::cell::Cell as Counter;
use turning::*;

/// A small generator of numbers, so that a run can be made again from its seed.
struct Dice {
    state: u64,
    calls: Counter<u64>,
    /// How often each number was told.
    seen: [Counter<u64>; 26],
}

impl Dice {
    fn new(seed: u64) -> Dice {
        Dice {
            state: seed.wrapping_mul(0x9E37_79B9_7F4A_7C15) | 1,
            calls: Counter::new(0),
            seen: Default::default(),
        }
    }
    fn next(&mut self) -> u64 {
        self.state ^= self.state << 13;
        self.state ^= self.state >> 7;
        self.state ^= self.state << 17;
        self.state
    }
    fn below(&mut self, n: usize) -> usize {
        (self.next() >> 11) as usize % n.max(1)
    }
    fn chance(&mut self, one_in: usize) -> bool {
        self.below(one_in) == 0
    }
    /// Shop sizes for the most part, and every strange number.
    fn number(&mut self) -> f64 {
        match self.below(24) {
            0 => f64::NAN,
            1 => f64::INFINITY,
            2 => f64::NEG_INFINITY,
            3 => -0.0,
            4 => 0.0,
            5 => 1e6,
            6 => -1e6,
            7 => 1e6 + 1e-9,
            8 => f64::MIN_POSITIVE / 8.0,
            9 => f64::MAX,
            10 => f64::from_bits(self.next()),
            _ => self.shop(),
        }
    }
    fn shop(&mut self) -> f64 {
        self.below(48_000) as f64 / 1000.0 - 8.0
    }
    fn mostly(&mut self, one_in: usize) -> f64 {
        if self.chance(one_in) {
            self.number()
        } else {
            self.shop()
        }
    }
    fn size(&mut self) -> usize {
        match self.below(12) {
            0 => 0,
            1 => 1,
            2 => 63,
            3 => 64,
            4 => 65,
            _ => self.below(40),
        }
    }
    fn side(&mut self) -> Side {
        if self.chance(2) {
            Side::Outer
        } else {
            Side::Inner
        }
    }
    fn segment(&mut self) -> Segment {
        Segment {
            a: [self.mostly(60), self.mostly(60)],
            b: [self.mostly(60), self.mostly(60)],
            sag: if self.chance(3) {
                self.mostly(20).abs() / 20.0
            } else {
                0.0
            },
        }
    }
    fn ring(&mut self) -> Ring {
        let (z, r) = (self.shop(), self.shop().abs());
        match self.below(12) {
            0 => Ring::from([self.number(), self.number(), self.number(), self.number()]),
            _ => Ring {
                z0: z,
                z1: z + self.shop().abs() / 4.0,
                r0: r,
                r1: r + self.shop().abs() / 8.0,
            },
        }
    }
    fn spec(&mut self) -> Spec {
        if self.chance(6) {
            return Spec {
                z_min_mm: self.number(),
                z_max_mm: self.number(),
                outer_radius_mm: self.number(),
                bore_radius_mm: self.number(),
                cell_mm: self.number(),
                max_cells: match self.below(4) {
                    0 => 0,
                    1 => usize::MAX,
                    2 => self.below(100),
                    _ => CELL_LIMIT,
                },
            };
        }
        let z_min = self.shop();
        let outer = self.shop().abs() + 0.5;
        let bins = self.below(80) + 1;
        let cell = [0.1, 0.25, 1.0, 3.0][self.below(4)];
        Spec::new(
            z_min,
            z_min + cell * bins as f64,
            outer,
            if self.chance(2) { 0.0 } else { outer / 3.0 },
            cell,
        )
    }
    /// Counts a call.
    fn asked<T>(&self, answer: Result<T, Refusal>) -> Result<T, Refusal> {
        self.calls.set(self.calls.get() + 1);
        if let Err(refusal) = &answer {
            assert!(
                (1..=25).contains(&refusal.number()) && ![6, 9, 20].contains(&refusal.number()),
                "{refusal:?}"
            );
            assert!(refusal.to_string().starts_with("refused with "));
            let seen = &self.seen[refusal.number() as usize];
            seen.set(seen.get() + 1);
        }
        answer
    }
}

fn calls() -> u64 {
    std::env::var("TURNING_CALLS")
        .ok()
        .and_then(|n| n.parse().ok())
        .unwrap_or(1_000_000)
}

/// What a stock holds, bit for bit.
fn bits(stock: &Stock) -> (Vec<u64>, Vec<u64>, Stamp) {
    let cells = stock.cells().iter().flat_map(|c| <[f64; 4]>::from(*c));
    let rings = stock.rings().iter().flat_map(|r| <[f64; 4]>::from(*r));
    (
        cells.map(f64::to_bits).collect(),
        rings.map(f64::to_bits).collect(),
        stock.stamp(),
    )
}

fn cut<'a>(dice: &mut Dice, segments: &'a [Segment], points: &'a [[f64; 2]]) -> Cut<'a> {
    match dice.below(8) {
        0 => Cut::ThreadCut {
            z0: dice.mostly(20),
            z1: dice.mostly(20),
            radius: dice.mostly(20),
        },
        1 => Cut::ThreadCutInner {
            z0: dice.mostly(20),
            z1: dice.mostly(20),
            radius: dice.mostly(20),
        },
        2 => Cut::Drill {
            tip_z: dice.mostly(20),
            radius: dice.mostly(20),
            cone: dice.mostly(20),
        },
        3 => Cut::Polygon {
            side: dice.side(),
            excess: dice.mostly(20).abs() / 10.0,
            points,
        },
        4 => Cut::Nose {
            side: dice.side(),
            rn: dice.mostly(20).abs() / 10.0,
            segments,
        },
        5 => Cut::Arc,
        _ => Cut::Line {
            side: dice.side(),
            rn: dice.mostly(20) / 10.0,
            segment: dice.segment(),
        },
    }
}

/// Some changes that a caller made by hand, or that a preview made and somebody damaged.
fn damaged(dice: &mut Dice, stock: &Stock, list: &ChangeList) -> ChangeList {
    let mut changes: Vec<Change> = list.iter().collect();
    for _ in 0..dice.below(3) {
        match dice.below(6) {
            0 => changes.reverse(),
            1 => changes.push(Change {
                index: [dice.below(90), usize::MAX][dice.below(2)],
                before: Cell::from([dice.number(), dice.number(), dice.number(), dice.number()]),
                after: Cell::default(),
            }),
            _ => {
                let k = dice.below(changes.len());
                let x = dice.mostly(3);
                if let Some(change) = changes.get_mut(k) {
                    match dice.below(5) {
                        4 => {
                            // The bar as it was: that adds what was cut.
                            let spec = stock.spec();
                            let (outer, bore) = (spec.outer_radius_mm, spec.bore_radius_mm);
                            change.after = Cell::from([outer, outer, bore, bore]);
                        }
                        0 => change.index = dice.below(90),
                        1 => change.before.outer.lower_mm = x,
                        2 => change.after.outer.lower_mm = x,
                        _ => change.after.inner.upper_mm = x,
                    }
                }
            }
        }
    }
    let mut stamp = list.stamp();
    if dice.chance(8) {
        stamp.generation = dice.next();
    }
    if dice.chance(4) {
        stamp = stock.stamp();
    }
    ChangeList::from_records(stamp, changes)
}

/// One round over one stock, every call of it.
fn round(dice: &mut Dice) {
    let spec = dice.spec();
    let _ = dice.asked(spec.validate());
    let i = [dice.below(90), usize::MAX][dice.below(2)];
    let _ = dice.asked(spec.bin(i));
    let edition = dice.next() as u32;
    let made = Stock::with_edition(spec, edition);
    let Ok(mut stock) = dice.asked(made) else {
        return;
    };
    let mut list = ChangeList::new();
    let mut old = ChangeList::new();
    for _ in 0..dice.below(24) {
        let segments: Vec<Segment> = (0..dice.size()).map(|_| dice.segment()).collect();
        let points: Vec<[f64; 2]> = (0..dice.size())
            .map(|_| [dice.mostly(60), dice.mostly(60)])
            .collect();
        let before = bits(&stock);
        let cut = cut(dice, &segments, &points);
        let accepted = dice.asked(stock.preview_into(&cut, &mut list)).is_ok();
        assert_eq!(bits(&stock), before);
        if accepted {
            assert_eq!(list.stamp(), stock.stamp());
            assert!(list.len() <= stock.cells().len());
        }
        let chosen = match dice.below(6) {
            0 => damaged(dice, &stock, &list),
            1 => old.clone(),
            _ => list.clone(),
        };
        let committed = if dice.chance(3) {
            let rings: Vec<Ring> = (0..dice.below(4)).map(|_| dice.ring()).collect();
            let mut tests = vec![7; dice.below(5)];
            let answer = stock.apply_move_with_tests(&chosen, &rings, &mut tests);
            if answer.is_err() {
                assert!(tests.iter().all(|t| *t == 7));
            }
            dice.asked(answer)
        } else {
            let answer = stock.commit(&chosen);
            dice.asked(answer)
        };
        match committed {
            Ok(()) => assert!(stock.generation() > before.2.generation),
            Err(_) => assert_eq!(bits(&stock), before),
        }
        if dice.chance(4) {
            old = list.clone();
        }
        let before = bits(&stock);
        let ring = dice.ring();
        let answer = stock.remove_ring(ring);
        match dice.asked(answer) {
            Ok(tests) => assert!(tests <= 65_536),
            Err(_) => assert_eq!(bits(&stock), before),
        }
        let (lo, hi) = (dice.number(), dice.number());
        let _ = dice.asked(stock.envelope_at(lo));
        let _ = dice.asked(stock.range(lo, hi));
        let volume = dice.asked(stock.volume()).expect("a stock has a volume");
        assert!(volume.least >= 0.0 && volume.greatest >= 0.0);
    }
    if dice.chance(30) {
        many_rings(dice, &mut stock);
    }
    whole(dice, &stock);
    envelopes(dice);
    passes(dice, &stock);
    texts(dice, &stock);
}

/// More small rings than there is room for, and one over all of them.
fn many_rings(dice: &mut Dice, stock: &mut Stock) {
    let spec = *stock.spec();
    let step = (spec.z_max_mm - spec.z_min_mm) / 300.0;
    let some = dice.below(300);
    for k in 0..some {
        let z0 = spec.z_min_mm + step * k as f64;
        let ring = Ring {
            z0,
            z1: z0 + step / 2.0,
            r0: spec.outer_radius_mm / 4.0,
            r1: spec.outer_radius_mm / 2.0,
        };
        let answer = stock.remove_ring(ring);
        let _ = dice.asked(answer);
    }
    let before = bits(stock);
    let all = Ring::from([spec.z_min_mm, spec.z_max_mm, 0.0, spec.outer_radius_mm]);
    let answer = stock.remove_ring(all);
    if dice.asked(answer).is_err() {
        assert_eq!(bits(stock), before);
    }
}

/// A stock is what its parts and its file make again.
fn whole(dice: &mut Dice, stock: &Stock) {
    let mut cells = stock.cells().to_vec();
    let mut rings = stock.rings().to_vec();
    let rebuilt = Stock::rebuild(*stock.spec(), stock.edition(), &cells, &rings);
    let again = dice.asked(rebuilt).expect("a stock is made again");
    assert_eq!(bits(&again).0, bits(stock).0);
    let differs = dice.asked(stock.difference(&again)).expect("one bar");
    assert!(differs.is_empty());
    let mut other = *stock.spec();
    other.outer_radius_mm += 1.0;
    if let Ok(other) = Stock::new(other) {
        assert_eq!(dice.asked(stock.difference(&other)), Err(Refusal::Bars));
    }
    let fresh = Stock::new(*stock.spec()).expect("its spec");
    let to = dice.asked(fresh.difference(stock)).expect("one bar");
    let mut made = fresh.clone();
    dice.asked(made.commit(&to)).expect("only removes");
    assert_eq!(bits(&made).0, bits(stock).0);
    // Damaged parts: refused, or a stock.
    match dice.below(5) {
        0 => cells.truncate(dice.below(cells.len())),
        1 => cells.push(Cell::default()),
        2 => {
            let k = dice.below(cells.len());
            cells[k].outer.lower_mm = dice.number();
        }
        _ => {}
    }
    for _ in 0..dice.below(3) {
        rings.push(dice.ring());
    }
    let answer = Stock::rebuild(*stock.spec(), 0, &cells, &rings);
    let _ = dice.asked(answer);
}

fn envelopes(dice: &mut Dice) {
    let n = [dice.size(), 1024, 1025][[0, 0, 0, 0, 0, 0, 1, 2][dice.below(8)]];
    let mut points: Vec<[f64; 2]> = (0..n).map(|_| [dice.shop(), dice.shop()]).collect();
    if dice.chance(3) {
        points.sort_by(|a, b| a[0].total_cmp(&b[0]));
    }
    if dice.chance(8) {
        let k = dice.below(points.len());
        if let Some(point) = points.get_mut(k) {
            point[0] = dice.number();
        }
    }
    let polygon: Vec<[f64; 2]> = (0..dice.size())
        .map(|_| [dice.mostly(200), dice.mostly(200)])
        .collect();
    let (lo, hi, tol) = (dice.number(), dice.number(), dice.mostly(9).abs() / 50.0);
    let made = Envelope::new(points);
    if let Ok(part) = dice.asked(made) {
        if let Ok(range) = dice.asked(part.within(lo, hi)) {
            assert!(range.end <= part.points().len());
        }
        let _ = dice.asked(part.radius_at(lo));
        let _ = dice.asked(part.radius_range(lo, hi));
        let _ = dice.asked(part.excess(&polygon, tol));
        let _ = dice.asked(part.penetration(&polygon, tol));
        let _ = dice.asked(part.eroded(hi, tol));
    }
    let profile = Profile::new(
        (0..[dice.below(6), 256, 257][[0, 0, 0, 0, 0, 1, 2][dice.below(7)]])
            .map(|_| {
                [
                    dice.mostly(80).abs(),
                    dice.mostly(80),
                    dice.below(2001) as f64 / 1000.0 - 1.0,
                ]
            })
            .collect(),
    );
    let tolerance = [1.0, 0.1, 0.01, dice.number()][dice.below(4)];
    let _ = dice.asked(profile.segments(tolerance));
    let (x, y) = (dice.number(), dice.number());
    let _ = dice.asked(root(x));
    let _ = dice.asked(length(x, y));
}

fn passes(dice: &mut Dice, stock: &Stock) {
    let n = stock.cells().len();
    let count = match dice.below(8) {
        0 => n + 1,
        1 => n.saturating_sub(1),
        _ => n,
    };
    let level = dice.shop().abs();
    let targets: Vec<Target> = (0..count)
        .map(|_| Target {
            lower_mm: if dice.chance(99) {
                dice.number()
            } else {
                level - 1.0
            },
            upper_mm: level + dice.below(3) as f64,
        })
        .collect();
    let rn = dice.mostly(5).abs() / 20.0;
    let proposed = propose_passes(stock, &targets, rn);
    let proposed = dice.asked(proposed).unwrap_or_default();
    let segments: Vec<Segment> = (0..dice.size()).map(|_| dice.segment()).collect();
    let points: Vec<[f64; 2]> = (0..dice.size())
        .map(|_| [dice.shop(), dice.shop()])
        .collect();
    let mut cuts = proposed;
    let more = [0, 1, 128, 129, 400][[0, 0, 0, 1, 1, 1, 2, 3, 4][dice.below(9)]];
    for _ in 0..more {
        cuts.push(cut(dice, &segments, &points));
    }
    let before = bits(stock);
    let answer = check_passes(stock, &targets, &cuts);
    match dice.asked(answer) {
        Ok(Verdict::Yes(after)) => {
            assert_eq!(after.generation(), stock.generation() + cuts.len() as u64);
            for (cell, target) in after.cells().iter().zip(&targets) {
                assert!(target.lower_mm <= cell.outer.lower_mm);
                assert!(cell.outer.upper_mm <= target.upper_mm);
            }
        }
        Ok(Verdict::CutFails { cut, reason }) => {
            assert!(cut < cuts.len() && [5, 12, 13].contains(&reason.number()))
        }
        Ok(Verdict::BinFails { bin }) => assert!(bin < n),
        Err(refusal) => assert_eq!(refusal, Refusal::Passes),
    }
    assert_eq!(bits(stock), before);
}

/// Its file reads back; a damaged one is refused, or is another stock. A job takes any bytes.
fn texts(dice: &mut Dice, stock: &Stock) {
    let mut file = Vec::new();
    stock.write_to(&mut file).expect("memory takes it");
    let read = Stock::read_from(&file[..], stock.spec().max_cells).expect("its own file");
    assert_eq!(bits(&read).0, bits(stock).0);
    assert_eq!(bits(&read).1, bits(stock).1);
    let mut again = Vec::new();
    read.write_to(&mut again).expect("memory takes it");
    assert_eq!(file, again);
    for _ in 0..3 {
        let mut bytes = file.clone();
        for _ in 0..1 + dice.below(3) {
            let at = dice.below(bytes.len());
            match dice.below(4) {
                0 => bytes.truncate(at),
                1 => {
                    bytes.insert(at, dice.next() as u8);
                }
                _ => {
                    if let Some(byte) = bytes.get_mut(at) {
                        *byte = b"0123456789ABCDEF\t\nx"[dice.below(19)];
                    }
                }
            }
        }
        let answer = match Stock::read_from(&bytes[..], dice.below(2) * CELL_LIMIT) {
            Ok(stock) => Ok(stock),
            Err(ReadError::Refused(refusal)) => Err(refusal),
            Err(ReadError::Io(e)) => panic!("{e}"),
        };
        let _ = dice.asked(answer);
    }
    let mut job = match dice.asked(Job::on(stock)) {
        Ok(job) if dice.chance(2) => job,
        _ => {
            let mut job = Job::with_edition(dice.next() as u32);
            if !dice.chance(6) {
                job.write(b"bar\t0\t40000\t30000\t0\t1000\n");
            }
            job
        }
    };
    for _ in 0..dice.below(12) {
        let (a, b) = (dice.below(40_000), dice.below(40_000));
        let line = match dice.below(7) {
            0 => format!("thread_cut\t{a}\t{b}\t9000\n"),
            1 => format!("drill\t{a}\t{b}\t1000\n"),
            2 => format!("ring\t{a}\t{}\t{b}\t{}\n", a + 900, b + 900),
            3 => format!("line\touter\t800\t0\t{a}\t0\t{b}\t40000\n"),
            4 if dice.chance(4) => "arc\t1\n".into(),
            5 if dice.chance(4) => "x".repeat(dice.below(300)),
            _ => "thread_cut_inner\t0\t9000\t4000\n".into(),
        };
        let at = dice.below(line.len());
        job.write(&line.as_bytes()[..at]);
        job.write(&line.as_bytes()[at..]);
        dice.calls.set(dice.calls.get() + 2);
    }
    let output = job.output();
    match dice.asked(job.finish()) {
        Ok(stock) => {
            let last = format!("gen\t{}\n", stock.generation());
            assert!(output.ends_with(last.as_bytes()));
        }
        Err(refusal) => {
            let place = refusal.place().expect("a job's refusal has a line");
            let said = format!("refused\t{place}\t{}\n", refusal.number());
            assert_eq!(output, said.as_bytes());
        }
    }
}

/// Runs rounds until so many calls are made.
fn run(seed: u64, calls: u64) -> (u64, [u64; 26]) {
    let mut dice = Dice::new(seed);
    while dice.calls.get() < calls {
        round(&mut dice);
    }
    (dice.calls.get(), dice.seen.map(|n| n.get()))
}

#[test]
fn no_call_panics_whatever_it_is_handed() {
    let half = calls() / 2;
    // Two threads, each with a stack of its own.
    let threads: Vec<_> = (1..=2)
        .map(|seed| {
            std::thread::Builder::new()
                .stack_size(8 << 20)
                .spawn(move || run(seed, half))
                .expect("a thread")
        })
        .collect();
    let (mut made, mut seen) = (0, [0; 26]);
    for thread in threads {
        let (calls, numbers) = thread.join().expect("no panic");
        made += calls;
        for (sum, n) in seen.iter_mut().zip(numbers) {
            *sum += n;
        }
    }
    let told: Vec<_> = seen.iter().enumerate().filter(|(_, n)| **n > 0).collect();
    println!("{made} calls, refused: {told:?}");
    // A long run meets every number but those that no call of the crate gives: 6, 20, and 12, since a stock starts at generation 0.
    if made >= 1_000_000 {
        for number in [
            1, 2, 3, 4, 5, 7, 8, 10, 11, 13, 14, 15, 16, 17, 18, 19, 21, 22, 23, 24, 25,
        ] {
            assert!(seen[number] > 0, "no call was refused with {number}");
        }
    }
}
