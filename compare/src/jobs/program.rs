//! 01's job rules a second time, over camlib's stock with 01's length.
use crate::call::{Answer, Call, Spec, Store};
use crate::oracle::{self, ARGUMENT, clean, stock};
use length::turning::stock::{TurnSide, TurnStock, TurnStockSpec};
use std::io::Write;

const MALFORMED: u32 = 15;
const ARC: u32 = 13;
const MOST_BYTES: usize = 128;
const MOST_CELLS: usize = 512;
const RING_NUMBERS: usize = 4 * 64;

/// What a job has made so far.
struct Job {
    spec: Spec,
    stock: TurnStock,
    store: Store,
    generation: u64,
}

/// Whole micrometres in millimetres: an optional minus and 1 to 10 digits.
fn length_mm(field: &[u8]) -> Result<f64, u32> {
    let digits = field.strip_prefix(b"-").unwrap_or(field);
    if digits.is_empty() || digits.len() > 10 || !digits.iter().all(u8::is_ascii_digit) {
        return Err(MALFORMED);
    }
    let size = digits.iter().fold(0_i64, |n, d| 10 * n + (d - b'0') as i64);
    if size > 1_000_000_000 {
        return Err(MALFORMED);
    }
    let whole = if digits.len() < field.len() {
        -size
    } else {
        size
    };
    Ok(whole as f64 / 1000.)
}

fn lengths<const N: usize>(fields: &[&[u8]]) -> Result<[f64; N], u32> {
    if fields.len() != N {
        return Err(MALFORMED);
    }
    let mut numbers = [0.; N];
    for (number, field) in numbers.iter_mut().zip(fields) {
        *number = length_mm(field)?;
    }
    Ok(numbers)
}

fn new_job(fields: &[&[u8]]) -> Result<Job, u32> {
    let [z_min, z_max, outer, bore, cell] = lengths(fields)?;
    let max_cells = MOST_CELLS;
    let spec = Spec {
        z_min,
        z_max,
        outer,
        bore,
        cell,
        max_cells,
    };
    stock::bar(&spec).map_err(|reason| reason.number)?;
    let stock = TurnStock::new(TurnStockSpec {
        version: 1,
        units: "mm".into(),
        z_min_mm: z_min,
        z_max_mm: z_max,
        outer_radius_mm: outer,
        bore_radius_mm: bore,
        cell_mm: cell,
        max_cells,
    });
    let store = Store {
        rings: vec![0.; RING_NUMBERS],
        count: 0,
    };
    Ok(Job {
        spec,
        stock: stock.unwrap(),
        store,
        generation: 0,
    })
}

fn domain(test: bool) -> Result<(), u32> {
    if test { Ok(()) } else { Err(ARGUMENT) }
}

impl Job {
    fn line(&mut self, fields: &[&[u8]]) -> Result<(), u32> {
        let side = match fields.first() {
            Some(&b"outer") => TurnSide::Outer,
            Some(&b"inner") => TurnSide::Inner,
            _ => return Err(MALFORMED),
        };
        let [rn, sag, a_r, a_z, b_r, b_z] = lengths(&fields[1..])?;
        domain(rn >= 0. && sag >= 0.)?;
        let segment = ([a_r, a_z], [b_r, b_z], sag);
        let changes = self.stock.preview_segments(&[segment], rn, side).unwrap();
        self.stock.apply(&changes).unwrap();
        self.generation += 1;
        Ok(())
    }

    fn thread(&mut self, fields: &[&[u8]], inner: bool) -> Result<(), u32> {
        let [z0, z1, radius] = lengths(fields)?;
        domain(radius >= 0.)?;
        let changes = match inner {
            false => self.stock.thread_cut(z0, z1, radius),
            true => self.stock.thread_cut_inner(z0, z1, radius),
        };
        self.stock.apply(&changes).unwrap();
        self.generation += 1;
        Ok(())
    }

    fn drill(&mut self, fields: &[&[u8]]) -> Result<(), u32> {
        let [tip, radius, cone] = lengths(fields)?;
        domain(radius > 0.)?;
        let changes = self.stock.drill(tip, radius, cone);
        self.stock.apply(&changes).unwrap();
        self.generation += 1;
        Ok(())
    }

    fn ring(&mut self, fields: &[&[u8]]) -> Result<(), u32> {
        let ring = lengths(fields)?;
        let Job {
            spec,
            ref store,
            generation,
            ..
        } = *self;
        let store = store.clone();
        let call = Call::RemoveRing {
            spec,
            store,
            generation,
            ring,
        };
        let outcome = oracle::answer(&call).map_err(|reason| reason.number);
        let Answer::Stock(_, _, rings, generation, _) = outcome? else {
            unreachable!()
        };
        self.generation = generation;
        self.store.count = rings.len();
        self.store.rings[..4 * rings.len()].copy_from_slice(rings.as_flattened());
        Ok(())
    }

    fn carry_out(&mut self, fields: &[&[u8]]) -> Result<(), u32> {
        let rest = &fields[1..];
        match fields[0] {
            b"line" => self.line(rest),
            b"thread_cut" => self.thread(rest, false),
            b"thread_cut_inner" => self.thread(rest, true),
            b"drill" => self.drill(rest),
            b"ring" => self.ring(rest),
            b"arc" => Err(ARC),
            _ => Err(MALFORMED),
        }
    }

    fn output(&self) -> Vec<u8> {
        let mut out = vec![];
        let hex = |out: &mut Vec<u8>, x: f64| write!(out, "\t{:016X}", clean(x).to_bits()).unwrap();
        for (i, cell) in self.stock.cells().iter().enumerate() {
            write!(out, "cell\t{i}").unwrap();
            for bounds in [cell.outer, cell.inner] {
                hex(&mut out, bounds.lower_mm);
                hex(&mut out, bounds.upper_mm);
            }
            out.push(b'\n');
        }
        for ring in self.store.rings.chunks(4).take(self.store.count) {
            out.extend(b"ring");
            ring.iter().for_each(|x| hex(&mut out, *x));
            out.push(b'\n');
        }
        writeln!(out, "gen\t{}", self.generation).unwrap();
        out
    }
}

/// A line with its newline: length, before `bar`, and then by its kind.
fn take(job: &mut Option<Job>, line: &[u8]) -> Result<(), u32> {
    let whole = line.strip_suffix(b"\n").ok_or(MALFORMED)?;
    if line.len() > MOST_BYTES {
        return Err(MALFORMED);
    }
    let fields: Vec<&[u8]> = whole.split(|b| *b == b'\t').collect();
    match (job, fields[0]) {
        (job @ None, b"bar") => *job = Some(new_job(&fields[1..])?),
        (None, _) => return Err(MALFORMED),
        (Some(job), _) => job.carry_out(&fields)?,
    }
    Ok(())
}

/// What a job's bytes give.
pub fn run(input: &[u8]) -> Vec<u8> {
    let refused = |line: usize, number: u32| format!("refused\t{line}\t{number}\n").into_bytes();
    let mut job = None;
    for (at, line) in input.split_inclusive(|b| *b == b'\n').enumerate() {
        if let Err(number) = take(&mut job, line) {
            return refused(at + 1, number);
        }
    }
    job.map_or_else(|| refused(1, MALFORMED), |job| job.output())
}
