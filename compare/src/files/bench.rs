//! Times of a stock file, read and written by the C calls and by a plain reader and writer in std Rust.
use super::form::written;
use super::run::{Reading, Writing};
use crate::call::{Spec, Store};
use std::fmt::Write;
use std::hint::black_box;
use std::os::raw::c_long;

const RUNS: usize = 41;

/// The edition of the stocks that are read and written.
pub const EDITION: u32 = 0xC0DE_0002;

/// So many goes a run, since the clock counts in millionths of a second.
const GOES: usize = 8;

/// Five or four numbers of a line's fields.
fn read_numbers<'a, const K: usize>(fields: impl Iterator<Item = &'a str>) -> Option<[f64; K]> {
    let mut numbers = [0.; K];
    let mut count = 0;
    for field in fields {
        let bits = u64::from_str_radix(field, 16).ok()?;
        *numbers.get_mut(count)? = f64::from_bits(bits);
        count += 1;
    }
    (count == K).then_some(numbers)
}

/// A file's bar, cells and rings, as a person would read them with std alone.
pub fn plain_read(text: &str) -> Option<([f64; 5], u32, Vec<f64>, Vec<f64>)> {
    let (mut bar, mut edition) = ([0.; 5], 0);
    let (mut cells, mut rings) = (vec![], vec![]);
    for (k, line) in text.lines().enumerate() {
        let mut fields = line.split('\t');
        match fields.next()? {
            "stock" => {
                edition = u32::from_str_radix(fields.next_back()?, 16).ok()?;
                bar = read_numbers(fields.skip(1))?;
            }
            "cell" => {
                let index: usize = fields.next()?.parse().ok()?;
                (4 * index == cells.len()).then_some(())?;
                cells.extend(read_numbers::<4>(fields)?);
            }
            "ring" => rings.extend(read_numbers::<4>(fields)?),
            "end" => (fields.next()?.parse() == Ok(k)).then_some(())?,
            _ => return None,
        }
    }
    Some((bar, edition, cells, rings))
}

/// A file's text.
pub fn plain_write(bar: &[f64; 5], cells: &[f64], rings: &[f64]) -> String {
    let form = written(cells.len() / 4);
    let digits = if form == 3 { 5 } else { 4 };
    let mut text = format!("stock\t{form}");
    let put = |text: &mut String, numbers: &[f64]| {
        for x in numbers {
            write!(text, "\t{:016X}", x.to_bits()).unwrap();
        }
        text.push('\n');
    };
    put(&mut text, bar);
    text.pop();
    writeln!(text, "\t{EDITION:08X}").unwrap();
    for (i, cell) in cells.chunks(4).enumerate() {
        write!(text, "cell\t{i:0digits$}").unwrap();
        put(&mut text, cell);
    }
    for ring in rings.chunks(4) {
        text.push_str("ring");
        put(&mut text, ring);
    }
    writeln!(text, "end\t{}", 1 + cells.len() / 4 + rings.len() / 4).unwrap();
    text
}

/// A stock of so many cells and rings.
pub fn stock(cells: usize, rings: usize) -> (Spec, Vec<f64>, Store) {
    let spec = Spec {
        z_min: 0.,
        z_max: cells as f64,
        outer: 10.,
        bore: 0.,
        cell: 1.,
        max_cells: cells,
    };
    let cell = |i: usize| [i as f64 / 1000. % 9., 10., 0., i as f64 / 3000. % 9.];
    // rings side by side within the bar
    let long = (cells as f64 / rings.max(1) as f64).min(1.);
    let ring = |i: usize| {
        let z = i as f64 * long;
        [z, z + long, 2. / 3., 1. + 1. / (i as f64 + 3.)]
    };
    let list = |n: usize, of: &dyn Fn(usize) -> [f64; 4]| (0..n).flat_map(of).collect::<Vec<f64>>();
    let store = Store {
        rings: list(rings, &ring),
        count: rings,
    };
    (spec, list(cells, &cell), store)
}

/// A file read by the calls, in parts of so many bytes.
pub fn read(bytes: &[u8], size: usize, reading: &mut Reading, most: usize) -> u32 {
    reading.state = [0; 8];
    for part in bytes.chunks(size) {
        reading.take(part);
    }
    reading.end(most).0
}

/// A file written by the calls; how many bytes it has.
pub fn write(writing: &Writing, text: &mut Vec<u8>) -> usize {
    text.clear();
    let count = writing.count().1.expect("the stock is accepted");
    for k in 0..count {
        let mut line = [0; 128];
        let len = writing.put_line(k, &mut line).1.expect("a line");
        text.extend_from_slice(&line[..len]);
    }
    text.len()
}

unsafe extern "C" {
    /// The processor time of this process, in millionths of a second.
    fn clock() -> c_long;
}

/// The least processor time of a go in ns, over runs of so many goes; the sides take turns.
fn times(sides: &mut [(&str, &mut dyn FnMut())]) -> Vec<f64> {
    let mut least = vec![f64::INFINITY; sides.len()];
    for _ in 0..RUNS {
        for (k, (_, go)) in sides.iter_mut().enumerate() {
            // SAFETY: it takes nothing.
            let start = unsafe { clock() };
            (0..GOES).for_each(|_| go());
            let spent = (unsafe { clock() } - start) as f64 * 1000. / GOES as f64;
            least[k] = least[k].min(spent);
        }
    }
    least
}

/// Prints how fast a file is read and written.
pub fn bench() {
    println!("## Stock files\n");
    println!("Processor time, the least of {RUNS} runs that take turns.\n");
    println!("| file | side | MB/s | ms |\n|---|---|---|---|");
    for (n, m) in [(512, 64), (4096, 256), (16384, 256)] {
        let (spec, cells, store) = stock(n, m);
        let bar = [spec.z_min, spec.z_max, spec.outer, spec.bore, spec.cell];
        let text = plain_write(&bar, &cells, &store.rings);
        let bytes = text.as_bytes();
        let mut reading = Reading::fresh(cells.len(), store.rings.len());
        let mut other = reading.clone();
        assert_eq!(read(bytes, bytes.len(), &mut reading, n), 0);
        let writing = Writing {
            spec,
            edition: EDITION,
            cells: &cells,
            store: &store,
        };
        let mut written = vec![];
        write(&writing, &mut written);
        assert!(written == bytes, "both write the same file");
        let mut sides: [(&str, &mut dyn FnMut()); 5] = [
            ("read, plain Rust", &mut || {
                drop(black_box(plain_read(&text)))
            }),
            ("read, the calls, whole", &mut || {
                _ = black_box(read(bytes, bytes.len(), &mut reading, n))
            }),
            ("read, the calls, parts of 4,096", &mut || {
                _ = black_box(read(bytes, 4096, &mut other, n))
            }),
            ("written, plain Rust", &mut || {
                drop(black_box(plain_write(&bar, &cells, &store.rings)))
            }),
            ("written, the calls", &mut || {
                _ = write(&writing, &mut written)
            }),
        ];
        let times = times(&mut sides);
        for ((side, _), ns) in sides.iter().zip(times) {
            let speed = bytes.len() as f64 / ns * 1000.;
            let name = format!("{n} cells, {m} rings, {} bytes", bytes.len());
            println!("| {name} | {side} | {speed:.0} | {:.3} |", ns / 1e6);
        }
    }
    println!();
}
