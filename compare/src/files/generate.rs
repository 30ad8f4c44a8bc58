//! Stock files: of stocks that sequences leave, as they stand and damaged.
use super::form;
use crate::call::Spec;
use crate::generate::Rng;
use crate::generate::rings::side_by_side;
use crate::generate::sequence::sequence;
use crate::generate::stock::{damaged_spec, good_cells, long_bar};
use crate::oracle::stock::bar;
use crate::sequence::left_by;

/// A stock, as its parts.
#[derive(Clone, Debug)]
pub struct Stock {
    pub spec: Spec,
    pub edition: u32,
    pub cells: Vec<[f64; 4]>,
    pub rings: Vec<[f64; 4]>,
}

/// Stocks of more cells than this are taken now and then only.
const FEW: usize = 40;

/// A stock on a bar of many cells or of the most, in either form.
fn long_stock(rng: &mut Rng) -> Stock {
    let base = long_bar(rng);
    let rings = rng.pick(&[0, 1, 3, 256]);
    Stock {
        spec: base.spec,
        edition: rng.word() as u32,
        cells: good_cells(rng, &base),
        rings: side_by_side(&base, rings),
    }
}

/// What a sequence of calls leaves; now and then a long stock.
pub fn stock(rng: &mut Rng) -> Stock {
    if rng.once_in(200) {
        return long_stock(rng);
    }
    loop {
        let sequence = sequence(rng);
        if sequence.cells.len() > 4 * FEW && !rng.once_in(50) {
            continue;
        }
        let (spec, stamp, cells, store) = left_by(&sequence);
        return Stock {
            spec,
            edition: stamp.edition,
            cells: cells.as_chunks::<4>().0.to_vec(),
            rings: store.rings.as_chunks::<4>().0[..store.count].to_vec(),
        };
    }
}

/// Numbers that a cell or a ring cannot hold, or that are at an edge.
fn odd(rng: &mut Rng) -> f64 {
    rng.pick(&[
        f64::NAN,
        f64::INFINITY,
        -f64::INFINITY,
        -0.,
        0.,
        -1.,
        1e6,
        1e7,
        f64::MIN_POSITIVE,
        f64::from_bits(1),
        f64::MAX,
    ])
}

/// Another stock than the sequence left, which 1, 2, 3 or 4 may refuse.
pub fn bend(rng: &mut Rng, stock: &mut Stock) {
    let base = bar(&stock.spec).expect("a sequence's bar is accepted");
    let [cell, ring] = [&stock.cells, &stock.rings].map(|list| rng.below(list.len().max(1)));
    match rng.below(10) {
        0 => stock.spec = damaged_spec(rng, &base),
        1 => stock.cells[cell][rng.below(4)] = odd(rng),
        2 => stock.cells[cell].swap(0, 1),
        3 => drop(stock.cells.pop()),
        4 => stock.cells.push(stock.cells[cell]),
        5 => stock.rings = side_by_side(&base, rng.pick(&[1, 2, 63, 64, 255, 256, 257, 258])),
        _ if stock.rings.is_empty() => stock.rings = side_by_side(&base, 1 + rng.below(4)),
        6 => stock.rings[ring][rng.below(4)] = odd(rng),
        7 => stock.rings[ring].swap(0, 1),
        8 => stock.rings.push(stock.rings[ring]),
        _ => stock.rings.reverse(),
    }
}

/// Digits that a field may have instead of its own.
const DIGITS: [&str; 12] = [
    "8000000000000000",
    "7FF8000000000000",
    "7FF0000000000001",
    "FFF8000000000000",
    "7FF0000000000000",
    "FFF0000000000000",
    "400000000000000",
    "40000000000000000",
    "400000000000000a",
    "",
    "+000000000000000",
    "0000000000000000",
];

const BYTES: &[u8] = b"\t\t\n\n\r 019AFGaf:@/-\0\x7F\x80\xFF";

/// Another first line: its form and its edition do not belong together, or are none.
fn bend_first(rng: &mut Rng, first: &mut String) {
    let mut fields: Vec<String> = first.trim_end().split('\t').map(String::from).collect();
    let form = rng.pick(&[
        "0", "1", "1", "2", "3", "", "01", "02", "12", "1 ", " 2", "2.0", "x",
    ]);
    let last = fields.pop().unwrap_or_default();
    match rng.below(8) {
        // without an edition, or with the form changed and the edition kept
        0 => {}
        1 => {
            fields[1] = form.into();
            fields.push(last);
        }
        2 => fields[1] = form.into(),
        3 => fields.push(last[1..].into()),
        4 => fields.push(format!("{}{last}", rng.pick(&["0", "F", " ", "+"]))),
        5 => {
            let digit = rng.pick(&["a", "f", "G", "g", "/", ":", "@", "`", " ", "+", "-"]);
            let at = rng.below(8);
            let mut edition = last;
            edition.replace_range(at..at + 1, digit);
            fields.push(edition);
        }
        6 => fields.extend([last.clone(), rng.pick(&["", "00000000", "2"]).into()]),
        _ => {
            let at = 1 + rng.below(6);
            fields.insert(at, last);
        }
    }
    *first = fields.join("\t") + "\n";
}

/// Damages a line: its fields, or where it stands.
fn bend_lines(rng: &mut Rng, lines: &mut Vec<String>) {
    let at = rng.below(lines.len());
    match rng.below(8) {
        0 => drop(lines.remove(at)),
        1 => lines.insert(at, lines[at].clone()),
        2 => {
            let other = rng.below(lines.len());
            lines.swap(at, other);
        }
        3 => lines.insert(at, "\n".into()),
        4 => lines[at] = lines[at].replace('\n', "\r\n"),
        5 => {
            let more = rng.pick(&[32, 33, 34, 35, 50, 54, 55, 56, 300]);
            lines[at].insert_str(4, &"0".repeat(more));
        }
        6 => {
            let count = rng.pick(&[0, 1, lines.len() - 2, lines.len() - 1, lines.len()]);
            let zero = rng.pick(&["", "0"]);
            *lines.last_mut().unwrap() = format!("end\t{zero}{count}\n");
        }
        _ => {
            let mut fields: Vec<&str> = lines[at].trim_end().split('\t').collect();
            let field = rng.below(fields.len());
            fields[field] = rng.pick(&DIGITS);
            lines[at] = fields.join("\t") + "\n";
        }
    }
}

/// Damages bytes, wherever they stand.
fn bend_bytes(rng: &mut Rng, bytes: &mut Vec<u8>) {
    let at = rng.below(bytes.len());
    match rng.below(7) {
        0 => bytes[at] = rng.pick(BYTES),
        1 => bytes[at] ^= 1 << rng.below(8),
        2 => drop(bytes.remove(at)),
        3 => bytes.insert(at, rng.pick(BYTES)),
        4 => bytes.truncate(at),
        5 => drop(bytes.pop()),
        _ => {
            let behind = rng.pick(&[&b"\n"[..], b" ", b"end\t1\n", b"x"]);
            bytes.extend_from_slice(behind);
        }
    }
}

/// A file of a stock, as it stands or damaged.
pub fn file(rng: &mut Rng, stock: &Stock) -> Vec<u8> {
    let mut lines = form::lines(&stock.spec, stock.edition, &stock.cells, &stock.rings);
    match rng.below(16) {
        0..3 => lines[0] = form::in_form_1(&lines[0]),
        3 => bend_first(rng, &mut lines[0]),
        _ => {}
    }
    if rng.once_in(4) {
        bend_lines(rng, &mut lines);
    }
    let mut bytes = lines.concat().into_bytes();
    if rng.once_in(3) && !bytes.is_empty() {
        bend_bytes(rng, &mut bytes);
    }
    bytes
}
