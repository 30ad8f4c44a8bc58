//! A stock file read and written, beside a plain reader and writer in std Rust. One call is the whole file.
use crate::bench::time::{Sides, side};
use crate::call::{Spec, Store};
use crate::files::bench::{EDITION, plain_read, plain_write, read, stock, write};
use crate::files::run::{Reading, Writing};

const RINGS: usize = 256;

fn text(spec: &Spec, cells: &[f64], store: &Store) -> String {
    let bar = [spec.z_min, spec.z_max, spec.outer, spec.bore, spec.cell];
    plain_write(&bar, cells, &store.rings)
}

pub fn read_file(n: usize) -> Sides<'static> {
    let (spec, cells, store) = stock(n, RINGS);
    let text = text(&spec, &cells, &store);
    let bytes = text.clone().into_bytes();
    let mut reading = Reading::fresh(cells.len(), store.rings.len());
    assert_eq!(read(&bytes, bytes.len(), &mut reading, n), 0);
    [
        side(1, move || plain_read(&text)),
        None,
        side(1, move || read(&bytes, bytes.len(), &mut reading, n)),
    ]
}

pub fn read_end(n: usize) -> Sides<'static> {
    let (spec, cells, store) = stock(n, RINGS);
    let mut reading = Reading::fresh(cells.len(), store.rings.len());
    reading.take(text(&spec, &cells, &store).as_bytes());
    [None, None, side(1, move || reading.end(n))]
}

pub fn stock_lines(n: usize) -> Sides<'static> {
    let (spec, cells, store) = stock(n, RINGS);
    let count = move || {
        let writing = Writing {
            spec,
            edition: EDITION,
            cells: &cells,
            store: &store,
        };
        writing.count()
    };
    [None, None, side(1, count)]
}

pub fn stock_line(n: usize) -> Sides<'static> {
    let (spec, cells, store) = stock(n, RINGS);
    let (other_cells, other_store) = (cells.clone(), store.clone());
    let mut written = vec![];
    let ours = move || {
        let writing = Writing {
            spec,
            edition: EDITION,
            cells: &cells,
            store: &store,
        };
        write(&writing, &mut written)
    };
    [
        side(1, move || text(&spec, &other_cells, &other_store)),
        None,
        side(1, ours),
    ]
}
