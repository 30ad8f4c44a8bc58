//! A stock file read and written, from the words of Req 06, 08 and 14 of 02: lines parted by newlines, fields by tabs. The forms that
//! are written have an edition, and the number of cells says which it is; the one before them is read as of edition 0.
use crate::call::{Reason, Spec, Store};
use crate::oracle::stock::{Bar, bar, cells as cells_of};
use crate::oracle::{CELLS, MOST_RINGS, rings::stored};

/// 16: a line that is not of the form, or is missing.
pub const MALFORMED: u32 = 16;

/// A stock of so many cells at most has indices of four digits.
const FEW_CELLS: usize = 4096;

/// What a form fixes: the digits of an index, and how many cell lines there are at least and at most.
struct Form {
    digits: usize,
    least: usize,
    most: usize,
}

impl Form {
    fn of(number: u64) -> Self {
        match number {
            3 => Self {
                digits: 5,
                least: FEW_CELLS + 1,
                most: 100_000,
            },
            _ => Self {
                digits: 4,
                least: 0,
                most: FEW_CELLS,
            },
        }
    }

    fn index(&self, i: usize) -> String {
        format!("{i:0width$}", width = self.digits)
    }
}

/// The form that a stock of so many cells is written in.
pub fn written(cells: usize) -> u64 {
    if cells <= FEW_CELLS { 2 } else { 3 }
}

/// What every pattern of a NaN counts as: which one the room holds is left open.
pub const NAN: u64 = 0x7FF8_0000_0000_0000;

/// What the first line says.
#[derive(Clone, Copy, Debug, PartialEq)]
pub struct First {
    /// 1, 2 or 3.
    pub form: u64,
    /// The five numbers, by their bits.
    pub bar: [u64; 5],
    pub edition: u32,
}

/// A file as far as it was read.
#[derive(Clone, Debug, Default, PartialEq)]
pub struct Read {
    pub first: Option<First>,
    pub cell_lines: usize,
    pub ring_lines: usize,
    pub lines: usize,
    pub ended: bool,
    /// The number, from 1, of the line that is refused.
    pub refused: Option<usize>,
    /// Bytes behind the last newline.
    pub held: usize,
}

/// So many digits in capitals.
fn digits(field: &str, count: usize) -> Option<u64> {
    let capitals = field.chars().all(|c| matches!(c, '0'..='9' | 'A'..='F'));
    let read = (field.len() == count && capitals).then(|| u64::from_str_radix(field, 16));
    read?.ok()
}

/// A number's bits; not -0.0.
fn number(field: &str) -> Option<u64> {
    let bits = digits(field, 16)?;
    match f64::from_bits(bits) {
        x if x.is_nan() => Some(NAN),
        _ => (bits != 1 << 63).then_some(bits),
    }
}

/// The first line: form 1 has seven fields and is of edition 0, forms 2 and 3 have eight.
fn first(fields: &[&str]) -> Option<First> {
    let (form, edition) = match fields {
        ["stock", "1", _, _, _, _, _] => (1, 0),
        ["stock", "2", _, _, _, _, _, edition] => (2, digits(edition, 8)? as u32),
        ["stock", "3", _, _, _, _, _, edition] => (3, digits(edition, 8)? as u32),
        _ => return None,
    };
    let bar = numbers(&fields[2..7])?;
    Some(First { form, bar, edition })
}

fn numbers<const K: usize>(fields: &[&str]) -> Option<[u64; K]> {
    let read: Option<Vec<u64>> = fields.iter().map(|f| number(f)).collect();
    read?.try_into().ok()
}

/// Four numbers at a place of the room, where it reaches there.
fn write(room: &mut [u64], place: usize, four: [u64; 4]) {
    if let Some(to) = room.get_mut(4 * place..4 * place + 4) {
        to.copy_from_slice(&four);
    }
}

impl Read {
    /// One line more; none where it is not of the form.
    fn line(&mut self, line: &str, cells: &mut [u64], rings: &mut [u64]) -> Option<()> {
        let fields: Vec<&str> = line.split('\t').collect();
        let form = Form::of(self.first.map_or(1, |first| first.form));
        match (self.first, fields[0]) {
            _ if self.ended => return None,
            (None, _) => self.first = Some(first(&fields)?),
            (Some(_), "cell") if self.ring_lines == 0 && self.cell_lines < form.most => {
                (*fields.get(1)? == form.index(self.cell_lines)).then_some(())?;
                write(cells, self.cell_lines, numbers(&fields[2..])?);
                self.cell_lines += 1;
            }
            (Some(_), _) if self.cell_lines < form.least => return None,
            (Some(_), "ring") => {
                let ring = numbers(&fields[1..])?;
                if self.ring_lines < MOST_RINGS {
                    write(rings, self.ring_lines, ring);
                }
                self.ring_lines += 1;
            }
            (Some(_), "end") if fields[1..] == [self.lines.to_string()] => self.ended = true,
            _ => return None,
        }
        self.lines += 1;
        Some(())
    }

    /// The whole bytes, without what their end says.
    pub fn bytes(bytes: &[u8], cells: &mut [u64], rings: &mut [u64]) -> Self {
        let mut read = Self::default();
        let mut pieces: Vec<&[u8]> = bytes.split(|b| *b == b'\n').collect();
        let rest = pieces.pop().unwrap_or_default();
        for piece in pieces {
            // no line of the form is as long as that, and none has a byte above 127
            let line = std::str::from_utf8(piece).ok().filter(|l| l.len() < 128);
            if line.and_then(|l| read.line(l, cells, rings)).is_none() {
                read.refused = Some(read.lines + 1);
                return read;
            }
        }
        // a line that is too long is refused at its 128th byte
        if rest.len() > 127 {
            read.refused = Some(read.lines + 1);
            return read;
        }
        read.held = rest.len();
        read
    }

    /// The bar at the end of the bytes, where the stock is accepted: 16 with its line, 1, 2, 3, 4.
    pub fn end(&self, most: usize, cells: &[u64], rings: &[u64]) -> Result<Bar, Reason> {
        if let Some(line) = self.refused {
            return Err(Reason::at(MALFORMED, line));
        }
        if self.held > 0 || !self.ended {
            return Err(Reason::at(MALFORMED, self.lines + 1));
        }
        let floats =
            |words: &[u64]| -> Vec<f64> { words.iter().map(|w| f64::from_bits(*w)).collect() };
        let first = self.first.expect("a file that ended has a first line");
        let [z_min, z_max, outer, bore, cell] = first.bar.map(f64::from_bits);
        let spec = Spec {
            z_min,
            z_max,
            outer,
            bore,
            cell,
            max_cells: most,
        };
        let bar = bar(&spec)?;
        let lent = cells.get(..4 * self.cell_lines);
        cells_of(&bar, &floats(lent.ok_or(Reason::only(CELLS))?))?;
        let store = Store {
            rings: floats(rings),
            count: self.ring_lines,
        };
        stored(&bar, &store)?;
        Ok(bar)
    }
}

fn fields(numbers: &[f64]) -> String {
    numbers
        .iter()
        .map(|x| format!("\t{:016X}", x.to_bits()))
        .collect()
}

/// The line of bin i's cell, in the file of a stock of so many.
pub fn cell_line(i: usize, cells: usize, cell: &[f64; 4]) -> String {
    let index = Form::of(written(cells)).index(i);
    format!("cell\t{index}{}\n", fields(cell))
}

/// A ring's line.
pub fn ring_line(ring: &[f64; 4]) -> String {
    format!("ring{}\n", fields(ring))
}

/// The lines of a stock's file, each with its newline.
pub fn lines(spec: &Spec, edition: u32, cells: &[[f64; 4]], rings: &[[f64; 4]]) -> Vec<String> {
    let bar = [spec.z_min, spec.z_max, spec.outer, spec.bore, spec.cell].map(|x| x + 0.);
    let form = written(cells.len());
    let mut lines = vec![format!("stock\t{form}{}\t{edition:08X}\n", fields(&bar))];
    let line = |(i, c): (usize, &[f64; 4])| cell_line(i, cells.len(), c);
    lines.extend(cells.iter().enumerate().map(line));
    lines.extend(rings.iter().map(ring_line));
    lines.push(format!("end\t{}\n", lines.len()));
    lines
}

/// The same stock's first line in the form before, which has no edition.
pub fn in_form_1(first: &str) -> String {
    let fields: Vec<&str> = first.trim_end().split('\t').collect();
    format!("stock\t1\t{}\n", fields[2..7].join("\t"))
}
