//! Stock files read and written by the C calls, in memory that is full of patterns.
use super::form::{NAN, Read, in_form_1, lines};
use super::generate::{Stock, bend, file, stock};
use crate::call::{Reason, Spec, Store};
use crate::count::Counts;
use crate::generate::Rng;
use crate::jobs::parts::cut;
use crate::library::c::{
    turning_read_end, turning_read_part, turning_stock_line, turning_stock_lines,
};
use crate::oracle::stock::{bar, camlib_stock, cells, from_camlib};
use crate::oracle::{CELLS, MANY_CELLS, MOST_CELLS, MOST_RINGS, STORED, rings::stored};
use crate::run::{SHOWN, Source};
use crate::stack::used_by;

const PATTERN: u64 = 0x7FF4_5A5A_A5A5_3C3C;

/// Words before and behind each lent list.
const GUARD: usize = 3;

/// A lent list of numbers between words that no call may touch.
#[derive(Clone, PartialEq)]
pub struct Room(Vec<u64>);

impl Room {
    pub fn new(len: usize) -> Self {
        Self(vec![PATTERN; len + 2 * GUARD])
    }
    pub fn of(numbers: &[f64]) -> Self {
        let mut room = Self::new(numbers.len());
        for (to, x) in room.list_mut().iter_mut().zip(numbers) {
            *to = x.to_bits();
        }
        room
    }
    pub fn list(&self) -> &[u64] {
        &self.0[GUARD..self.0.len() - GUARD]
    }
    pub fn list_mut(&mut self) -> &mut [u64] {
        let end = self.0.len() - GUARD;
        &mut self.0[GUARD..end]
    }
    /// The same words; where a NaN is wanted that was read, any.
    fn is(&self, wanted: &Self) -> bool {
        let nan = |w: u64| w != PATTERN && f64::from_bits(w).is_nan();
        let same = |(a, b): (&u64, &u64)| a == b || *b == NAN && nan(*a);
        self.0.len() == wanted.0.len() && self.0.iter().zip(&wanted.0).all(same)
    }
}

/// All that is lent to a reading.
#[derive(Clone)]
pub struct Reading {
    pub state: [u64; 8],
    pub bar: [u64; 5],
    pub cells: Room,
    pub rings: Room,
    pub line: [u8; 128],
}

impl Reading {
    /// Before the first byte: the state is all 0, and everything else holds a pattern.
    pub fn fresh(cells: usize, rings: usize) -> Self {
        Self {
            state: [0; 8],
            bar: [PATTERN; 5],
            cells: Room::new(cells),
            rings: Room::new(rings),
            line: [0xA5; 128],
        }
    }

    /// Hands over a part.
    pub fn take(&mut self, part: &[u8]) -> u32 {
        let [cells_len, rings_len] = [&self.cells, &self.rings].map(|r| r.list().len());
        // SAFETY: each array is as long as turning.h says, and none overlaps another.
        unsafe {
            turning_read_part(
                &mut self.state,
                self.bar.as_mut_ptr().cast(),
                self.cells.list_mut().as_mut_ptr().cast(),
                cells_len,
                self.rings.list_mut().as_mut_ptr().cast(),
                rings_len,
                &mut self.line,
                part.as_ptr(),
                part.len(),
            )
        }
    }

    /// What the end tells: the number, and n, the rings, the edition and the line, each where it was
    /// written. Of the edition's word the upper half stays.
    pub fn end(&self, most: usize) -> (u32, [Option<usize>; 4]) {
        let mut told = [PATTERN as usize; 4];
        let [n, rings_count, edition, line] = &mut told;
        // SAFETY: as above.
        let code = unsafe {
            turning_read_end(
                &self.state,
                self.bar.as_ptr().cast(),
                most,
                self.cells.list().as_ptr().cast(),
                self.cells.list().len(),
                self.rings.list().as_ptr().cast(),
                self.rings.list().len(),
                n,
                rings_count,
                (edition as *mut usize).cast(),
                line,
            )
        };
        let mut said = told.map(|t| (t != PATTERN as usize).then_some(t));
        if code == 0 {
            // it may be the pattern's own half
            assert_eq!(told[2] >> 32, PATTERN as usize >> 32);
            said[2] = Some(told[2] & u32::MAX as usize);
        }
        (code, said)
    }

    /// Where the words lent are other than those of the file read by its form.
    fn unlike(&self, read: &Read, cells: &Room, rings: &Room) -> Option<&'static str> {
        let stage = match read.first {
            None => 0,
            Some(_) => 1 + read.ended as u64,
        };
        let [form, edition] = (read.first).map_or([0; 2], |f| [f.form, f.edition as u64]);
        let refused = if read.refused.is_some() { 16 } else { 0 };
        let nan = |bits: u64| f64::from_bits(bits).is_nan();
        let bar = read.first.map_or(self.bar, |f| f.bar);
        let other_bar = (0..5).any(|k| self.bar[k] != bar[k] && !(nan(self.bar[k]) && nan(bar[k])));
        let line = read.lines + read.refused.is_some() as usize;
        let wanted = [
            stage,
            read.cell_lines as u64,
            read.ring_lines.min(257) as u64,
            line as u64,
        ];
        match () {
            _ if self.state[..4] != wanted => Some("state"),
            _ if self.state[4] != read.held as u64 && refused == 0 => Some("held"),
            _ if self.state[5] != refused => Some("refused"),
            _ if self.state[6] != form => Some("form"),
            _ if self.state[7] != edition => Some("edition"),
            _ if other_bar => Some("bar"),
            _ if !self.cells.is(cells) => Some("cells"),
            _ if !self.rings.is(rings) => Some("rings"),
            _ => None,
        }
    }
}

/// A file read in parts; where it is otherwise than by its form, how.
fn read_unlike(
    bytes: &[u8],
    parts: &[&[u8]],
    lent: [usize; 2],
    most: usize,
) -> (u32, Option<String>) {
    let mut reading = Reading::fresh(lent[0], lent[1]);
    let mut wanted = reading.clone();
    let read = Read::bytes(bytes, wanted.cells.list_mut(), wanted.rings.list_mut());
    let end = read.end(most, wanted.cells.list(), wanted.rings.list());
    let mut code = 0;
    for part in parts {
        code = reading.take(part);
    }
    let part_code = if read.refused.is_some() { 16 } else { 0 };
    if code != part_code && !parts.is_empty() {
        return (
            code,
            Some(format!("read_part answers {code}, wanted {part_code}")),
        );
    }
    let held = &bytes[bytes.len() - read.held..];
    if read.refused.is_none() && reading.line[..read.held] != *held {
        return (code, Some("the unfinished line".into()));
    }
    if let Some(what) = reading.unlike(&read, &wanted.cells, &wanted.rings) {
        return (
            code,
            Some(format!("{what}: {:?}, wanted {read:?}", reading.state)),
        );
    }
    let before = reading.clone();
    let (code, told) = reading.end(most);
    let wanted = match &end {
        Ok(bar) => {
            let edition = read.first.map(|f| f.edition as usize);
            (0, [Some(bar.n), Some(read.ring_lines), edition, None])
        }
        Err(Reason { number, place }) => (*number, [None, None, None, *place]),
    };
    let number = wanted.0;
    if (code, told) != wanted {
        return (
            number,
            Some(format!(
                "read_end answers {code} {told:?}, wanted {wanted:?}"
            )),
        );
    }
    let stays = reading.state == before.state
        && reading.cells == before.cells
        && reading.rings == before.rings;
    if !stays {
        return (number, Some("read_end writes".into()));
    }
    if let Ok(bar) = end {
        let [cells, rings] = [&reading.cells, &reading.rings].map(floats);
        kept(
            &bar.spec,
            &read,
            &cells[..4 * bar.n],
            &rings[..4 * read.ring_lines],
            bytes,
        );
    }
    (number, None)
}

fn floats(room: &Room) -> Vec<f64> {
    room.list().iter().map(|w| f64::from_bits(*w)).collect()
}

/// An accepted stock goes through camlib's `from_parts`, which keeps its cells and its rings; its file is the one that was read, or
/// has the same first line in the form before.
fn kept(spec: &Spec, read: &Read, cells: &[f64], rings: &[f64], bytes: &[u8]) {
    let bar = bar(spec).expect("an accepted file has an accepted bar");
    let [cells, rings] = [cells, rings].map(|list| list.as_chunks::<4>().0);
    let stock = camlib_stock(&bar, cells, rings);
    let kept: Vec<[f64; 4]> = stock.cells().iter().map(from_camlib).collect();
    assert_eq!(kept, cells, "camlib keeps the cells of a file");
    let first = read.first.expect("an accepted file has a first line");
    let mut file = lines(spec, first.edition, cells, rings);
    if first.form == 1 {
        file[0] = in_form_1(&file[0]);
    }
    assert_eq!(file.concat().as_bytes(), bytes, "one file for each stock");
}

/// A stock's lines by the calls.
pub struct Writing<'a> {
    pub spec: Spec,
    pub edition: u32,
    pub cells: &'a [f64],
    pub store: &'a Store,
}

impl Writing<'_> {
    /// The number, and how many lines, where that was written.
    pub fn count(&self) -> (u32, Option<usize>) {
        let mut lines = PATTERN as usize;
        let Spec {
            z_min,
            z_max,
            outer,
            bore,
            cell,
            max_cells,
        } = self.spec;
        // SAFETY: each list is as long as it is said to be.
        let code = unsafe {
            turning_stock_lines(
                z_min,
                z_max,
                outer,
                bore,
                cell,
                max_cells,
                self.cells.as_ptr(),
                self.cells.len(),
                self.store.rings.as_ptr(),
                self.store.rings.len(),
                self.store.count,
                &mut lines,
            )
        };
        (code, (lines != PATTERN as usize).then_some(lines))
    }

    /// Line k at the front of the bytes lent; the number, and the length where that was written.
    pub fn put_line(&self, k: usize, line: &mut [u8; 128]) -> (u32, Option<usize>) {
        let mut len = PATTERN as usize;
        let Spec {
            z_min,
            z_max,
            outer,
            bore,
            cell,
            max_cells,
        } = self.spec;
        // SAFETY: as above.
        let code = unsafe {
            turning_stock_line(
                z_min,
                z_max,
                outer,
                bore,
                cell,
                max_cells,
                self.edition,
                self.cells.as_ptr(),
                self.cells.len(),
                self.store.rings.as_ptr(),
                self.store.rings.len(),
                self.store.count,
                k,
                line,
                &mut len,
            )
        };
        (code, (len != PATTERN as usize).then_some(len))
    }

    /// The number and line k; bytes behind it stay, and a refusal writes nothing.
    fn line(&self, k: usize) -> (u32, Vec<u8>) {
        let mut lent = [[0x5A_u8; 128]; 2];
        let (code, len) = self.put_line(k, &mut lent[0]);
        assert_eq!(len.is_some(), code == 0);
        let len = len.unwrap_or(0);
        assert!(lent.as_flattened()[len..].iter().all(|b| *b == 0x5A));
        (code, lent[0][..len].to_vec())
    }

    /// What both calls should say: 1, 2, 3, 4; of a line 3 for the length and 4 for the count alone.
    fn wanted(&self) -> [Result<(), Reason>; 2] {
        let asked = |whole: bool| {
            let bar = bar(&self.spec)?;
            let room = (self.store.rings.len() / 4).min(MOST_RINGS);
            if whole {
                cells(&bar, self.cells)?;
                stored(&bar, self.store)?;
            }
            let length = self.cells.len() == 4 * bar.n;
            length.then_some(()).ok_or(Reason::only(CELLS))?;
            (self.store.count <= room)
                .then_some(())
                .ok_or(Reason::only(STORED))
        };
        [asked(true), asked(false)]
    }

    /// Where the calls do otherwise.
    fn unlike(&self) -> (u32, Option<String>) {
        let number = |r: &Result<(), Reason>| r.as_ref().err().map_or(0, |r| r.number);
        let wanted = self.wanted();
        let [whole, cheap] = [number(&wanted[0]), number(&wanted[1])];
        let (cells, _) = self.cells.as_chunks::<4>();
        let (rings, _) = self.store.rings.as_chunks::<4>();
        let file = match cheap {
            0 => lines(&self.spec, self.edition, cells, &rings[..self.store.count]),
            _ => vec![],
        };
        let count = (whole == 0).then_some(file.len());
        if self.count() != (whole, count) {
            return (
                whole,
                Some(format!(
                    "stock_lines answers {:?}, wanted {whole} {count:?}",
                    self.count()
                )),
            );
        }
        for k in 0..file.len() + 2 {
            let wanted = file.get(k).map_or(&b""[..], |l| l.as_bytes());
            let (code, line) = self.line(k);
            if code != cheap || !same_line(&line, wanted) {
                let line = String::from_utf8_lossy(&line).into_owned();
                return (
                    whole,
                    Some(format!(
                        "stock_line {k} answers {code} {line:?}, wanted {cheap}"
                    )),
                );
            }
        }
        (whole, None)
    }
}

/// The same bytes; every NaN is spelled as one.
fn same_line(line: &[u8], wanted: &[u8]) -> bool {
    let text = String::from_utf8_lossy(wanted).replace("FFF8000000000000", "7FF8000000000000");
    line == text.as_bytes()
}

/// Files from a seed.
pub struct Files {
    rng: Rng,
    stock: Stock,
    made: u64,
    seed: u64,
}

/// So many files are made of one stock.
const OF_ONE: u64 = 24;

impl Files {
    pub fn new(seed: u64) -> Self {
        let mut rng = Rng::new(seed);
        let stock = stock(&mut rng);
        Self {
            rng,
            stock,
            made: 0,
            seed,
        }
    }

    fn say(&self, counts: &Counts, what: &str, of: &str) {
        if counts.differ() < SHOWN {
            println!("file {} of seed {}: {of}\n{what}", self.made, self.seed);
        }
    }
}

impl Source for Files {
    fn next(&mut self, counts: &mut Counts) {
        if self.made % OF_ONE == 0 {
            self.stock = stock(&mut self.rng);
        }
        let mut stock = self.stock.clone();
        if self.rng.once_in(3) {
            bend(&mut self.rng, &mut stock);
        }
        let bytes = file(&mut self.rng, &stock);
        let parts = cut(&mut self.rng, &bytes);
        let room = |rng: &mut Rng, n: usize| match rng.below(8) {
            0 => (4 * n).saturating_sub(rng.below(5)),
            1 => 4 * rng.below(n + 1),
            2 => 4 * n + rng.below(9),
            _ => 4 * n,
        };
        let lent = [
            room(&mut self.rng, stock.cells.len()),
            room(&mut self.rng, stock.rings.len()),
        ];
        let n = stock.cells.len();
        let most = match self.rng.below(6) {
            0 => n - n.min(1),
            1 => self.rng.pick(&[MANY_CELLS, MOST_CELLS]),
            2 => n,
            _ => stock.spec.max_cells,
        };
        let (number, unlike) = read_unlike(&bytes, &parts, lent, most);
        if let Some(what) = &unlike {
            let sizes: Vec<usize> = parts.iter().map(|p| p.len()).collect();
            let text = String::from_utf8_lossy(&bytes).into_owned();
            self.say(
                counts,
                what,
                &format!("{text:?} in parts {sizes:?}, room {lent:?}, max_cells {most}"),
            );
        }
        counts.add("read_part, read_end", number, unlike.is_none());
        if self.rng.once_in(4) {
            let count = stock.rings.len();
            let rings = stock.rings.as_flattened().to_vec();
            let store = Store {
                rings,
                count: count + self.rng.once_in(16) as usize,
            };
            let flat = stock.cells.as_flattened();
            let cells = &flat[..flat.len() - self.rng.once_in(16) as usize * flat.len().min(1)];
            let writing = Writing {
                spec: stock.spec,
                edition: stock.edition,
                cells,
                store: &store,
            };
            let (number, unlike) = writing.unlike();
            if let Some(what) = &unlike {
                self.say(counts, what, &format!("{stock:?}"));
            }
            counts.add("stock_lines, stock_line", number, unlike.is_none());
        }
        self.made += 1;
    }
}

/// The stack that each call needs, over so many files.
pub fn stack(count: usize, seed: u64) -> Vec<(&'static str, usize)> {
    let mut rng = Rng::new(seed);
    let mut needs = vec![];
    for _ in 0..count {
        let stock = stock(&mut rng);
        let bytes = file(&mut rng, &stock);
        let [n, m] = [&stock.cells, &stock.rings].map(Vec::len);
        let mut reading = Reading::fresh(4 * n, 4 * m);
        needs.push(("read_part", used_by(|| _ = reading.take(&bytes))));
        needs.push(("read_end", used_by(|| _ = reading.end(n))));
        let store = Store {
            rings: stock.rings.as_flattened().to_vec(),
            count: m,
        };
        let writing = Writing {
            spec: stock.spec,
            edition: stock.edition,
            cells: stock.cells.as_flattened(),
            store: &store,
        };
        let mut line = [0; 128];
        needs.push(("stock_lines", used_by(|| _ = writing.count())));
        for k in 0..n + m + 2 {
            let bytes = used_by(|| _ = writing.put_line(k, &mut line));
            needs.push(("stock_line", bytes));
        }
    }
    needs
}
