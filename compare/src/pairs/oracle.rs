//! What differs between two stock files, from the words of Req 12 of 02, over camlib.
//!
//! The cells are camlib's `changes_to`. The rings are what its `remove_ring` appends: the other file's rings are stored first, in
//! their order, and the ring is then taken away from a copy. camlib bounds no pieces, so 11 is decided on the same made ring by
//! ring: of each piece in hand what one stored ring leaves. Both must come to the same pieces.
use crate::call::{Reason, Spec};
use crate::files::form::{Read, cell_line, ring_line};
use crate::oracle::stock::{Bar, camlib_spec, camlib_stock, from_camlib};
use crate::oracle::{MILLION, MOST_CELLS, MOST_PIECES, MOST_RINGS, PIECES};
use plain::turning::stock::TurnStock;

/// 24: the files' specs are unequal.
pub const SPECS: u32 = 24;

/// A ring is z0, z1, r0, r1.
pub type Ring = [f64; 4];

/// The stock of a file.
#[derive(Clone)]
pub struct Told {
    pub bar: Bar,
    pub cells: Vec<[f64; 4]>,
    pub rings: Vec<Ring>,
}

/// What a file tells; 16 at its line, 1, 2, 3, 4.
pub fn told(bytes: &[u8]) -> Result<Told, Reason> {
    let mut cells = vec![0; 4 * MOST_CELLS];
    let mut rings = vec![0; 4 * MOST_RINGS];
    let read = Read::bytes(bytes, &mut cells, &mut rings);
    let bar = read.end(MOST_CELLS, &cells, &rings)?;
    let fours = |words: &[u64], count: usize| -> Vec<[f64; 4]> {
        let (fours, _) = words.as_chunks::<4>();
        fours[..count]
            .iter()
            .map(|f| f.map(f64::from_bits))
            .collect()
    };
    Ok(Told {
        bar,
        cells: fours(&cells, bar.n),
        rings: fours(&rings, read.ring_lines),
    })
}

/// Why nothing is compared: the number of the file where it is one file's, and its reason.
#[derive(Clone, Copy, Debug, PartialEq)]
pub struct Refused {
    pub file: Option<usize>,
    pub reason: Reason,
}

impl Refused {
    /// The one line that is written then.
    pub fn line(&self) -> String {
        let numbers = [
            self.file,
            self.reason.place,
            Some(self.reason.number as usize),
        ];
        let numbers = numbers.into_iter().flatten();
        let fields: String = numbers.map(|n| format!("\t{n}")).collect();
        format!("refused{fields}\n")
    }
}

/// The five numbers of a spec.
fn five(spec: &Spec) -> [f64; 5] {
    [spec.z_min, spec.z_max, spec.outer, spec.bore, spec.cell]
}

/// camlib's stock of the bar's extent, in as few bins as it takes: a ring asks no cell.
fn extent(bar: &Bar) -> TurnStock {
    let length = bar.spec.z_max - bar.spec.z_min;
    let spec = Spec {
        cell: length.min(MILLION),
        max_cells: 2,
        ..bar.spec
    };
    TurnStock::new(camlib_spec(&spec)).unwrap()
}

/// camlib's stock of the bar's extent with the rings stored.
fn with_rings(bar: &Bar, rings: &[Ring]) -> TurnStock {
    let mut stock = extent(bar);
    for [z0, z1, r0, r1] in rings {
        stock.remove_ring([*z0, *z1], [*r0, *r1]);
    }
    assert_eq!(stock.rings(), rings, "camlib keeps a file's rings");
    stock
}

/// What a stock's rings leave of a ring.
fn appended(stock: &TurnStock, [z0, z1, r0, r1]: &Ring) -> Vec<Ring> {
    let mut copy = stock.clone();
    copy.remove_ring([*z0, *z1], [*r0, *r1]);
    copy.rings()[stock.rings().len()..].to_vec()
}

/// What the others leave of each of the rings, one behind the other; 11 where over 256 pieces are in hand after some of them.
fn left(bar: &Bar, rings: &[Ring], others: &[Ring]) -> Result<Vec<Ring>, Reason> {
    let steps: Vec<TurnStock> = others.iter().map(|r| with_rings(bar, &[*r])).collect();
    let whole = with_rings(bar, others);
    let mut all = vec![];
    for ring in rings {
        let mut pieces = vec![*ring];
        for step in &steps {
            pieces = pieces.iter().flat_map(|p| appended(step, p)).collect();
            if pieces.len() > MOST_PIECES {
                return Err(Reason::only(PIECES));
            }
        }
        assert_eq!(appended(&whole, ring), pieces, "step by step as at once");
        all.extend(pieces);
    }
    Ok(all)
}

/// The lines of two stocks; 24, 11.
fn lines(first: &Told, second: &Told) -> Result<Vec<String>, Reason> {
    if five(&first.bar.spec) != five(&second.bar.spec) {
        return Err(Reason::only(SPECS));
    }
    let [one, other] = [first, second].map(|t| camlib_stock(&t.bar, &t.cells, &t.rings));
    let mut lines = vec![];
    for change in one.changes_to(&other) {
        for cell in [change.before, change.after] {
            lines.push(cell_line(change.index, first.bar.n, &from_camlib(&cell)));
        }
    }
    let bar = &first.bar;
    let firsts = left(bar, &first.rings, &second.rings)?;
    let seconds = left(bar, &second.rings, &first.rings)?;
    lines.extend(firsts.iter().chain(&seconds).map(ring_line));
    Ok(lines)
}

/// What differs between two files, by what each tells.
pub fn differences(
    first: &Result<Told, Reason>,
    second: &Result<Told, Reason>,
) -> Result<String, Refused> {
    let of = |file: usize| {
        move |reason: &Reason| Refused {
            file: Some(file),
            reason: *reason,
        }
    };
    let first = first.as_ref().map_err(of(1))?;
    let second = second.as_ref().map_err(of(2))?;
    let both = |reason| Refused { file: None, reason };
    lines(first, second)
        .map_err(both)
        .map(|lines| lines.concat())
}

/// All that is written.
pub fn text(differences: &Result<String, Refused>) -> String {
    match differences {
        Ok(lines) => lines.clone(),
        Err(refused) => refused.line(),
    }
}
