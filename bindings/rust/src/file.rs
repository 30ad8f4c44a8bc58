//! Stock files.
use crate::{c, Cell, Refusal, Ring, Spec, Stamp, Stock, CELL_LIMIT, RING_LIMIT};
use std::error::Error;
use std::fmt;
use std::io::{self, ErrorKind, Read, Write};

/// Why no stock was read.
#[derive(Debug)]
pub enum ReadError {
    /// The bytes could not be read.
    Io(io::Error),
    /// They tell no stock: 16 with a line, 1, 2, 3 or 4.
    Refused(Refusal),
}

impl fmt::Display for ReadError {
    fn fmt(&self, f: &mut fmt::Formatter<'_>) -> fmt::Result {
        match self {
            ReadError::Io(e) => write!(f, "the stock file cannot be read: {e}"),
            ReadError::Refused(r) => write!(f, "the stock file is {r}"),
        }
    }
}

impl Error for ReadError {
    fn source(&self) -> Option<&(dyn Error + 'static)> {
        match self {
            ReadError::Io(e) => Some(e),
            ReadError::Refused(r) => Some(r),
        }
    }
}

impl From<Refusal> for ReadError {
    fn from(refusal: Refusal) -> ReadError {
        ReadError::Refused(refusal)
    }
}

impl From<io::Error> for ReadError {
    fn from(e: io::Error) -> ReadError {
        ReadError::Io(e)
    }
}

/// So many bytes are read or written at a time.
const PART: usize = 1 << 16;

impl Stock {
    /// Writes its stock file: bar, edition, cells and rings, bit for bit. The generation is not in a file.
    ///
    /// ```
    /// # use turning::{Spec, Stock};
    /// let stock = Stock::with_edition(Spec::new(0.0, 9.0, 10.0, 0.0, 3.0), 3)?;
    /// let mut bytes = Vec::new();
    /// stock.write_to(&mut bytes)?;
    /// assert!(bytes.starts_with(b"stock\t2\t0000000000000000\t4022000000000000"));
    /// assert!(bytes.ends_with(b"end\t4\n"));
    /// # Ok::<(), Box<dyn std::error::Error>>(())
    /// ```
    pub fn write_to(&self, mut out: impl Write) -> io::Result<()> {
        let refused = |r: Refusal| io::Error::new(ErrorKind::InvalidData, r);
        let mut text = Vec::with_capacity(PART + 128);
        for k in 0..self.lines().map_err(refused)? {
            self.line(k, &mut text).map_err(refused)?;
            if text.len() >= PART {
                out.write_all(&text)?;
                text.clear();
            }
        }
        out.write_all(&text)?;
        out.flush()
    }

    /// Reads a stock file to its end. `max_cells` is the owner's limit on the bins; the stock is at generation 0.
    ///
    /// ```
    /// use turning::{ReadError, Refusal, Spec, Stock};
    /// let stock = Stock::with_edition(Spec::new(0.0, 9.0, 10.0, 0.0, 3.0), 3)?;
    /// let mut bytes = Vec::new();
    /// stock.write_to(&mut bytes)?;
    /// assert_eq!(Stock::read_from(&bytes[..], stock.spec().max_cells)?, stock);
    /// bytes.pop();
    /// let cut_off = Stock::read_from(&bytes[..], 100).unwrap_err();
    /// assert!(matches!(cut_off, ReadError::Refused(Refusal::StockLine { line: 5 })));
    /// # Ok::<(), Box<dyn std::error::Error>>(())
    /// ```
    pub fn read_from(mut file: impl Read, max_cells: usize) -> Result<Stock, ReadError> {
        let mut state = [0u64; 8];
        let mut bar = [0.0f64; 5];
        let mut line = [0u8; 128];
        // Room for every stock that is accepted: more cells are refused with 2, more rings with 4.
        let mut cells = vec![0.0f64; 4 * CELL_LIMIT];
        let mut rings = vec![0.0f64; 4 * RING_LIMIT];
        let mut part = vec![0u8; PART];
        loop {
            let got = match file.read(&mut part) {
                Ok(0) => break,
                Ok(got) => got.min(part.len()),
                Err(e) if e.kind() == ErrorKind::Interrupted => continue,
                Err(e) => return Err(ReadError::Io(e)),
            };
            // SAFETY: the lengths are those of the lent memory, and `got` is at most that of the part.
            let number = unsafe {
                c::turning_read_part(
                    &mut state,
                    &mut bar,
                    cells.as_mut_ptr(),
                    cells.len(),
                    rings.as_mut_ptr(),
                    rings.len(),
                    &mut line,
                    part.as_ptr(),
                    got,
                )
            };
            if number != 0 {
                break;
            }
        }
        let (mut n, mut count, mut edition, mut at) = (0, 0, 0, 0);
        // SAFETY: the lengths are those of the lent memory.
        let number = unsafe {
            c::turning_read_end(
                &state,
                &bar,
                max_cells,
                cells.as_ptr(),
                cells.len(),
                rings.as_ptr(),
                rings.len(),
                &mut n,
                &mut count,
                &mut edition,
                &mut at,
            )
        };
        if number != 0 {
            return Err(Refusal::at(number, at).into());
        }
        let [z_min_mm, z_max_mm, outer_radius_mm, bore_radius_mm, cell_mm] = bar;
        let spec = Spec {
            z_min_mm,
            z_max_mm,
            outer_radius_mm,
            bore_radius_mm,
            cell_mm,
            max_cells,
        };
        let stamp = Stamp {
            edition,
            generation: 0,
        };
        Ok(Stock::checked(
            spec,
            stamp,
            &fours::<Cell>(&cells, n),
            &fours::<Ring>(&rings, count),
        )?)
    }
}

/// The first n fours of a flat list, as many as there are.
pub(crate) fn fours<T: From<[f64; 4]>>(list: &[f64], n: usize) -> Vec<T> {
    list.chunks_exact(4)
        .take(n)
        .map(|c| T::from([c[0], c[1], c[2], c[3]]))
        .collect()
}
