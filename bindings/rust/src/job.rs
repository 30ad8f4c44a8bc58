//! Jobs: lines of text that make a bar and cut it.
use crate::file::fours;
use crate::{c, Cell, Refusal, Ring, Spec, Stamp, Stock};
use std::io;

/// The most cells and rings of a job.
const CELLS: usize = 512;
const RINGS: usize = 64;

/// The words of a job's state.
const MAX_CELLS: usize = 0;
const CELL_COUNT: usize = 1;
const RING_COUNT: usize = 2;
const GENERATION: usize = 3;
const EDITION: usize = 7;

/// A job whose bytes come in parts, cut anywhere (`docs/JOB.md`).
///
/// [`Job::write`] takes bytes, [`Job::finish`] tells the stock that the job leaves, or its refusal, and [`Job::output`] what the job
/// program writes. Writing never fails: the first refused line ends the job, and `finish` tells it.
///
/// ```
/// use turning::{Job, Refusal};
/// let mut job = Job::new();
/// job.write(b"bar\t0\t12000\t30000\t0\t1000\ndrill\t-50");
/// job.write(b"00\t5000\t3000\n");
/// let stock = job.finish()?;
/// assert_eq!((stock.cells().len(), stock.generation()), (12, 1));
///
/// job.write(b"arc\n");
/// assert_eq!(job.finish(), Err(Refusal::Job { line: 3, number: 13 }));
/// assert_eq!(job.output(), b"refused\t3\t13\n");
/// # Ok::<(), Refusal>(())
/// ```
#[derive(Clone)]
pub struct Job {
    state: [u64; 8],
    bar: [f64; 5],
    cells: Box<[f64; 4 * CELLS]>,
    rings: Box<[f64; 4 * RINGS]>,
    line: [u8; 128],
}

impl Default for Job {
    fn default() -> Job {
        Job::new()
    }
}

impl std::fmt::Debug for Job {
    fn fmt(&self, f: &mut std::fmt::Formatter<'_>) -> std::fmt::Result {
        f.debug_struct("Job")
            .field("state", &self.state)
            .field("bar", &self.bar)
            .finish_non_exhaustive()
    }
}

impl Job {
    /// A job before its first byte, whose stock is of edition 0.
    pub fn new() -> Job {
        Job::with_edition(0)
    }

    /// The same of an edition.
    ///
    /// ```
    /// let mut job = turning::Job::with_edition(3);
    /// job.write(b"bar\t0\t12000\t30000\t0\t1000\n");
    /// assert_eq!(job.finish()?.edition(), 3);
    /// # Ok::<(), turning::Refusal>(())
    /// ```
    pub fn with_edition(edition: u32) -> Job {
        let mut state = [0; 8];
        state[EDITION] = u64::from(edition);
        Job {
            state,
            bar: [0.0; 5],
            cells: Box::new([0.0; 4 * CELLS]),
            rings: Box::new([0.0; 4 * RINGS]),
            line: [0; 128],
        }
    }

    /// A job that goes on with a stock, at generation 0. It has no `bar`. Refusals: 2 over 512 cells, 4 over 64 rings.
    ///
    /// ```
    /// use turning::{Job, Spec, Stock};
    /// let stock = Stock::new(Spec::new(0.0, 12.0, 30.0, 0.0, 1.0))?;
    /// let mut job = Job::on(&stock)?;
    /// job.write(b"drill\t-5000\t5000\t3000\n");
    /// assert_eq!(job.finish()?.cells()[11].inner.lower_mm, 5.0);
    /// # Ok::<(), turning::Refusal>(())
    /// ```
    pub fn on(stock: &Stock) -> Result<Job, Refusal> {
        let (cells, rings, spec) = (stock.cells(), stock.rings(), stock.spec());
        if cells.len() > CELLS {
            return Err(Refusal::CellCount);
        }
        if rings.len() > RINGS {
            return Err(Refusal::StoredRings);
        }
        let mut job = Job::with_edition(stock.edition());
        job.state[MAX_CELLS] = CELLS as u64;
        job.state[CELL_COUNT] = cells.len() as u64;
        job.state[RING_COUNT] = rings.len() as u64;
        job.bar = [
            spec.z_min_mm,
            spec.z_max_mm,
            spec.outer_radius_mm,
            spec.bore_radius_mm,
            spec.cell_mm,
        ];
        for (room, cell) in job.cells.chunks_exact_mut(4).zip(cells) {
            room.copy_from_slice(&<[f64; 4]>::from(*cell));
        }
        for (room, ring) in job.rings.chunks_exact_mut(4).zip(rings) {
            room.copy_from_slice(&<[f64; 4]>::from(*ring));
        }
        Ok(job)
    }

    /// Takes some bytes more. Each whole line is carried out, to the first that is refused.
    pub fn write(&mut self, bytes: &[u8]) {
        // SAFETY: the memory has the fixed lengths of the call, and the length is that of the bytes.
        unsafe {
            c::turning_job_take(
                &mut self.state,
                &mut self.bar,
                &mut *self.cells,
                &mut *self.rings,
                &mut self.line,
                bytes.as_ptr(),
                bytes.len(),
            );
        }
    }

    /// The stock that the job leaves if its input ended here, or the first line that was refused. More may be written afterwards.
    pub fn finish(&self) -> Result<Stock, Refusal> {
        let mut line = 0;
        // SAFETY: the memory has the fixed lengths of the call.
        let number = unsafe { c::turning_job_finish(&self.state, &mut line) };
        if number != 0 {
            return Err(Refusal::Job { line, number });
        }
        let count = |word: usize| usize::try_from(self.state[word]).unwrap_or(usize::MAX);
        let [z_min_mm, z_max_mm, outer_radius_mm, bore_radius_mm, cell_mm] = self.bar;
        let spec = Spec {
            z_min_mm,
            z_max_mm,
            outer_radius_mm,
            bore_radius_mm,
            cell_mm,
            max_cells: count(MAX_CELLS),
        };
        let stamp = Stamp {
            edition: self.state[EDITION] as u32,
            generation: self.state[GENERATION],
        };
        Stock::checked(
            spec,
            stamp,
            &fours::<Cell>(&*self.cells, count(CELL_COUNT)),
            &fours::<Ring>(&*self.rings, count(RING_COUNT)),
        )
    }

    /// What the job program would write if the input ended here: cells, rings and generation, or the one refusal.
    ///
    /// ```
    /// let mut job = turning::Job::new();
    /// job.write(b"bar\t0\t1000\t10000\t0\t1000\n");
    /// assert_eq!(job.output(), b"cell\t0\t4024000000000000\t4024000000000000\t0000000000000000\t0000000000000000\ngen\t0\n");
    /// # Ok::<(), turning::Refusal>(())
    /// ```
    pub fn output(&self) -> Vec<u8> {
        let mut text = Vec::new();
        // More lines than a job's answer has: each cell, each ring, the generation.
        for k in 0..CELLS + RINGS + 2 {
            let (mut line, mut len) = ([0; 128], 0);
            // SAFETY: the memory has the fixed lengths of the call.
            unsafe {
                c::turning_job_output(
                    &self.state,
                    &*self.cells,
                    &*self.rings,
                    k,
                    &mut line,
                    &mut len,
                );
            }
            if len == 0 {
                break;
            }
            text.extend_from_slice(line.get(..len).unwrap_or(&line));
        }
        text
    }
}

/// A job is written to as a file is: `std::io::copy(&mut file, &mut job)`.
impl io::Write for Job {
    fn write(&mut self, bytes: &[u8]) -> io::Result<usize> {
        Job::write(self, bytes);
        Ok(bytes.len())
    }

    fn flush(&mut self) -> io::Result<()> {
        Ok(())
    }
}
