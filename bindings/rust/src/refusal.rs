//! Why a call was refused.
use std::error::Error;
use std::fmt;

/// Why a call was refused: one of the numbers of `docs/RULES.md`, with the place that it is told with.
///
/// A refused call has changed nothing.
///
/// ```
/// use turning::{Refusal, Spec, Stock};
/// let short = Spec::new(0.0, 0.0, 10.0, 0.0, 1.0);
/// let refusal = Stock::new(short).unwrap_err();
/// assert_eq!(refusal, Refusal::Spec);
/// assert_eq!((refusal.number(), refusal.place()), (1, None));
/// assert_eq!(refusal.to_string(), "refused with 1: a number of the spec is outside the rules");
/// ```
#[derive(Clone, Copy, Debug, PartialEq, Eq, Hash)]
#[non_exhaustive]
pub enum Refusal {
    /// 1: a number of the spec is outside the rules.
    Spec,
    /// 2: there is no bin, or there are more than `max_cells` or than the library takes.
    CellCount,
    /// 3: the cells are not one for each bin, or one does not fit.
    Cells,
    /// 4: the stored rings: too many, one does not fit, or two overlap.
    StoredRings,
    /// 5: an argument of a cut, a root or a length is outside its domain.
    Argument,
    /// 6: more changes than room. The crate lends room for all, so no call of it answers this.
    ChangeRoom,
    /// 7: the indices of the changes do not strictly rise, first at this change.
    Order {
        /// The later of the first two changes that do not rise.
        change: usize,
    },
    /// 8: the cell after this change does not fit.
    After {
        /// The change.
        change: usize,
    },
    /// 10: this ring is not finite, or, in a list, is empty.
    Ring {
        /// The ring, 0 where one alone was given.
        ring: usize,
    },
    /// 11: over 256 pieces while a ring is cut, or over 256 stored rings.
    RingRoom,
    /// 12: the generation would pass 2^64 - 1.
    Generation,
    /// 13: an arc.
    Arc,
    /// 14: points, a query, an insert or a tolerance of an envelope is outside the domain.
    Envelope,
    /// 15: a line of a job is malformed. A job tells it as [`Refusal::Job`].
    JobLine,
    /// 16: this line of a stock file is not of the form, or is missing.
    StockLine {
        /// The line, from 1.
        line: usize,
    },
    /// 17: points of a profile or a tolerance outside the domain, or over 256 points.
    Profile,
    /// 18: ten halvings of an arc do not reach the tolerance.
    Chords,
    /// 19: the list is of another edition or of another generation than the stock.
    Stale,
    /// 20: the kept numbers are not those of the cells. The crate keeps them, so no call of it answers this.
    Blocks,
    /// 21: there is no bin of that index.
    NoBin {
        /// The change, where the index stands in a list.
        change: Option<usize>,
    },
    /// 22: the bin does not hold the cell before this change.
    Before {
        /// The change.
        change: usize,
    },
    /// 23: this change adds material.
    Adds {
        /// The change.
        change: usize,
    },
    /// 24: the two stocks are not of one bar.
    Bars,
    /// 25: passes: over 128 cuts, an inside cut, or targets outside the domain.
    Passes,
    /// A line of a job was refused, with this number.
    Job {
        /// The line, from 1.
        line: u64,
        /// The number of its refusal.
        number: u32,
    },
    /// A number that this crate does not know.
    Other {
        /// The number.
        number: u32,
    },
}

impl Refusal {
    /// The refusal of a number that has no place, or whose place is not told.
    pub(crate) fn of(number: u32) -> Refusal {
        Refusal::at(number, 0)
    }

    /// The refusal of a number with the place that its call wrote.
    pub(crate) fn at(number: u32, place: usize) -> Refusal {
        match number {
            1 => Refusal::Spec,
            2 => Refusal::CellCount,
            3 => Refusal::Cells,
            4 => Refusal::StoredRings,
            5 => Refusal::Argument,
            6 => Refusal::ChangeRoom,
            7 => Refusal::Order { change: place },
            8 => Refusal::After { change: place },
            10 => Refusal::Ring { ring: place },
            11 => Refusal::RingRoom,
            12 => Refusal::Generation,
            13 => Refusal::Arc,
            14 => Refusal::Envelope,
            15 => Refusal::JobLine,
            16 => Refusal::StockLine { line: place },
            17 => Refusal::Profile,
            18 => Refusal::Chords,
            19 => Refusal::Stale,
            20 => Refusal::Blocks,
            21 => Refusal::NoBin {
                change: Some(place),
            },
            22 => Refusal::Before { change: place },
            23 => Refusal::Adds { change: place },
            24 => Refusal::Bars,
            25 => Refusal::Passes,
            number => Refusal::Other { number },
        }
    }

    /// The number of `docs/RULES.md`.
    ///
    /// ```
    /// assert_eq!(turning::Refusal::Stale.number(), 19);
    /// ```
    pub fn number(&self) -> u32 {
        match self {
            Refusal::Spec => 1,
            Refusal::CellCount => 2,
            Refusal::Cells => 3,
            Refusal::StoredRings => 4,
            Refusal::Argument => 5,
            Refusal::ChangeRoom => 6,
            Refusal::Order { .. } => 7,
            Refusal::After { .. } => 8,
            Refusal::Ring { .. } => 10,
            Refusal::RingRoom => 11,
            Refusal::Generation => 12,
            Refusal::Arc => 13,
            Refusal::Envelope => 14,
            Refusal::JobLine => 15,
            Refusal::StockLine { .. } => 16,
            Refusal::Profile => 17,
            Refusal::Chords => 18,
            Refusal::Stale => 19,
            Refusal::Blocks => 20,
            Refusal::NoBin { .. } => 21,
            Refusal::Before { .. } => 22,
            Refusal::Adds { .. } => 23,
            Refusal::Bars => 24,
            Refusal::Passes => 25,
            Refusal::Job { number, .. } | Refusal::Other { number } => *number,
        }
    }

    /// Which of a list it was: the change or the ring, from 0, or the line of a file or a job, from 1.
    ///
    /// ```
    /// assert_eq!(turning::Refusal::Adds { change: 2 }.place(), Some(2));
    /// assert_eq!(turning::Refusal::Stale.place(), None);
    /// ```
    pub fn place(&self) -> Option<usize> {
        match self {
            Refusal::Order { change }
            | Refusal::After { change }
            | Refusal::Before { change }
            | Refusal::Adds { change } => Some(*change),
            Refusal::NoBin { change } => *change,
            Refusal::Ring { ring } => Some(*ring),
            Refusal::StockLine { line } => Some(*line),
            Refusal::Job { line, .. } => Some(usize::try_from(*line).unwrap_or(usize::MAX)),
            _ => None,
        }
    }

    /// What the number says, without its place.
    fn words(number: u32) -> &'static str {
        match number {
            1 => "a number of the spec is outside the rules",
            2 => "there is no bin, or there are more than max_cells or than the library takes",
            3 => "the cells are not one for each bin, or one does not fit",
            4 => "the stored rings are more than the room, or one does not fit, or two overlap",
            5 => "an argument of a cut, a root or a length is outside its domain, or there are over 4,096 segments or 64 points",
            6 => "there are more changes than room",
            7 => "the indices of the changes do not strictly rise",
            8 => "the cell after the change does not fit",
            10 => "the ring is not finite, or is empty in a list",
            11 => "over 256 pieces are in hand while a ring is cut, or there is no room for the rings",
            12 => "the generation would pass 2^64 - 1",
            13 => "an arc is no cut",
            14 => "the points, the query, the insert or the tolerance of an envelope are outside the domain",
            15 => "the line of the job is malformed, unfinished or missing",
            16 => "the line of the stock file is not of its form, or is missing",
            17 => "the points or the tolerance of a profile are outside the domain, or there are over 256 points",
            18 => "ten halvings of an arc do not reach the tolerance, or there are more chords than room",
            19 => "the list is of another edition or of another generation than the stock",
            20 => "the kept numbers are not those of the cells",
            21 => "there is no bin of that index",
            22 => "the bin does not hold the cell before the change",
            23 => "the change adds material",
            24 => "the two stocks are not of one bar",
            25 => "there are over 128 cuts, an inside cut is among them, or the targets are outside the domain",
            _ => "the library gave a number that this crate does not know",
        }
    }
}

impl fmt::Display for Refusal {
    fn fmt(&self, f: &mut fmt::Formatter<'_>) -> fmt::Result {
        write!(f, "refused with {}", self.number())?;
        match self {
            Refusal::Job { line, .. } => write!(f, " at line {line} of the job")?,
            Refusal::StockLine { line } => write!(f, " at line {line}")?,
            Refusal::Ring { ring } => write!(f, " at ring {ring}")?,
            _ => {
                if let Some(change) = self.place() {
                    write!(f, " at change {change}")?;
                }
            }
        }
        write!(f, ": {}", Refusal::words(self.number()))
    }
}

impl Error for Refusal {}
