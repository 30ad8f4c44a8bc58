//! What a stock is made of: spec, cells, rings, sides, segments, cuts.
use crate::c;
use crate::Refusal;

/// The bar that a stock is cut from, in millimetres. The names are camlib's.
///
/// ```
/// use turning::Spec;
/// let spec = Spec { z_min_mm: 0.0, z_max_mm: 12.0, outer_radius_mm: 30.0, bore_radius_mm: 0.0, cell_mm: 1.0, max_cells: 100 };
/// assert_eq!(spec.validate(), Ok(12));
/// ```
#[derive(Clone, Copy, Debug, PartialEq)]
pub struct Spec {
    /// Where the bar begins along z.
    pub z_min_mm: f64,
    /// Where it ends.
    pub z_max_mm: f64,
    /// Its outer radius.
    pub outer_radius_mm: f64,
    /// The radius of its bore; 0 for a solid bar.
    pub bore_radius_mm: f64,
    /// The length of a bin.
    pub cell_mm: f64,
    /// The most bins that the owner wants. The library has a limit of its own, [`CELL_LIMIT`].
    pub max_cells: usize,
}

/// The most bins that a stock has.
pub const CELL_LIMIT: usize = 16_384;

/// The most rings that a stock stores.
pub const RING_LIMIT: usize = 256;

/// Hands on the six numbers of a spec before the other arguments.
macro_rules! with_spec {
    ($name:ident, $spec:expr, $($argument:expr),* $(,)?) => {
        c::$name(
            $spec.z_min_mm,
            $spec.z_max_mm,
            $spec.outer_radius_mm,
            $spec.bore_radius_mm,
            $spec.cell_mm,
            $spec.max_cells,
            $($argument),*
        )
    };
}
pub(crate) use with_spec;

impl Spec {
    /// A spec with as many bins as the library takes.
    ///
    /// ```
    /// let spec = turning::Spec::new(0.0, 12.0, 30.0, 0.0, 1.0);
    /// assert_eq!(spec.max_cells, turning::CELL_LIMIT);
    /// ```
    pub fn new(z_min: f64, z_max: f64, outer: f64, bore: f64, cell: f64) -> Spec {
        Spec {
            z_min_mm: z_min,
            z_max_mm: z_max,
            outer_radius_mm: outer,
            bore_radius_mm: bore,
            cell_mm: cell,
            max_cells: CELL_LIMIT,
        }
    }

    /// How many bins the bar has. Refusals: 1, 2.
    ///
    /// ```
    /// use turning::{Refusal, Spec};
    /// assert_eq!(Spec::new(0.1, 0.4, 10.0, 0.0, 0.1).validate(), Ok(4));
    /// assert_eq!(Spec::new(0.0, 1.0, 10.0, 0.0, 1e-6).validate(), Err(Refusal::CellCount));
    /// ```
    pub fn validate(&self) -> Result<usize, Refusal> {
        let mut n = 0;
        // SAFETY: one number is written, and it is lent.
        told(unsafe { with_spec!(turning_validate, self, &mut n) })?;
        Ok(n)
    }

    /// Where bin i starts and ends. Refusals: 1, 2, 21.
    ///
    /// ```
    /// use turning::{Refusal, Spec};
    /// let spec = Spec::new(0.0, 2.5, 10.0, 0.0, 1.0);
    /// assert_eq!(spec.bin(2), Ok([2.0, 2.5]));
    /// assert_eq!(spec.bin(3), Err(Refusal::NoBin { change: None }));
    /// ```
    pub fn bin(&self, i: usize) -> Result<[f64; 2], Refusal> {
        let (mut za, mut zb) = (0.0, 0.0);
        // SAFETY: two numbers are written, and they are lent.
        match unsafe { with_spec!(turning_bin, self, i, &mut za, &mut zb) } {
            0 => Ok([za, zb]),
            21 => Err(Refusal::NoBin { change: None }),
            number => Err(Refusal::of(number)),
        }
    }

    /// Whether the five lengths of two bars are equal; `max_cells` is the owner's and no part of the bar.
    pub(crate) fn same_bar(&self, other: &Spec) -> bool {
        self.z_min_mm == other.z_min_mm
            && self.z_max_mm == other.z_max_mm
            && self.outer_radius_mm == other.outer_radius_mm
            && self.bore_radius_mm == other.bore_radius_mm
            && self.cell_mm == other.cell_mm
    }
}

/// Bounds on a radius.
#[derive(Clone, Copy, Debug, Default, PartialEq)]
#[repr(C)]
pub struct RadiusBounds {
    /// It is at least this.
    pub lower_mm: f64,
    /// It is at most this.
    pub upper_mm: f64,
}

/// What is known of one bin: bounds on its outer radius and on the radius of its bore.
///
/// Metal lies for certain from `inner.upper_mm` to `outer.lower_mm`, and may lie from `inner.lower_mm` to `outer.upper_mm`.
///
/// ```
/// let cell = turning::Cell::from([15.0, 28.0, 8.0, 8.0]);
/// assert_eq!((cell.outer.lower_mm, cell.outer.upper_mm), (15.0, 28.0));
/// assert_eq!(<[f64; 4]>::from(cell), [15.0, 28.0, 8.0, 8.0]);
/// ```
#[derive(Clone, Copy, Debug, Default, PartialEq)]
#[repr(C)]
pub struct Cell {
    /// The outer surface.
    pub outer: RadiusBounds,
    /// The bore.
    pub inner: RadiusBounds,
}

impl From<[f64; 4]> for Cell {
    fn from([a, b, c, d]: [f64; 4]) -> Cell {
        Cell {
            outer: RadiusBounds {
                lower_mm: a,
                upper_mm: b,
            },
            inner: RadiusBounds {
                lower_mm: c,
                upper_mm: d,
            },
        }
    }
}

impl From<Cell> for [f64; 4] {
    fn from(cell: Cell) -> [f64; 4] {
        [
            cell.outer.lower_mm,
            cell.outer.upper_mm,
            cell.inner.lower_mm,
            cell.inner.upper_mm,
        ]
    }
}

/// A hole that a cell cannot hold: z0 to z1, from radius r0 to r1.
///
/// ```
/// let ring = turning::Ring::from([0.0, 2.0, 18.0, 21.0]);
/// assert_eq!((ring.z1, ring.r0), (2.0, 18.0));
/// ```
#[derive(Clone, Copy, Debug, Default, PartialEq)]
#[repr(C)]
pub struct Ring {
    /// Where it begins along z.
    pub z0: f64,
    /// Where it ends.
    pub z1: f64,
    /// Its inner radius.
    pub r0: f64,
    /// Its outer radius.
    pub r1: f64,
}

impl From<[f64; 4]> for Ring {
    fn from([z0, z1, r0, r1]: [f64; 4]) -> Ring {
        Ring { z0, z1, r0, r1 }
    }
}

impl From<Ring> for [f64; 4] {
    fn from(ring: Ring) -> [f64; 4] {
        [ring.z0, ring.z1, ring.r0, ring.r1]
    }
}

/// Which surface a cut is of.
#[derive(Clone, Copy, Debug, PartialEq, Eq, Hash)]
pub enum Side {
    /// From outside, towards the axis.
    Outer,
    /// From inside, away from it.
    Inner,
}

impl Side {
    pub(crate) fn number(self) -> u32 {
        match self {
            Side::Outer => 0,
            Side::Inner => 1,
        }
    }
}

/// A straight part of the path of a nose's centre. Each end is a radius and a z.
///
/// ```
/// use turning::Segment;
/// let level = Segment::new([28.8, -1.0], [28.8, 13.0]);
/// assert_eq!(level.sag, 0.0);
/// ```
#[derive(Clone, Copy, Debug, Default, PartialEq)]
#[repr(C)]
pub struct Segment {
    /// Where it starts: radius, z.
    pub a: [f64; 2],
    /// Where it ends: radius, z.
    pub b: [f64; 2],
    /// How far the real path leaves it at most; 0 for a true line.
    pub sag: f64,
}

impl Segment {
    /// A true line from a to b, each a radius and a z.
    pub fn new(a: [f64; 2], b: [f64; 2]) -> Segment {
        Segment { a, b, sag: 0.0 }
    }
}

/// A cut, as [`crate::Stock::preview`] and [`crate::check_passes`] take it.
///
/// Its lists are borrowed where they are the caller's, so that a cut copies nothing.
///
/// ```
/// use turning::{Cut, Segment, Side};
/// let turn = Cut::line(Side::Outer, 0.8, Segment::new([28.8, -1.0], [28.8, 13.0]));
/// assert!(!turn.is_inside());
/// assert!(Cut::Drill { tip_z: -5.0, radius: 5.0, cone: 3.0 }.is_inside());
/// ```
#[derive(Clone, Copy, Debug, PartialEq)]
#[non_exhaustive]
pub enum Cut<'a> {
    /// A round nose whose centre runs along one segment.
    Line {
        /// The surface.
        side: Side,
        /// The radius of the nose.
        rn: f64,
        /// The path of its centre.
        segment: Segment,
    },
    /// A round nose whose centre runs along segments, 4,096 at most.
    Nose {
        /// The surface.
        side: Side,
        /// The radius of the nose.
        rn: f64,
        /// The path of its centre.
        segments: &'a [Segment],
    },
    /// A convex polygon that an insert sweeps, 64 points at most, each a z and a radius.
    Polygon {
        /// The surface.
        side: Side,
        /// How far the polygon may stand outside the true tool.
        excess: f64,
        /// Its points in order around it.
        points: &'a [[f64; 2]],
    },
    /// A thread from outside between z0 and z1, in either order, down to its root.
    ThreadCut {
        /// One end.
        z0: f64,
        /// The other.
        z1: f64,
        /// The root's radius.
        radius: f64,
    },
    /// A thread from inside.
    ThreadCutInner {
        /// One end.
        z0: f64,
        /// The other.
        z1: f64,
        /// The root's radius.
        radius: f64,
    },
    /// A drill that enters at z_max.
    Drill {
        /// Where its tip stands.
        tip_z: f64,
        /// Its radius.
        radius: f64,
        /// How long its point is; 0 for a flat one.
        cone: f64,
    },
    /// An arc, which is no cut: every preview refuses it with 13. [`crate::Profile::segments`] makes chords of it.
    Arc,
}

impl<'a> Cut<'a> {
    /// A nose along one segment.
    pub fn line(side: Side, rn: f64, segment: Segment) -> Cut<'static> {
        Cut::Line { side, rn, segment }
    }

    /// Whether it cuts from inside.
    pub fn is_inside(&self) -> bool {
        match self {
            Cut::Line { side, .. } | Cut::Nose { side, .. } | Cut::Polygon { side, .. } => {
                *side == Side::Inner
            }
            Cut::ThreadCutInner { .. } | Cut::Drill { .. } => true,
            Cut::ThreadCut { .. } | Cut::Arc => false,
        }
    }
}

/// The two numbers of a stock that a list of changes is held to.
#[derive(Clone, Copy, Debug, Default, PartialEq, Eq, Hash)]
pub struct Stamp {
    /// Which wheel it is: the owner's own number.
    pub edition: u32,
    /// How often the stock was changed.
    pub generation: u64,
}

/// Turns the number of a call that tells no place into its answer.
pub(crate) fn told(number: u32) -> Result<(), Refusal> {
    match number {
        0 => Ok(()),
        number => Err(Refusal::of(number)),
    }
}

/// The start of a list as C takes it.
pub(crate) fn flat<T>(list: &[T]) -> *const f64 {
    list.as_ptr().cast()
}

/// How many numbers a list of fours has. It never overflows: the list is in memory.
pub(crate) fn numbers<T>(list: &[T]) -> usize {
    std::mem::size_of_val(list) / std::mem::size_of::<f64>()
}
