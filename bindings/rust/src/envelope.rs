//! The envelope of a profile, and an insert tried against it.
use crate::c;
use crate::model::{flat, numbers, told};
use crate::Refusal;
use std::ops::Range;

/// A chain of points, each a z and a radius, joined one to the next: 1,024 at most.
///
/// ```
/// use turning::{Envelope, Refusal};
/// let part = Envelope::new(vec![[0.0, 10.0], [5.0, 10.0], [9.0, 6.0]])?;
/// assert_eq!(part.order(), 1);
/// assert_eq!(part.radius_at(7.0)?, Some(8.0));
/// assert_eq!(part.radius_range(4.0, 7.0)?, Some([8.0, 10.0]));
/// assert_eq!(Envelope::new(vec![[f64::NAN, 0.0]]).unwrap_err(), Refusal::Envelope);
/// # Ok::<(), Refusal>(())
/// ```
#[derive(Clone, Debug, PartialEq)]
pub struct Envelope {
    points: Vec<[f64; 2]>,
    order: i32,
}

impl Envelope {
    /// The envelope of these points. Refusals: 14.
    pub fn new(points: Vec<[f64; 2]>) -> Result<Envelope, Refusal> {
        let mut order = 0;
        // SAFETY: the length is that of the lent memory.
        told(unsafe { c::turning_envelope_order(flat(&points), numbers(&points), &mut order) })?;
        Ok(Envelope { points, order })
    }

    /// The points.
    pub fn points(&self) -> &[[f64; 2]] {
        &self.points
    }

    /// 1 if z never falls from point to point, else -1 if it never rises, else 0.
    pub fn order(&self) -> i32 {
        self.order
    }

    /// The points with lo <= z <= hi; with order 0 all, and with lo > hi none. Refusals: 14.
    ///
    /// ```
    /// # use turning::Envelope;
    /// let part = Envelope::new(vec![[0.0, 10.0], [5.0, 10.0], [9.0, 6.0]])?;
    /// assert_eq!(part.within(4.0, 9.0)?, 1..3);
    /// # Ok::<(), turning::Refusal>(())
    /// ```
    pub fn within(&self, lo: f64, hi: f64) -> Result<Range<usize>, Refusal> {
        let (mut first, mut count) = (0, 0);
        // SAFETY: the length is that of the lent memory.
        told(unsafe {
            c::turning_within(
                flat(&self.points),
                numbers(&self.points),
                lo,
                hi,
                &mut first,
                &mut count,
            )
        })?;
        Ok(first..first.saturating_add(count))
    }

    /// The highest radius of the chain at u, or none. Refusals: 14.
    pub fn radius_at(&self, u: f64) -> Result<Option<f64>, Refusal> {
        let (mut found, mut radius) = (0, 0.0);
        // SAFETY: the length is that of the lent memory.
        told(unsafe {
            c::turning_radius_at(
                flat(&self.points),
                numbers(&self.points),
                u,
                &mut found,
                &mut radius,
            )
        })?;
        Ok((found != 0).then_some(radius))
    }

    /// The lowest and the highest radius over lo..hi, or none. Refusals: 14.
    pub fn radius_range(&self, lo: f64, hi: f64) -> Result<Option<[f64; 2]>, Refusal> {
        let (mut found, mut lowest, mut highest) = (0, 0.0, 0.0);
        // SAFETY: the length is that of the lent memory.
        told(unsafe {
            c::turning_radius_range(
                flat(&self.points),
                numbers(&self.points),
                lo,
                hi,
                &mut found,
                &mut lowest,
                &mut highest,
            )
        })?;
        Ok((found != 0).then_some([lowest, highest]))
    }

    /// How far an insert reaches beyond this bore widened by `tol`; below 0 it is clear by so much, and none where nothing is
    /// compared. The polygon has 64 points at most. Refusals: 14.
    ///
    /// ```
    /// # use turning::Envelope;
    /// let bore = Envelope::new(vec![[0.0, 5.0], [10.0, 5.0]])?;
    /// let insert = [[2.0, 0.0], [4.0, 0.0], [4.0, 6.0], [2.0, 6.0]];
    /// assert_eq!(bore.excess(&insert, 0.0)?, Some(1.0));
    /// # Ok::<(), turning::Refusal>(())
    /// ```
    pub fn excess(&self, polygon: &[[f64; 2]], tol: f64) -> Result<Option<f64>, Refusal> {
        let (mut found, mut by) = (0, 0.0);
        // SAFETY: the lengths are those of the lent memory.
        told(unsafe {
            c::turning_excess(
                flat(&self.points),
                numbers(&self.points),
                flat(polygon),
                numbers(polygon),
                tol,
                &mut found,
                &mut by,
            )
        })?;
        Ok((found != 0).then_some(by))
    }

    /// How far an insert reaches into this part eroded by `tol`; below 0 it is clear by so much, and none where there is nothing to
    /// touch. The polygon has 64 points at most. Refusals: 14.
    ///
    /// ```
    /// # use turning::Envelope;
    /// let part = Envelope::new(vec![[0.0, 5.0], [10.0, 5.0]])?;
    /// let insert = [[2.0, 4.0], [4.0, 4.0], [4.0, 9.0], [2.0, 9.0]];
    /// assert_eq!(part.penetration(&insert, 0.0)?, Some(1.0));
    /// # Ok::<(), turning::Refusal>(())
    /// ```
    pub fn penetration(&self, polygon: &[[f64; 2]], tol: f64) -> Result<Option<f64>, Refusal> {
        let (mut found, mut by) = (0, 0.0);
        // SAFETY: the lengths are those of the lent memory.
        told(unsafe {
            c::turning_penetration(
                flat(&self.points),
                numbers(&self.points),
                flat(polygon),
                numbers(polygon),
                tol,
                &mut found,
                &mut by,
            )
        })?;
        Ok((found != 0).then_some(by))
    }

    /// The radius of this part eroded by `tol` at u, or none where u - tol or u + tol leaves it. Refusals: 14.
    ///
    /// ```
    /// # use turning::Envelope;
    /// let part = Envelope::new(vec![[0.0, 5.0], [10.0, 5.0]])?;
    /// assert_eq!(part.eroded(5.0, 0.5)?, Some(4.5));
    /// assert_eq!(part.eroded(0.0, 0.5)?, None);
    /// # Ok::<(), turning::Refusal>(())
    /// ```
    pub fn eroded(&self, u: f64, tol: f64) -> Result<Option<f64>, Refusal> {
        let (mut found, mut radius) = (0, 0.0);
        // SAFETY: the length is that of the lent memory.
        told(unsafe {
            c::turning_eroded(
                flat(&self.points),
                numbers(&self.points),
                u,
                tol,
                &mut found,
                &mut radius,
            )
        })?;
        Ok((found != 0).then_some(radius))
    }
}
