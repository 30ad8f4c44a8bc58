//! A profile of lines and arcs, as chords.
use crate::c;
use crate::model::{flat, numbers, told};
use crate::{Refusal, Segment};

/// A path of lines and arcs: points of a radius, a z, and the bulge of the arc to the next point; 2 to 256 of them.
///
/// The chords that it becomes are the path of a nose's **centre**.
///
/// ```
/// use turning::{Profile, Refusal};
/// let scallop = Profile::new(vec![[20.0, 0.0, 0.3], [20.0, 10.0, 0.0]]);
/// let chords = scallop.segments(0.1)?;
/// assert_eq!(chords.len(), 4);
/// assert_eq!(chords[0].a, [20.0, 0.0]);
/// assert_eq!(Profile::new(vec![]).segments(0.1), Err(Refusal::Profile));
/// # Ok::<(), Refusal>(())
/// ```
#[derive(Clone, Debug, Default, PartialEq)]
pub struct Profile {
    /// The points: radius, z, bulge.
    pub points: Vec<[f64; 3]>,
}

/// The most points of a profile that is accepted, and the most chords that become of one of its arcs.
const POINTS: usize = 256;
const CHORDS: usize = 1024;

impl Profile {
    /// The profile of these points. They are asked where chords are made.
    pub fn new(points: Vec<[f64; 3]>) -> Profile {
        Profile { points }
    }

    /// Its chords, each with the sag by which the arc leaves it. Refusals: 17, 18 where ten halvings do not reach the tolerance. A
    /// nose takes 4,096 of them at most.
    pub fn segments(&self, tolerance: f64) -> Result<Vec<Segment>, Refusal> {
        let room = self.points.len().min(POINTS) * CHORDS;
        let mut chords: Vec<Segment> = Vec::with_capacity(room);
        let mut count = 0;
        // SAFETY: the lengths are those of the lent memory; more chords than there is room for cannot be.
        told(unsafe {
            c::turning_segments(
                flat(&self.points),
                numbers(&self.points),
                tolerance,
                chords.as_mut_ptr().cast(),
                5 * room,
                &mut count,
            )
        })?;
        // SAFETY: an accepted call has written the first `count`.
        unsafe { chords.set_len(count.min(room)) };
        chords.shrink_to_fit();
        Ok(chords)
    }
}
