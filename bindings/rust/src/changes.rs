//! Lists of changes.
use crate::{Cell, Stamp};

/// One change: a bin, what it holds, and what it shall hold.
#[derive(Clone, Copy, Debug, Default, PartialEq)]
pub struct Change {
    /// The bin.
    pub index: usize,
    /// What it holds before.
    pub before: Cell,
    /// What it holds after.
    pub after: Cell,
}

/// The cell before and the cell after, as they lie in memory for C.
#[derive(Clone, Copy, Debug, Default, PartialEq)]
#[repr(C)]
pub(crate) struct Record {
    pub(crate) before: Cell,
    pub(crate) after: Cell,
}

/// A list of changes with the stamp of the stock that it was taken of.
///
/// Previews make it, and [`crate::Stock::commit`] takes it, but only while the stock is at that stamp. A list that was kept as
/// records is made again with [`ChangeList::from_records`], its stamp with it. A list that is handed to
/// [`crate::Stock::preview_into`] is filled again, so that a loop of previews and commits takes memory once.
///
/// ```
/// use turning::{ChangeList, Cut, Spec, Stock};
/// let stock = Stock::new(Spec::new(0.0, 4.0, 10.0, 0.0, 1.0))?;
/// let list = stock.preview(&Cut::ThreadCut { z0: 3.0, z1: 1.0, radius: 8.0 })?;
/// assert_eq!(list.len(), 2);
/// assert_eq!(list.iter().map(|c| c.index).collect::<Vec<_>>(), [1, 2]);
///
/// let kept: Vec<_> = list.iter().collect();
/// assert_eq!(ChangeList::from_records(list.stamp(), kept), list);
/// # Ok::<(), turning::Refusal>(())
/// ```
#[derive(Clone, Debug, Default)]
pub struct ChangeList {
    pub(crate) stamp: Stamp,
    pub(crate) indices: Vec<usize>,
    pub(crate) records: Vec<Record>,
}

impl ChangeList {
    /// An empty list of edition 0 at generation 0, to be filled by a preview.
    ///
    /// ```
    /// assert!(turning::ChangeList::new().is_empty());
    /// ```
    pub fn new() -> ChangeList {
        ChangeList::default()
    }

    /// The list of these changes, taken of a stock at this stamp. Whether they make sense is asked by the commit.
    pub fn from_records(stamp: Stamp, changes: impl IntoIterator<Item = Change>) -> ChangeList {
        let mut list = ChangeList {
            stamp,
            ..ChangeList::default()
        };
        for change in changes {
            list.indices.push(change.index);
            list.records.push(Record {
                before: change.before,
                after: change.after,
            });
        }
        list
    }

    /// The edition and the generation of the stock that it was taken of.
    pub fn stamp(&self) -> Stamp {
        self.stamp
    }

    /// How many changes there are.
    pub fn len(&self) -> usize {
        self.indices.len()
    }

    /// Whether there is none. A list with none is stale as any other, and its commit raises the generation.
    pub fn is_empty(&self) -> bool {
        self.indices.is_empty()
    }

    /// Change k, from 0.
    ///
    /// ```
    /// # use turning::{Cut, Spec, Stock};
    /// # let stock = Stock::new(Spec::new(0.0, 4.0, 10.0, 0.0, 1.0))?;
    /// let list = stock.preview(&Cut::Drill { tip_z: 2.0, radius: 3.0, cone: 0.0 })?;
    /// assert_eq!(list.get(0).map(|c| c.after.inner.lower_mm), Some(3.0));
    /// assert_eq!(list.get(2), None);
    /// # Ok::<(), turning::Refusal>(())
    /// ```
    pub fn get(&self, k: usize) -> Option<Change> {
        let index = *self.indices.get(k)?;
        let record = self.records.get(k)?;
        Some(Change {
            index,
            before: record.before,
            after: record.after,
        })
    }

    /// The changes, by rising index where a call made them.
    pub fn iter(&self) -> impl ExactSizeIterator<Item = Change> + '_ {
        self.indices
            .iter()
            .zip(&self.records)
            .map(|(&index, record)| Change {
                index,
                before: record.before,
                after: record.after,
            })
    }

    /// Makes room for n changes, and keeps what is there.
    pub(crate) fn make_room(&mut self, n: usize) {
        self.indices.reserve(n.saturating_sub(self.indices.len()));
        self.records.reserve(n.saturating_sub(self.records.len()));
    }

    /// Takes over what a call wrote.
    ///
    /// # Safety
    /// The first `count` of both lists are written, and there is room for them.
    pub(crate) unsafe fn take(&mut self, count: usize, stamp: Stamp) {
        self.indices.set_len(count);
        self.records.set_len(count);
        self.stamp = stamp;
    }
}

impl PartialEq for ChangeList {
    fn eq(&self, other: &ChangeList) -> bool {
        self.stamp == other.stamp && self.indices == other.indices && self.records == other.records
    }
}
