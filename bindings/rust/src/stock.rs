//! A stock: its spec, stamp, cells, kept numbers and rings.
use crate::model::{flat, numbers, told, with_spec};
use crate::{c, Cell, ChangeList, Cut, Refusal, Ring, Side, Spec, Stamp, RING_LIMIT};

/// The most material that may remain: the least bore and the greatest outer radius.
#[derive(Clone, Copy, Debug, PartialEq)]
pub struct Material {
    /// The least that the radius of the bore may be.
    pub bore_lower_mm: f64,
    /// The most that the outer radius may be.
    pub outer_upper_mm: f64,
}

/// A bin with its place along z and what is known of it.
#[derive(Clone, Copy, Debug, PartialEq)]
pub struct Bin {
    /// Its index.
    pub index: usize,
    /// Where it starts and ends.
    pub z: [f64; 2],
    /// What is known of it.
    pub cell: Cell,
}

/// The bounds of a volume, in cubic millimetres.
#[derive(Clone, Copy, Debug, PartialEq)]
pub struct Volume {
    /// At least this much remains.
    pub least: f64,
    /// At most this much remains.
    pub greatest: f64,
}

/// A stock on the lathe. It owns its cells, the numbers kept beside them, and its rings.
///
/// A stock is made by calls that check it, so it always fits its spec. A preview says what a cut would change, and changes
/// nothing; [`Stock::commit`] makes the changes. A refused call leaves the stock as it was.
///
/// ```
/// use turning::{Cut, Refusal, Spec, Stock};
/// let mut stock = Stock::new(Spec::new(0.0, 4.0, 10.0, 0.0, 1.0))?;
/// let list = stock.preview(&Cut::ThreadCut { z0: 3.0, z1: 1.0, radius: 8.0 })?;
/// stock.commit(&list)?;
/// assert_eq!(stock.generation(), 1);
/// assert_eq!(stock.commit(&list), Err(Refusal::Stale));
/// # Ok::<(), Refusal>(())
/// ```
#[derive(Clone, Debug)]
pub struct Stock {
    spec: Spec,
    stamp: Stamp,
    cells: Vec<Cell>,
    blocks: Vec<[f64; 2]>,
    /// Room for rings: none, or for as many as may be stored.
    rings: Vec<Ring>,
    stored: usize,
}

/// The start and the length of lent memory, as C takes it.
macro_rules! read {
    ($list:expr) => {
        (flat(&$list), numbers(&$list))
    };
}
macro_rules! written {
    ($list:expr) => {{
        let count = numbers(&$list);
        ($list.as_mut_ptr().cast::<f64>(), count)
    }};
}

impl Stock {
    /// A bar that nothing has cut, of edition 0. Refusals: 1, 2.
    ///
    /// ```
    /// use turning::{Spec, Stock};
    /// let stock = Stock::new(Spec::new(0.0, 4.0, 10.0, 2.0, 1.0))?;
    /// assert_eq!(stock.cells().len(), 4);
    /// assert_eq!(<[f64; 4]>::from(stock.cells()[0]), [10.0, 10.0, 2.0, 2.0]);
    /// # Ok::<(), turning::Refusal>(())
    /// ```
    pub fn new(spec: Spec) -> Result<Stock, Refusal> {
        Stock::with_edition(spec, 0)
    }

    /// The same of an edition: the owner's own number of the wheel. Refusals: 1, 2.
    ///
    /// ```
    /// # use turning::{Spec, Stock};
    /// let stock = Stock::with_edition(Spec::new(0.0, 4.0, 10.0, 0.0, 1.0), 3)?;
    /// assert_eq!((stock.edition(), stock.generation()), (3, 0));
    /// # Ok::<(), turning::Refusal>(())
    /// ```
    pub fn with_edition(spec: Spec, edition: u32) -> Result<Stock, Refusal> {
        let n = spec.validate()?;
        let mut stock = Stock::empty(spec, edition, n);
        let (cells, cells_len) = written!(stock.cells);
        let (blocks, blocks_len) = written!(stock.blocks);
        // SAFETY: the lengths are those of the lent memory.
        told(unsafe {
            with_spec!(
                turning_new,
                spec,
                edition,
                &mut stock.stamp.generation,
                cells,
                cells_len,
                blocks,
                blocks_len,
            )
        })?;
        Ok(stock)
    }

    /// The memory of a stock of n bins, with nothing in it.
    fn empty(spec: Spec, edition: u32, n: usize) -> Stock {
        Stock {
            spec,
            stamp: Stamp {
                edition,
                generation: 0,
            },
            cells: vec![Cell::default(); n],
            blocks: vec![[0.0; 2]; n.div_ceil(64)],
            rings: Vec::new(),
            stored: 0,
        }
    }

    /// A stock made again of its cells and of rings that are given one after the other, overlapping or not. Refusals: 1, 2, 3, 10,
    /// 11. Its generation is 0: give it a new edition, so that no list from before matches it.
    ///
    /// ```
    /// use turning::{Refusal, Ring, Spec, Stock};
    /// let spec = Spec::new(0.0, 2.0, 10.0, 0.0, 1.0);
    /// let cells = Stock::new(spec)?.cells().to_vec();
    /// let ring = Ring { z0: 0.5, z1: 1.0, r0: 4.0, r1: 5.0 };
    /// let stock = Stock::rebuild(spec, 4, &cells, &[ring, ring])?;
    /// assert_eq!(stock.rings(), [ring]);
    /// assert_eq!(Stock::rebuild(spec, 4, &cells[..1], &[]).unwrap_err(), Refusal::Cells);
    /// # Ok::<(), Refusal>(())
    /// ```
    #[doc(alias = "from_parts")]
    pub fn rebuild(
        spec: Spec,
        edition: u32,
        cells: &[Cell],
        rings: &[Ring],
    ) -> Result<Stock, Refusal> {
        Stock::rebuild_with_tests(spec, edition, cells, rings, &mut [])
    }

    /// The same, and for each ring of the list, as far as `tests` reaches, how many tests against stored rings it took.
    ///
    /// ```
    /// # use turning::{Ring, Spec, Stock};
    /// # let spec = Spec::new(0.0, 2.0, 10.0, 0.0, 1.0);
    /// # let cells = Stock::new(spec)?.cells().to_vec();
    /// # let ring = Ring { z0: 0.5, z1: 1.0, r0: 4.0, r1: 5.0 };
    /// let mut tests = [9; 3];
    /// Stock::rebuild_with_tests(spec, 4, &cells, &[ring, ring], &mut tests)?;
    /// assert_eq!(tests, [0, 1, 9]);
    /// # Ok::<(), turning::Refusal>(())
    /// ```
    pub fn rebuild_with_tests(
        spec: Spec,
        edition: u32,
        cells: &[Cell],
        rings: &[Ring],
        tests: &mut [usize],
    ) -> Result<Stock, Refusal> {
        let n = spec.validate()?;
        if cells.len() != n {
            return Err(Refusal::Cells);
        }
        let mut stock = Stock::empty(spec, edition, n);
        stock.cells.copy_from_slice(cells);
        stock.make_ring_room();
        let (cells, cells_len) = read!(stock.cells);
        let (blocks, blocks_len) = written!(stock.blocks);
        let (given, given_len) = read!(*rings);
        let (room, room_len) = written!(stock.rings);
        let mut position = 0;
        // SAFETY: the lengths are those of the lent memory, and what is written overlaps nothing.
        let number = unsafe {
            with_spec!(
                turning_from_parts,
                spec,
                edition,
                &mut stock.stamp.generation,
                cells,
                cells_len,
                blocks,
                blocks_len,
                given,
                given_len,
                room,
                room_len,
                &mut stock.stored,
                tests.as_mut_ptr(),
                tests.len(),
                &mut position,
            )
        };
        placed(number, position)?;
        Ok(stock)
    }

    /// A stock of parts that a job or a file left, which were checked there. Refusals: 1, 2, 3, and 4 where the rings do not fit.
    pub(crate) fn checked(
        spec: Spec,
        stamp: Stamp,
        cells: &[Cell],
        rings: &[Ring],
    ) -> Result<Stock, Refusal> {
        let n = spec.validate()?;
        if cells.len() != n {
            return Err(Refusal::Cells);
        }
        if rings.len() > RING_LIMIT {
            return Err(Refusal::StoredRings);
        }
        let mut stock = Stock::empty(spec, stamp.edition, n);
        stock.stamp = stamp;
        stock.cells.copy_from_slice(cells);
        if !rings.is_empty() {
            stock.make_ring_room();
            for (room, ring) in stock.rings.iter_mut().zip(rings) {
                *room = *ring;
            }
            stock.stored = rings.len();
        }
        let (cells, cells_len) = read!(stock.cells);
        let (blocks, blocks_len) = written!(stock.blocks);
        // SAFETY: the lengths are those of the lent memory.
        told(unsafe { with_spec!(turning_renew, spec, cells, cells_len, blocks, blocks_len) })?;
        stock.lines()?;
        Ok(stock)
    }

    fn make_ring_room(&mut self) {
        self.rings.resize(RING_LIMIT, Ring::default());
    }

    /// The bar.
    pub fn spec(&self) -> &Spec {
        &self.spec
    }

    /// The cells, one for each bin.
    pub fn cells(&self) -> &[Cell] {
        &self.cells
    }

    /// The stored rings. No two overlap.
    pub fn rings(&self) -> &[Ring] {
        self.rings.get(..self.stored).unwrap_or(&[])
    }

    /// The edition and the generation.
    pub fn stamp(&self) -> Stamp {
        self.stamp
    }

    /// Which wheel it is.
    pub fn edition(&self) -> u32 {
        self.stamp.edition
    }

    /// How often it was changed.
    pub fn generation(&self) -> u64 {
        self.stamp.generation
    }

    /// The same stock under another edition, so that no list from before matches it.
    ///
    /// ```
    /// # use turning::{Cut, Refusal, Spec, Stock};
    /// let mut stock = Stock::new(Spec::new(0.0, 4.0, 10.0, 0.0, 1.0))?;
    /// let list = stock.preview(&Cut::Drill { tip_z: 0.0, radius: 1.0, cone: 0.0 })?;
    /// stock.set_edition(2);
    /// assert_eq!(stock.commit(&list), Err(Refusal::Stale));
    /// # Ok::<(), Refusal>(())
    /// ```
    pub fn set_edition(&mut self, edition: u32) {
        self.stamp.edition = edition;
    }

    /// Where bin i starts and ends. Refusals: 21.
    pub fn bin(&self, i: usize) -> Result<[f64; 2], Refusal> {
        self.spec.bin(i)
    }

    /// The bins in order, each with its z range and its cell.
    ///
    /// ```
    /// # use turning::{Spec, Stock};
    /// let stock = Stock::new(Spec::new(0.0, 2.5, 10.0, 0.0, 1.0))?;
    /// assert_eq!(stock.bins().last().map(|b| b.z), Some([2.0, 2.5]));
    /// # Ok::<(), turning::Refusal>(())
    /// ```
    pub fn bins(&self) -> impl Iterator<Item = Bin> + '_ {
        self.cells.iter().enumerate().filter_map(|(index, cell)| {
            let z = self.spec.bin(index).ok()?;
            Some(Bin {
                index,
                z,
                cell: *cell,
            })
        })
    }

    /// What a cut would change; the stock stays. Refusals: 13, 5.
    ///
    /// ```
    /// use turning::{Cut, Segment, Side, Spec, Stock};
    /// let stock = Stock::new(Spec::new(0.0, 12.0, 30.0, 0.0, 1.0))?;
    /// let turn = Cut::line(Side::Outer, 0.8, Segment::new([28.8, -1.0], [28.8, 13.0]));
    /// let list = stock.preview(&turn)?;
    /// assert_eq!(list.len(), 12);
    /// # Ok::<(), turning::Refusal>(())
    /// ```
    pub fn preview(&self, cut: &Cut<'_>) -> Result<ChangeList, Refusal> {
        let mut list = ChangeList::new();
        self.preview_into(cut, &mut list)?;
        Ok(list)
    }

    /// The same into a list that is there already, whose memory is used again. A refusal leaves the list as it was.
    ///
    /// ```
    /// use turning::{ChangeList, Cut, Spec, Stock};
    /// let mut stock = Stock::new(Spec::new(0.0, 12.0, 30.0, 0.0, 1.0))?;
    /// let mut list = ChangeList::new();
    /// for radius in [5.0, 6.0, 7.0] {
    ///     stock.preview_into(&Cut::Drill { tip_z: -5.0, radius, cone: 3.0 }, &mut list)?;
    ///     stock.commit(&list)?;
    /// }
    /// assert_eq!(stock.cells()[11].inner.lower_mm, 7.0);
    /// # Ok::<(), turning::Refusal>(())
    /// ```
    pub fn preview_into(&self, cut: &Cut<'_>, list: &mut ChangeList) -> Result<(), Refusal> {
        let n = self.cells.len();
        list.make_room(n);
        let (mut count, mut edition, mut generation) = (0, 0, 0);
        let (cells, cells_len) = read!(self.cells);
        macro_rules! ask {
            ($name:ident, $($argument:expr),*) => {
                // SAFETY: the lengths are those of the lent memory, and there is room for a change of each of the n cells.
                unsafe {
                    with_spec!(
                        $name, self.spec, self.stamp.edition, self.stamp.generation, cells, cells_len,
                        $($argument,)*
                        list.indices.as_mut_ptr(), n,
                        list.records.as_mut_ptr().cast(), 8 * n,
                        &mut count, &mut edition, &mut generation,
                    )
                }
            };
        }
        let number = match *cut {
            Cut::Line {
                side,
                rn,
                ref segment,
            } => {
                let one = std::slice::from_ref(segment);
                ask!(turning_preview, side.number(), rn, flat(one), numbers(one))
            }
            Cut::Nose { side, rn, segments } => {
                ask!(
                    turning_preview,
                    side.number(),
                    rn,
                    flat(segments),
                    numbers(segments)
                )
            }
            Cut::Polygon {
                side,
                excess,
                points,
            } => {
                ask!(
                    turning_preview_polygon,
                    side.number(),
                    excess,
                    flat(points),
                    numbers(points)
                )
            }
            Cut::ThreadCut { z0, z1, radius } => ask!(turning_thread_cut, z0, z1, radius),
            Cut::ThreadCutInner { z0, z1, radius } => {
                ask!(turning_thread_cut_inner, z0, z1, radius)
            }
            Cut::Drill {
                tip_z,
                radius,
                cone,
            } => ask!(turning_drill, tip_z, radius, cone),
            Cut::Arc => 13,
        };
        told(number)?;
        // SAFETY: an accepted call has written the first `count`, which are no more than n.
        unsafe {
            list.take(
                count.min(n),
                Stamp {
                    edition,
                    generation,
                },
            )
        };
        Ok(())
    }

    /// A thread from outside, as camlib's call of this name.
    ///
    /// ```
    /// # use turning::{Spec, Stock};
    /// let stock = Stock::new(Spec::new(0.0, 4.0, 10.0, 0.0, 1.0))?;
    /// assert_eq!(stock.thread_cut(3.0, 1.0, 8.0)?.len(), 2);
    /// # Ok::<(), turning::Refusal>(())
    /// ```
    pub fn thread_cut(&self, z0: f64, z1: f64, radius: f64) -> Result<ChangeList, Refusal> {
        self.preview(&Cut::ThreadCut { z0, z1, radius })
    }

    /// A thread from inside, as camlib's call of this name.
    ///
    /// ```
    /// # use turning::{Spec, Stock};
    /// let stock = Stock::new(Spec::new(0.0, 4.0, 10.0, 2.0, 1.0))?;
    /// assert_eq!(stock.thread_cut_inner(0.0, 4.0, 3.0)?.len(), 4);
    /// # Ok::<(), turning::Refusal>(())
    /// ```
    pub fn thread_cut_inner(&self, z0: f64, z1: f64, radius: f64) -> Result<ChangeList, Refusal> {
        self.preview(&Cut::ThreadCutInner { z0, z1, radius })
    }

    /// A drill, as camlib's call of this name.
    ///
    /// ```
    /// # use turning::{Spec, Stock};
    /// let stock = Stock::new(Spec::new(0.0, 4.0, 10.0, 0.0, 1.0))?;
    /// assert_eq!(stock.drill(2.0, 3.0, 0.0)?.len(), 2);
    /// # Ok::<(), turning::Refusal>(())
    /// ```
    pub fn drill(&self, tip_z: f64, radius: f64, cone: f64) -> Result<ChangeList, Refusal> {
        self.preview(&Cut::Drill {
            tip_z,
            radius,
            cone,
        })
    }

    /// A convex polygon, each point a z and a radius, as camlib's call of this name.
    ///
    /// ```
    /// use turning::{Side, Spec, Stock};
    /// let stock = Stock::new(Spec::new(0.0, 4.0, 10.0, 0.0, 1.0))?;
    /// let swept = [[1.0, 8.0], [3.0, 8.0], [3.0, 12.0], [1.0, 12.0]];
    /// assert_eq!(stock.preview_polygon(&swept, Side::Outer, 0.0)?.len(), 2);
    /// # Ok::<(), turning::Refusal>(())
    /// ```
    pub fn preview_polygon(
        &self,
        polygon: &[[f64; 2]],
        side: Side,
        excess: f64,
    ) -> Result<ChangeList, Refusal> {
        self.preview(&Cut::Polygon {
            side,
            excess,
            points: polygon,
        })
    }

    /// Makes the changes of a list. Refusals: 19, 7, 8/21/22/23, 12. The generation rises by 1, also with no change.
    ///
    /// ```
    /// use turning::{Change, ChangeList, Refusal, Spec, Stock};
    /// let mut stock = Stock::new(Spec::new(0.0, 4.0, 10.0, 0.0, 1.0))?;
    /// let before = stock.cells()[0];
    /// let mut after = before;
    /// after.outer.lower_mm = 9.0;
    /// let list = ChangeList::from_records(stock.stamp(), [Change { index: 0, before, after }]);
    /// stock.commit(&list)?;
    /// let back = ChangeList::from_records(stock.stamp(), [Change { index: 0, before: after, after: before }]);
    /// assert_eq!(stock.commit(&back), Err(Refusal::Adds { change: 0 }));
    /// # Ok::<(), Refusal>(())
    /// ```
    #[doc(alias = "apply")]
    pub fn commit(&mut self, list: &ChangeList) -> Result<(), Refusal> {
        let (cells, cells_len) = written!(self.cells);
        let (blocks, blocks_len) = written!(self.blocks);
        let (records, records_len) = read!(list.records);
        let mut position = 0;
        // SAFETY: the lengths are those of the lent memory, and what is written overlaps nothing.
        let number = unsafe {
            with_spec!(
                turning_apply,
                self.spec,
                self.stamp.edition,
                &mut self.stamp.generation,
                cells,
                cells_len,
                blocks,
                blocks_len,
                list.indices.as_ptr(),
                list.indices.len(),
                records,
                records_len,
                list.indices.len(),
                list.stamp.edition,
                list.stamp.generation,
                &mut position,
            )
        };
        placed(number, position)
    }

    /// Takes one ring out, and tells how many tests against stored rings that took. Refusals: 10, 12, 11. A ring that is empty
    /// within the bar changes nothing; another raises the generation by 1.
    ///
    /// ```
    /// use turning::{Ring, Spec, Stock};
    /// let mut stock = Stock::new(Spec::new(0.0, 4.0, 10.0, 0.0, 1.0))?;
    /// let groove = Ring { z0: 3.5, z1: 4.5, r0: 4.0, r1: 5.0 };
    /// assert_eq!(stock.remove_ring(groove)?, 0);
    /// assert_eq!(stock.rings(), [Ring { z1: 4.0, ..groove }]);
    /// assert_eq!(stock.remove_ring(groove)?, 1);
    /// assert_eq!((stock.rings().len(), stock.generation()), (1, 2));
    /// # Ok::<(), turning::Refusal>(())
    /// ```
    pub fn remove_ring(&mut self, ring: Ring) -> Result<usize, Refusal> {
        self.make_ring_room();
        let (rings, rings_len) = written!(self.rings);
        let (mut tests, mut position) = (0, 0);
        // SAFETY: the lengths are those of the lent memory, and what is written overlaps nothing.
        let number = unsafe {
            with_spec!(
                turning_remove_ring,
                self.spec,
                rings,
                rings_len,
                &mut self.stored,
                &mut self.stamp.generation,
                ring.z0,
                ring.z1,
                ring.r0,
                ring.r1,
                &mut tests,
                &mut position,
            )
        };
        placed(number, position)?;
        Ok(tests)
    }

    /// Changes and rings in one, decided whole before anything is changed. Refusals: 19, 10, 7, 8/21/22/23, 12, 11.
    ///
    /// ```
    /// use turning::{Ring, Spec, Stock};
    /// let mut stock = Stock::new(Spec::new(0.0, 4.0, 10.0, 0.0, 1.0))?;
    /// let list = stock.thread_cut(1.0, 3.0, 8.0)?;
    /// stock.apply_move(&list, &[Ring { z0: 3.5, z1: 4.0, r0: 4.0, r1: 5.0 }])?;
    /// assert_eq!(stock.generation(), 2);
    /// # Ok::<(), turning::Refusal>(())
    /// ```
    pub fn apply_move(&mut self, list: &ChangeList, rings: &[Ring]) -> Result<(), Refusal> {
        self.apply_move_with_tests(list, rings, &mut [])
    }

    /// The same, and for each ring of the list, as far as `tests` reaches, how many tests against stored rings it took. A refusal
    /// leaves `tests` as it was.
    ///
    /// ```
    /// use turning::{ChangeList, Ring, Spec, Stock};
    /// let mut stock = Stock::new(Spec::new(0.0, 9.0, 9.0, 0.0, 1.0))?;
    /// let rings = [[0.0, 9.0, 0.0, 9.0], [1.0, 2.0, 1.0, 2.0], [4.0, 5.0, 4.0, 5.0]].map(Ring::from);
    /// let mut tests = [0; 3];
    /// let none = ChangeList::from_records(stock.stamp(), []);
    /// stock.apply_move_with_tests(&none, &rings, &mut tests)?;
    /// assert_eq!(tests, [0, 1, 1]);
    /// # Ok::<(), turning::Refusal>(())
    /// ```
    pub fn apply_move_with_tests(
        &mut self,
        list: &ChangeList,
        rings: &[Ring],
        tests: &mut [usize],
    ) -> Result<(), Refusal> {
        if !rings.is_empty() {
            self.make_ring_room();
        }
        let (cells, cells_len) = written!(self.cells);
        let (blocks, blocks_len) = written!(self.blocks);
        let (room, room_len) = written!(self.rings);
        let (records, records_len) = read!(list.records);
        let (removed, removed_len) = read!(*rings);
        let mut position = 0;
        // SAFETY: the lengths are those of the lent memory, and what is written overlaps nothing.
        let number = unsafe {
            with_spec!(
                turning_apply_move,
                self.spec,
                self.stamp.edition,
                &mut self.stamp.generation,
                cells,
                cells_len,
                blocks,
                blocks_len,
                room,
                room_len,
                &mut self.stored,
                list.indices.as_ptr(),
                list.indices.len(),
                records,
                records_len,
                list.indices.len(),
                list.stamp.edition,
                list.stamp.generation,
                removed,
                removed_len,
                tests.as_mut_ptr(),
                tests.len(),
                &mut position,
            )
        };
        placed(number, position)
    }

    /// The changes that make the cells of `after` of these. Refusals: 24, where the two are not of one bar. Rings are not looked at.
    ///
    /// ```
    /// use turning::{Refusal, Spec, Stock};
    /// let mut stock = Stock::new(Spec::new(0.0, 4.0, 10.0, 0.0, 1.0))?;
    /// let before = stock.clone();
    /// stock.commit(&stock.thread_cut(1.0, 3.0, 8.0)?)?;
    /// assert_eq!(before.difference(&stock)?.len(), 2);
    /// let other = Stock::new(Spec::new(0.0, 5.0, 10.0, 0.0, 1.0))?;
    /// assert_eq!(before.difference(&other), Err(Refusal::Bars));
    /// # Ok::<(), Refusal>(())
    /// ```
    #[doc(alias = "changes_to")]
    pub fn difference(&self, after: &Stock) -> Result<ChangeList, Refusal> {
        if !self.spec.same_bar(&after.spec) {
            return Err(Refusal::Bars);
        }
        let n = self.cells.len();
        let mut list = ChangeList::new();
        list.make_room(n);
        let (cells, cells_len) = read!(self.cells);
        let (after, after_len) = read!(after.cells);
        let (mut count, mut edition, mut generation) = (0, 0, 0);
        // SAFETY: the lengths are those of the lent memory, and there is room for a change of each of the n cells.
        told(unsafe {
            with_spec!(
                turning_changes_to,
                self.spec,
                self.stamp.edition,
                self.stamp.generation,
                cells,
                cells_len,
                after,
                after_len,
                list.indices.as_mut_ptr(),
                n,
                list.records.as_mut_ptr().cast(),
                8 * n,
                &mut count,
                &mut edition,
                &mut generation,
            )
        })?;
        // SAFETY: an accepted call has written the first `count`, which are no more than n.
        unsafe {
            list.take(
                count.min(n),
                Stamp {
                    edition,
                    generation,
                },
            )
        };
        Ok(list)
    }

    /// The least and the greatest volume that remains, without the rings.
    ///
    /// ```
    /// # use turning::{Spec, Stock};
    /// let stock = Stock::new(Spec::new(0.0, 4.0, 10.0, 0.0, 1.0))?;
    /// let volume = stock.volume()?;
    /// assert_eq!(volume.least, volume.greatest);
    /// assert!((volume.least - 400.0 * std::f64::consts::PI).abs() < 1e-9);
    /// # Ok::<(), turning::Refusal>(())
    /// ```
    pub fn volume(&self) -> Result<Volume, Refusal> {
        let (cells, cells_len) = read!(self.cells);
        let (rings, rings_len) = read!(self.rings);
        let (mut least, mut greatest) = (0.0, 0.0);
        // SAFETY: the lengths are those of the lent memory.
        told(unsafe {
            with_spec!(
                turning_volume,
                self.spec,
                cells,
                cells_len,
                rings,
                rings_len,
                self.stored,
                &mut least,
                &mut greatest,
            )
        })?;
        Ok(Volume { least, greatest })
    }

    /// The most material that may remain at z, or none. Any z may be asked.
    ///
    /// ```
    /// # use turning::{Spec, Stock};
    /// let stock = Stock::new(Spec::new(0.0, 4.0, 10.0, 2.0, 1.0))?;
    /// let there = stock.envelope_at(1.5)?.map(|m| (m.bore_lower_mm, m.outer_upper_mm));
    /// assert_eq!(there, Some((2.0, 10.0)));
    /// assert_eq!(stock.envelope_at(f64::NAN)?, None);
    /// # Ok::<(), turning::Refusal>(())
    /// ```
    pub fn envelope_at(&self, z: f64) -> Result<Option<Material>, Refusal> {
        let (cells, cells_len) = read!(self.cells);
        let (mut found, mut bore, mut outer) = (0, 0.0, 0.0);
        // SAFETY: the lengths are those of the lent memory.
        told(unsafe {
            with_spec!(
                turning_envelope_at,
                self.spec,
                cells,
                cells_len,
                z,
                &mut found,
                &mut bore,
                &mut outer,
            )
        })?;
        Ok(material(found, bore, outer))
    }

    /// The most material that may remain from lo to hi, or none. Any ends may be asked.
    ///
    /// ```
    /// # use turning::{Spec, Stock};
    /// let mut stock = Stock::new(Spec::new(0.0, 4.0, 10.0, 0.0, 1.0))?;
    /// stock.commit(&stock.drill(1.0, 3.0, 0.0)?)?;
    /// let there = stock.range(1.25, 2.75)?.map(|m| (m.bore_lower_mm, m.outer_upper_mm));
    /// assert_eq!(there, Some((3.0, 10.0)));
    /// assert_eq!(stock.range(3.0, 2.0)?, None);
    /// # Ok::<(), turning::Refusal>(())
    /// ```
    pub fn range(&self, lo: f64, hi: f64) -> Result<Option<Material>, Refusal> {
        let (cells, cells_len) = read!(self.cells);
        let (blocks, blocks_len) = read!(self.blocks);
        let (mut found, mut bore, mut outer) = (0, 0.0, 0.0);
        // SAFETY: the lengths are those of the lent memory.
        told(unsafe {
            with_spec!(
                turning_range,
                self.spec,
                cells,
                cells_len,
                blocks,
                blocks_len,
                lo,
                hi,
                &mut found,
                &mut bore,
                &mut outer,
            )
        })?;
        Ok(material(found, bore, outer))
    }

    /// The kept numbers, two for each block of 64 bins: the greatest outer upper bound and the least inner lower bound.
    pub fn blocks(&self) -> &[[f64; 2]] {
        &self.blocks
    }

    /// The number of lines of its file. Refusals: 1, 2, 3, 4, which a stock never has.
    pub(crate) fn lines(&self) -> Result<usize, Refusal> {
        let (cells, cells_len) = read!(self.cells);
        let (rings, rings_len) = read!(self.rings);
        let mut lines = 0;
        // SAFETY: the lengths are those of the lent memory.
        told(unsafe {
            with_spec!(
                turning_stock_lines,
                self.spec,
                cells,
                cells_len,
                rings,
                rings_len,
                self.stored,
                &mut lines,
            )
        })?;
        Ok(lines)
    }

    /// Line k of its file, put behind what is there.
    pub(crate) fn line(&self, k: usize, text: &mut Vec<u8>) -> Result<(), Refusal> {
        let (cells, cells_len) = read!(self.cells);
        let (rings, rings_len) = read!(self.rings);
        let (mut line, mut len) = ([0; 128], 0);
        // SAFETY: the lengths are those of the lent memory.
        told(unsafe {
            with_spec!(
                turning_stock_line,
                self.spec,
                self.stamp.edition,
                cells,
                cells_len,
                rings,
                rings_len,
                self.stored,
                k,
                &mut line,
                &mut len,
            )
        })?;
        text.extend_from_slice(line.get(..len).unwrap_or(&line));
        Ok(())
    }

    /// Hands the parts of a check over to C. `after` is a stock of the same spec.
    pub(crate) fn parts(&self) -> (&Spec, Stamp, &[Cell], &[[f64; 2]]) {
        (&self.spec, self.stamp, &self.cells, &self.blocks)
    }

    /// The same with the cells, the kept numbers and the generation that a check wrote.
    pub(crate) fn with_cells(
        &self,
        cells: Vec<Cell>,
        blocks: Vec<[f64; 2]>,
        generation: u64,
    ) -> Stock {
        Stock {
            spec: self.spec,
            stamp: Stamp {
                edition: self.stamp.edition,
                generation,
            },
            cells,
            blocks,
            rings: self.rings.clone(),
            stored: self.stored,
        }
    }
}

/// The same bar, stamp, cells and rings.
impl PartialEq for Stock {
    fn eq(&self, other: &Stock) -> bool {
        self.spec == other.spec
            && self.stamp == other.stamp
            && self.cells == other.cells
            && self.rings() == other.rings()
    }
}

fn placed(number: u32, position: usize) -> Result<(), Refusal> {
    match number {
        0 => Ok(()),
        number => Err(Refusal::at(number, position)),
    }
}

fn material(found: u32, bore: f64, outer: f64) -> Option<Material> {
    (found != 0).then_some(Material {
        bore_lower_mm: bore,
        outer_upper_mm: outer,
    })
}
