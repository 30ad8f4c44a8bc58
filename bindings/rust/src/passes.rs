//! Cuts that a drawing tool proposes, checked against targets.
use crate::model::{flat, numbers, told, with_spec};
use crate::{c, Cell, Cut, Refusal, Segment, Side, Stock};

/// The two radii between which the outside of a bin is to end.
#[derive(Clone, Copy, Debug, Default, PartialEq)]
#[repr(C)]
pub struct Target {
    /// At least this.
    pub lower_mm: f64,
    /// At most this.
    pub upper_mm: f64,
}

impl From<[f64; 2]> for Target {
    fn from([lower_mm, upper_mm]: [f64; 2]) -> Target {
        Target { lower_mm, upper_mm }
    }
}

/// What a check of cuts says.
#[derive(Clone, Debug, PartialEq)]
pub enum Verdict {
    /// Every cut is accepted, and every bin is within its target: the stock after the cuts.
    Yes(Stock),
    /// This cut is the first that is refused.
    CutFails {
        /// The cut, from 0.
        cut: usize,
        /// Why: 5, 12 or 13.
        reason: Refusal,
    },
    /// The cuts are accepted, and this bin is the first that is not within its target.
    BinFails {
        /// The bin.
        bin: usize,
    },
}

/// The most cuts of one check.
pub const PASS_LIMIT: usize = 128;

/// The kinds of cuts as C has them.
const LINE: u32 = 0;
const THREAD: u32 = 1;
const NOSE: u32 = 2;
const POLYGON: u32 = 3;
const INSIDE: u32 = 4;
const DRILL: u32 = 8;
const ARC: u32 = 9;

/// Cuts as they lie in memory for C.
#[derive(Default)]
struct Flat {
    kinds: Vec<u32>,
    numbers: Vec<[f64; 6]>,
    parts: Vec<[usize; 2]>,
    lists: Vec<f64>,
}

impl Flat {
    fn put(&mut self, kind: u32, numbers: [f64; 6], list: impl IntoIterator<Item = f64>) {
        let start = self.lists.len();
        self.lists.extend(list);
        self.kinds.push(kind);
        self.numbers.push(numbers);
        self.parts.push([start, self.lists.len() - start]);
    }

    fn put_cut(&mut self, cut: &Cut<'_>) {
        let inside = if cut.is_inside() { INSIDE } else { 0 };
        match *cut {
            Cut::Line { rn, segment, .. } => {
                let Segment { a, b, sag } = segment;
                self.put(LINE + inside, [rn, sag, a[0], a[1], b[0], b[1]], []);
            }
            Cut::ThreadCut { z0, z1, radius } | Cut::ThreadCutInner { z0, z1, radius } => {
                self.put(THREAD + inside, [z0, z1, radius, 0.0, 0.0, 0.0], [])
            }
            Cut::Nose { rn, segments, .. } => self.put(
                NOSE + inside,
                [rn, 0.0, 0.0, 0.0, 0.0, 0.0],
                segments
                    .iter()
                    .flat_map(|s| [s.a[0], s.a[1], s.b[0], s.b[1], s.sag]),
            ),
            Cut::Polygon { excess, points, .. } => self.put(
                POLYGON + inside,
                [excess, 0.0, 0.0, 0.0, 0.0, 0.0],
                points.iter().flatten().copied(),
            ),
            Cut::Drill {
                tip_z,
                radius,
                cone,
            } => self.put(DRILL, [tip_z, radius, cone, 0.0, 0.0, 0.0], []),
            Cut::Arc => self.put(ARC, [0.0; 6], []),
        }
    }
}

/// Makes the cuts one after the other on a copy, and says whether every bin then is within its target: one target for each bin, up to
/// 128 outside cuts. A no is no refusal. Refusals: 25. The call takes up to 1.8 MiB of stack, and runs on one of its own.
///
/// ```
/// use turning::{check_passes, propose_passes, Spec, Stock, Target, Verdict};
/// let stock = Stock::new(Spec::new(0.0, 12.0, 30.0, 0.0, 1.0))?;
/// let mut targets = vec![Target { lower_mm: 19.99, upper_mm: 20.01 }; 5];
/// targets.push(Target { lower_mm: 19.5, upper_mm: 30.0 });
/// targets.resize(12, Target { lower_mm: 27.99, upper_mm: 28.01 });
/// let cuts = propose_passes(&stock, &targets, 0.8)?;
/// assert_eq!(cuts.len(), 2);
/// let Verdict::Yes(after) = check_passes(&stock, &targets, &cuts)? else { panic!("not within the targets") };
/// assert_eq!((stock.generation(), after.generation()), (0, 2));
/// assert_eq!(check_passes(&stock, &targets, &cuts[..1])?, Verdict::BinFails { bin: 6 });
/// # Ok::<(), turning::Refusal>(())
/// ```
pub fn check_passes(
    stock: &Stock,
    targets: &[Target],
    cuts: &[Cut<'_>],
) -> Result<Verdict, Refusal> {
    let mut flat_cuts = Flat::default();
    // Of more than the most the number alone is asked.
    for cut in cuts.iter().take(PASS_LIMIT + 1) {
        flat_cuts.put_cut(cut);
    }
    let said = on_own_stack(|| ask_check(stock, targets, &flat_cuts))?;
    Ok(match said.verdict {
        2 => Verdict::CutFails {
            cut: said.place,
            reason: Refusal::of(said.reason),
        },
        3 => Verdict::BinFails { bin: said.place },
        _ => Verdict::Yes(stock.with_cells(said.after, said.blocks, said.generation)),
    })
}

/// What the call of a check writes.
struct Said {
    verdict: u32,
    place: usize,
    reason: u32,
    after: Vec<Cell>,
    blocks: Vec<[f64; 2]>,
    generation: u64,
}

fn ask_check(stock: &Stock, targets: &[Target], cuts: &Flat) -> Result<Said, Refusal> {
    let (spec, stamp, cells, blocks) = stock.parts();
    let mut said = Said {
        verdict: 0,
        place: 0,
        reason: 0,
        after: vec![Cell::default(); cells.len()],
        blocks: vec![[0.0; 2]; blocks.len()],
        generation: 0,
    };
    // SAFETY: the lengths are those of the lent memory, and what is written overlaps nothing.
    told(unsafe {
        with_spec!(
            turning_check_passes,
            spec,
            stamp.edition,
            stamp.generation,
            flat(cells),
            numbers(cells),
            flat(blocks),
            numbers(blocks),
            flat(targets),
            numbers(targets),
            cuts.kinds.as_ptr(),
            cuts.kinds.len(),
            flat(&cuts.numbers),
            numbers(&cuts.numbers),
            cuts.parts.as_ptr().cast(),
            2 * cuts.parts.len(),
            cuts.lists.as_ptr(),
            cuts.lists.len(),
            said.after.as_mut_ptr().cast(),
            numbers(&said.after),
            said.blocks.as_mut_ptr().cast(),
            numbers(&said.blocks),
            &mut said.verdict,
            &mut said.place,
            &mut said.reason,
            &mut said.generation,
        )
    })?;
    Ok(said)
}

/// The stack that a check is given: more than twice what it takes.
const STACK: usize = 4 << 20;

/// Runs a call on a stack of its own, since the one that it is called on may be too small for it: a thread of Rust has 2 MiB. Where no
/// thread is to be had, it runs on the caller's.
fn on_own_stack<T: Send>(call: impl Fn() -> T + Sync) -> T {
    std::thread::scope(|scope| {
        std::thread::Builder::new()
            .stack_size(STACK)
            .spawn_scoped(scope, &call)
            .ok()
            .and_then(|thread| thread.join().ok())
    })
    .unwrap_or_else(call)
}

/// Proposes level straight passes of a nose of radius rn, by rising z, 128 at most. Nothing is said of how good they are:
/// [`check_passes`] tells. Refusals: 25 of the targets, 5 of the radius.
///
/// ```
/// use turning::{propose_passes, Refusal, Spec, Stock, Target};
/// let stock = Stock::new(Spec::new(0.0, 2.0, 30.0, 0.0, 1.0))?;
/// let target = Target { lower_mm: 19.0, upper_mm: 21.0 };
/// assert_eq!(propose_passes(&stock, &[target; 2], 0.8)?.len(), 1);
/// assert_eq!(propose_passes(&stock, &[target; 1], 0.8), Err(Refusal::Passes));
/// # Ok::<(), Refusal>(())
/// ```
pub fn propose_passes(
    stock: &Stock,
    targets: &[Target],
    rn: f64,
) -> Result<Vec<Cut<'static>>, Refusal> {
    let (spec, _, cells, _) = stock.parts();
    let mut kinds = [0; PASS_LIMIT];
    let mut numbers_of = [[0.0f64; 6]; PASS_LIMIT];
    let mut parts = [[0usize; 2]; PASS_LIMIT];
    let mut count = 0;
    // SAFETY: the lengths are those of the lent memory, and what is written overlaps nothing.
    told(unsafe {
        with_spec!(
            turning_propose_passes,
            spec,
            flat(cells),
            numbers(cells),
            flat(targets),
            numbers(targets),
            rn,
            kinds.as_mut_ptr(),
            kinds.len(),
            numbers_of.as_mut_ptr().cast(),
            6 * PASS_LIMIT,
            parts.as_mut_ptr().cast(),
            2 * PASS_LIMIT,
            &mut count,
        )
    })?;
    Ok(numbers_of
        .iter()
        .take(count)
        .map(|&[rn, sag, ar, az, br, bz]| Cut::Line {
            side: Side::Outer,
            rn,
            segment: Segment {
                a: [ar, az],
                b: [br, bz],
                sag,
            },
        })
        .collect())
}
