//! The inputs of a call of turning.h, and what an accepted call answers.

/// A stock's spec.
#[derive(Clone, Copy, Debug, PartialEq)]
pub struct Spec {
    pub z_min: f64,
    pub z_max: f64,
    pub outer: f64,
    pub bore: f64,
    pub cell: f64,
    pub max_cells: usize,
}

/// What a stock and a change list carry: an edition and a generation (Req 08 of 02).
#[derive(Clone, Copy, Debug, Default, PartialEq)]
pub struct Stamp {
    pub edition: u32,
    pub generation: u64,
}

/// Room for changes: how many indices and how many record numbers are lent.
#[derive(Clone, Copy, Debug)]
pub struct Room {
    pub indices: usize,
    pub records: usize,
}

impl Room {
    /// How many changes it holds.
    pub fn changes(self) -> usize {
        self.indices.min(self.records / 8)
    }
}

/// Room for passes: how many kinds, numbers and numbers of parts are lent.
#[derive(Clone, Copy, Debug)]
pub struct PassRoom {
    pub kinds: usize,
    pub numbers: usize,
    pub parts: usize,
}

impl PassRoom {
    /// How many passes it holds.
    pub fn passes(self) -> usize {
        self.kinds.min(self.numbers / 6).min(self.parts / 2)
    }
}

/// A lent change list: 8 numbers in `records` for each index; and the stamp of the stock that it is for.
#[derive(Clone, Debug, Default)]
pub struct List {
    pub indices: Vec<usize>,
    pub records: Vec<f64>,
    pub changes: usize,
    pub stamp: Stamp,
}

/// Lent rings: the numbers lent, and how many rings of them are stored.
#[derive(Clone, Debug, Default)]
pub struct Store {
    pub rings: Vec<f64>,
    pub count: usize,
}

/// Proposed cuts as they are lent: one kind a cut, six numbers, and two of a part of the lists beside them, its first number
/// and how many (Req 13 of 02). 0 line, 1 thread, 2 nose, 3 polygon, outside; 4 to 7 the same inside; 8 drill; 9 arc.
#[derive(Clone, Debug, Default, PartialEq)]
pub struct Passes {
    pub kinds: Vec<u32>,
    pub numbers: Vec<f64>,
    pub parts: Vec<usize>,
    pub lists: Vec<f64>,
}

impl Passes {
    /// Number j of cut k; no number where they do not reach.
    pub fn number(&self, k: usize, j: usize) -> f64 {
        self.numbers.get(6 * k + j).copied().unwrap_or(f64::NAN)
    }
    /// The part of cut k, where it has one that lies in the lists.
    pub fn part(&self, k: usize) -> Option<&[f64]> {
        let (start, count) = (*self.parts.get(2 * k)?, *self.parts.get(2 * k + 1)?);
        self.lists.get(start..)?.get(..count)
    }
    /// One more cut, with what stands beside it at the end of the lists.
    pub fn push(&mut self, kind: u32, numbers: [f64; 6], beside: &[f64]) {
        self.kinds.push(kind);
        self.numbers.extend(numbers);
        self.parts.extend([self.lists.len(), beside.len()]);
        self.lists.extend(beside);
    }
}

/// A change of a cell.
#[derive(Clone, Copy, Debug, PartialEq)]
pub struct Change {
    pub index: usize,
    pub before: [f64; 4],
    pub after: [f64; 4],
}

/// The single cuts that have no list of points.
#[derive(Clone, Copy, Debug)]
pub enum Simple {
    ThreadCut { z0: f64, z1: f64, radius: f64 },
    ThreadCutInner { z0: f64, z1: f64, radius: f64 },
    Drill { tip_z: f64, radius: f64, cone: f64 },
}

/// A call, `turning_` left off its name. Cells, kept numbers of blocks, segments, points and rings are flat,
/// as lent. The stamp of `New` and of `FromParts` has the edition of the stock that is made, and what the
/// place for its generation holds before.
#[rustfmt::skip]
#[derive(Clone, Debug)]
pub enum Call {
    Root { x: f64 },
    Length { x: f64, y: f64 },
    Validate { spec: Spec },
    Bin { spec: Spec, i: usize },
    New { spec: Spec, stamp: Stamp, cells_len: usize, blocks_len: usize },
    Preview { spec: Spec, stamp: Stamp, cells: Vec<f64>, side: u32, rn: f64, segments: Vec<f64>, room: Room },
    PreviewPolygon { spec: Spec, stamp: Stamp, cells: Vec<f64>, side: u32, excess: f64, points: Vec<f64>, room: Room },
    Cut { spec: Spec, stamp: Stamp, cells: Vec<f64>, cut: Simple, room: Room },
    Apply { spec: Spec, stamp: Stamp, cells: Vec<f64>, blocks: Vec<f64>, list: List },
    ChangesTo { spec: Spec, stamp: Stamp, cells: Vec<f64>, after: Vec<f64>, room: Room },
    RemoveRing { spec: Spec, store: Store, generation: u64, ring: [f64; 4] },
    ApplyMove { spec: Spec, stamp: Stamp, cells: Vec<f64>, blocks: Vec<f64>, store: Store, list: List, removed: Vec<f64> },
    FromParts { spec: Spec, stamp: Stamp, cells: Vec<f64>, blocks: Vec<f64>, given: Vec<f64>, rings_len: usize },
    Renew { spec: Spec, cells: Vec<f64>, blocks: Vec<f64> },
    Volume { spec: Spec, cells: Vec<f64>, store: Store },
    EnvelopeAt { spec: Spec, cells: Vec<f64>, z: f64 },
    Range { spec: Spec, cells: Vec<f64>, blocks: Vec<f64>, lo: f64, hi: f64 },
    EnvelopeOrder { points: Vec<f64> },
    Within { points: Vec<f64>, lo: f64, hi: f64 },
    RadiusAt { points: Vec<f64>, u: f64 },
    RadiusRange { points: Vec<f64>, lo: f64, hi: f64 },
    Segments { points: Vec<f64>, tolerance: f64, segments_len: usize },
    Excess { points: Vec<f64>, polygon: Vec<f64>, tolerance: f64 },
    Penetration { points: Vec<f64>, polygon: Vec<f64>, tolerance: f64 },
    Eroded { points: Vec<f64>, u: f64, tolerance: f64 },
    CheckPasses {
        spec: Spec, stamp: Stamp, cells: Vec<f64>, blocks: Vec<f64>, targets: Vec<f64>, passes: Passes,
        after_len: usize, after_blocks_len: usize,
    },
    ProposePasses { spec: Spec, cells: Vec<f64>, targets: Vec<f64>, rn: f64, room: PassRoom },
}

impl Call {
    pub fn name(&self) -> &'static str {
        match self {
            Call::Root { .. } => "root",
            Call::Length { .. } => "length",
            Call::Validate { .. } => "validate",
            Call::Bin { .. } => "bin",
            Call::New { .. } => "new",
            Call::Preview { .. } => "preview",
            Call::PreviewPolygon { .. } => "preview_polygon",
            Call::Cut { cut, .. } => match cut {
                Simple::ThreadCut { .. } => "thread_cut",
                Simple::ThreadCutInner { .. } => "thread_cut_inner",
                Simple::Drill { .. } => "drill",
            },
            Call::Apply { .. } => "apply",
            Call::ChangesTo { .. } => "changes_to",
            Call::RemoveRing { .. } => "remove_ring",
            Call::ApplyMove { .. } => "apply_move",
            Call::FromParts { .. } => "from_parts",
            Call::Renew { .. } => "renew",
            Call::Volume { .. } => "volume",
            Call::EnvelopeAt { .. } => "envelope_at",
            Call::Range { .. } => "range",
            Call::EnvelopeOrder { .. } => "envelope_order",
            Call::Within { .. } => "within",
            Call::RadiusAt { .. } => "radius_at",
            Call::RadiusRange { .. } => "radius_range",
            Call::Segments { .. } => "segments",
            Call::Excess { .. } => "excess",
            Call::Penetration { .. } => "penetration",
            Call::Eroded { .. } => "eroded",
            Call::CheckPasses { .. } => "check_passes",
            Call::ProposePasses { .. } => "propose_passes",
        }
    }
}

/// What an accepted call answers.
#[derive(Clone, Debug, PartialEq)]
pub enum Answer {
    /// A root or a length.
    Number(f64),
    /// How many bins.
    Bins(usize),
    /// A bin's range.
    Range(f64, f64),
    /// The changes of a preview or a difference, and the stamp that they carry.
    Changes(Vec<Change>, Stamp),
    /// The cells, the kept numbers of their blocks, the rings stored and the generation, of which a call
    /// has what it lends; and of each ring taken the tests of a piece against a stored ring (Req 14 of 02).
    Stock(Vec<[f64; 4]>, Vec<f64>, Vec<[f64; 4]>, u64, Vec<usize>),
    /// The kept numbers of the blocks.
    Blocks(Vec<f64>),
    /// The least and the greatest volume.
    Volume(f64, f64),
    /// What a query found, or none.
    Found(Option<Vec<f64>>),
    /// The order of an envelope's points.
    Order(i32),
    /// A part of the points: its first and how many.
    Part(usize, usize),
    /// The chords of a profile.
    Chords(Vec<[f64; 5]>),
    /// A verdict on proposed cuts; the cells and the kept numbers of the stock that is handed back, and its generation.
    Checked(Verdict, Vec<[f64; 4]>, Vec<f64>, u64),
    /// Proposed passes: the six numbers of a line each.
    Passes(Vec<[f64; 6]>),
}

/// Yes, or the first cut that is refused and its number, or the first bin that does not meet its target.
#[derive(Clone, Copy, Debug, PartialEq)]
pub enum Verdict {
    Yes,
    Cut(usize, u32),
    Bin(usize),
}

/// Why a call is refused: the number of document 01 or 02, and the position, from 0, of what offends in
/// its list, where the number has one (Req 04 of 02).
#[derive(Clone, Copy, Debug, PartialEq)]
pub struct Reason {
    pub number: u32,
    pub place: Option<usize>,
}

impl Reason {
    pub fn only(number: u32) -> Self {
        let place = None;
        Self { number, place }
    }
    pub fn at(number: u32, place: usize) -> Self {
        let place = Some(place);
        Self { number, place }
    }
}

/// An answer, or why there is none.
pub type Outcome = Result<Answer, Reason>;
