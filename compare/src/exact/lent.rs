//! Cuts through the library, each on a fresh bar: the cells that it leaves.
use crate::call::Spec;
use crate::library::c;
use crate::oracle::stock::Bar;

/// A cut, as it is handed over. A side is 0 outside, 1 inside.
#[derive(Clone, Debug)]
pub enum Cut {
    /// A nose's radius, and segments: r and z of both ends, the sag.
    Nose(u32, f64, Vec<[f64; 5]>),
    /// An excess, and points: z and r.
    Polygon(u32, f64, Vec<[f64; 2]>),
    /// Two heights and a radius.
    Thread(u32, [f64; 3]),
    /// A tip, a radius and the height of a point.
    Drill([f64; 3]),
}

impl Cut {
    /// Its numbers; of many segments the first and the last.
    pub fn told(&self) -> String {
        match self {
            Cut::Nose(side, rn, all) if all.len() > 4 => {
                let (first, last) = (all[0], all[all.len() - 1]);
                format!(
                    "Nose({side}, {rn:?}, {} segments, {first:?} to {last:?})",
                    all.len()
                )
            }
            _ => format!("{self:?}"),
        }
    }

    pub fn is_inside(&self) -> bool {
        !matches!(
            self,
            Cut::Nose(0, ..) | Cut::Polygon(0, ..) | Cut::Thread(0, _)
        )
    }
}

/// The ends of a bin, by the library.
pub fn bin(spec: &Spec, i: usize) -> [f64; 2] {
    let [mut za, mut zb] = [0.; 2];
    // SAFETY: both pointers are to one number.
    let number = unsafe {
        c::turning_bin(
            spec.z_min,
            spec.z_max,
            spec.outer,
            spec.bore,
            spec.cell,
            spec.max_cells,
            i,
            &mut za,
            &mut zb,
        )
    };
    assert_eq!(number, 0, "{spec:?} {i}");
    [za, zb]
}

/// The cells of a fresh bar after the cut.
pub fn cells_after(bar: &Bar, cut: &Cut) -> Vec<[f64; 4]> {
    let spec = &bar.spec;
    let fresh = [spec.outer, spec.outer, spec.bore, spec.bore];
    let mut cells = vec![fresh; bar.n];
    let (mut indices, mut records) = (vec![0_usize; bar.n], vec![[[0_f64; 4]; 2]; bar.n]);
    let (mut count, mut edition, mut generation) = (0, 0, 0);
    let (lent, lent_len) = (cells.as_flattened().as_ptr(), 4 * bar.n);
    let rows = records.as_flattened_mut().as_flattened_mut().as_mut_ptr();
    macro_rules! call {
        ($name:ident, $($argument:expr),*) => {
            // SAFETY: each pointer is to as many numbers as are said.
            unsafe {
                c::$name(
                    spec.z_min, spec.z_max, spec.outer, spec.bore, spec.cell, spec.max_cells, 0, 0, lent, lent_len,
                    $($argument),*, indices.as_mut_ptr(), bar.n, rows, 8 * bar.n, &mut count, &mut edition,
                    &mut generation,
                )
            }
        };
    }
    let number = match cut {
        Cut::Nose(side, rn, segments) => {
            let flat = segments.as_flattened();
            call!(turning_preview, *side, *rn, flat.as_ptr(), flat.len())
        }
        Cut::Polygon(side, excess, points) => {
            let flat = points.as_flattened();
            call!(
                turning_preview_polygon,
                *side,
                *excess,
                flat.as_ptr(),
                flat.len()
            )
        }
        Cut::Thread(0, [z0, z1, r]) => call!(turning_thread_cut, *z0, *z1, *r),
        Cut::Thread(_, [z0, z1, r]) => call!(turning_thread_cut_inner, *z0, *z1, *r),
        Cut::Drill([tip, r, cone]) => call!(turning_drill, *tip, *r, *cone),
    };
    assert_eq!(number, 0, "{spec:?} {cut:?}");
    for k in 0..count {
        cells[indices[k]] = records[k][1];
    }
    cells
}

/// The chords of an arc: r, z and bulge of its first point, r and z of its last; none where it is refused.
pub fn chords(first: [f64; 3], last: [f64; 2], tolerance: f64) -> Vec<[f64; 5]> {
    let points = [first[0], first[1], first[2], last[0], last[1], 0.];
    let mut chords = vec![[0.; 5]; 1024];
    let mut count = 0;
    let flat = chords.as_flattened_mut();
    // SAFETY: each pointer is to as many numbers as are said.
    let number = unsafe {
        c::turning_segments(
            points.as_ptr(),
            6,
            tolerance,
            flat.as_mut_ptr(),
            flat.len(),
            &mut count,
        )
    };
    chords.truncate(if number == 0 { count } else { 0 });
    chords
}

/// The least and the greatest volume of these cells and rings.
pub fn volume(bar: &Bar, cells: &[[f64; 4]], rings: &[[f64; 4]]) -> [f64; 2] {
    let spec = &bar.spec;
    let (flat, stored) = (cells.as_flattened(), rings.as_flattened());
    let [mut least, mut greatest] = [0.; 2];
    // SAFETY: each pointer is to as many numbers as are said.
    let number = unsafe {
        c::turning_volume(
            spec.z_min,
            spec.z_max,
            spec.outer,
            spec.bore,
            spec.cell,
            spec.max_cells,
            flat.as_ptr(),
            flat.len(),
            stored.as_ptr(),
            stored.len(),
            rings.len(),
            &mut least,
            &mut greatest,
        )
    };
    assert_eq!(number, 0, "{spec:?} {rings:?}");
    [least, greatest]
}
