//! Previews: 1, 2, 3, 5, 6. No call of turning.h takes an arc, so none answers 13.
use super::stock::{Bar, bar, camlib_stock, cells, change_from_camlib};
use super::{ARGUMENT, MOST_POINTS, MOST_SEGMENTS, ROOM, clean, demand, usable};
use crate::call::{Change, Reason, Room, Simple, Spec};
use length::turning::stock as camlib_length;
use plain::turning::stock as camlib;

/// 6, and the changes as they are stored.
fn within_room(changes: Vec<Change>, room: Room) -> Result<Vec<Change>, Reason> {
    demand(changes.len() <= room.changes(), ROOM)?;
    Ok(changes)
}

fn listed(changes: &[camlib::TurnChange]) -> Vec<Change> {
    changes.iter().map(change_from_camlib).collect()
}

/// Threads and the drill.
pub fn simple(spec: &Spec, lent: &[f64], cut: Simple, room: Room) -> Result<Vec<Change>, Reason> {
    let bar = bar(spec)?;
    let cells = cells(&bar, lent)?;
    let stock = camlib_stock(&bar, &cells, &[]);
    let changes = match cut {
        Simple::ThreadCut { z0, z1, radius } => {
            let [z0, z1, radius] = thread(z0, z1, radius)?;
            stock.thread_cut(z0, z1, radius)
        }
        Simple::ThreadCutInner { z0, z1, radius } => {
            let [z0, z1, radius] = thread(z0, z1, radius)?;
            stock.thread_cut_inner(z0, z1, radius)
        }
        Simple::Drill {
            tip_z,
            radius,
            cone,
        } => {
            demand([tip_z, radius, cone].into_iter().all(usable), ARGUMENT)?;
            demand(radius > 0., ARGUMENT)?;
            stock.drill(clean(tip_z), radius, clean(cone))
        }
    };
    within_room(listed(&changes), room)
}

/// 5 for a thread; its numbers as they are read.
pub fn thread(z0: f64, z1: f64, radius: f64) -> Result<[f64; 3], Reason> {
    let numbers = [z0, z1, radius];
    demand(numbers.into_iter().all(usable), ARGUMENT)?;
    demand(radius >= 0., ARGUMENT)?;
    Ok(numbers.map(clean))
}

/// 5 for a polygon's excess and points; both as they are read.
pub fn polygon_numbers(excess: f64, points: &[f64]) -> Result<(f64, Vec<[f64; 2]>), Reason> {
    demand(points.len().is_multiple_of(2), ARGUMENT)?;
    demand(points.len() / 2 <= MOST_POINTS, ARGUMENT)?;
    demand(points.iter().all(|x| usable(*x)), ARGUMENT)?;
    demand(usable(excess) && excess >= 0., ARGUMENT)?;
    let (points, _) = points.as_chunks::<2>();
    Ok((clean(excess), points.iter().map(|p| p.map(clean)).collect()))
}

/// A segment: both ends in (r, z), and its sag.
pub type Segment = ([f64; 2], [f64; 2], f64);

/// 5 for a nose's radius and segments; both as they are read.
pub fn nose_numbers(rn: f64, segments: &[f64]) -> Result<(f64, Vec<Segment>), Reason> {
    demand(segments.len().is_multiple_of(5), ARGUMENT)?;
    demand(segments.len() / 5 <= MOST_SEGMENTS, ARGUMENT)?;
    demand(segments.iter().all(|x| usable(*x)), ARGUMENT)?;
    let (segments, _) = segments.as_chunks::<5>();
    demand(segments.iter().all(|s| s[4] >= 0.), ARGUMENT)?;
    demand(usable(rn) && rn >= 0., ARGUMENT)?;
    Ok((clean(rn), segments.iter().map(segment).collect()))
}

/// A polygon in (z, r).
pub fn polygon(
    spec: &Spec,
    lent: &[f64],
    side: u32,
    excess: f64,
    points: &[f64],
    room: Room,
) -> Result<Vec<Change>, Reason> {
    let bar = bar(spec)?;
    let cells = cells(&bar, lent)?;
    let (excess, points) = polygon_numbers(excess, points)?;
    let side = match side {
        0 => camlib::TurnSide::Outer,
        1 => camlib::TurnSide::Inner,
        _ => return Err(Reason::only(ARGUMENT)),
    };
    let stock = camlib_stock(&bar, &cells, &[]);
    let changes = stock.preview_polygon(&points, side, excess);
    within_room(listed(&changes), room)
}

/// A nose along segments (a radius, a z, b radius, b z, sag), by camlib with 01's length.
pub fn nose(
    spec: &Spec,
    lent: &[f64],
    side: u32,
    rn: f64,
    segments: &[f64],
    room: Room,
) -> Result<Vec<Change>, Reason> {
    let bar = bar(spec)?;
    let cells = cells(&bar, lent)?;
    let (rn, segments) = nose_numbers(rn, segments)?;
    let side = match side {
        0 => camlib_length::TurnSide::Outer,
        1 => camlib_length::TurnSide::Inner,
        _ => return Err(Reason::only(ARGUMENT)),
    };
    let stock = stock_with_length(&bar, &cells);
    let changes = stock.preview_segments(&segments, rn, side).unwrap();
    let changes = changes.iter().map(change_with_length).collect();
    within_room(changes, room)
}

/// camlib's form of a segment.
pub fn segment(numbers: &[f64; 5]) -> Segment {
    let [a_r, a_z, b_r, b_z, sag] = numbers.map(clean);
    ([a_r, a_z], [b_r, b_z], sag)
}

/// A change by the camlib that has 01's length, as it is stored.
pub fn change_with_length(change: &camlib_length::TurnChange) -> Change {
    let cell = |c: &camlib_length::TurnCell| {
        [
            c.outer.lower_mm,
            c.outer.upper_mm,
            c.inner.lower_mm,
            c.inner.upper_mm,
        ]
        .map(clean)
    };
    Change {
        index: change.index,
        before: cell(&change.before),
        after: cell(&change.after),
    }
}

/// The stock of the camlib that has 01's length.
pub fn stock_with_length(bar: &Bar, cells: &[[f64; 4]]) -> camlib_length::TurnStock {
    let bounds = |lower_mm, upper_mm| camlib_length::RadiusBounds { lower_mm, upper_mm };
    let cells = cells.iter().map(|c| camlib_length::TurnCell {
        outer: bounds(c[0], c[1]),
        inner: bounds(c[2], c[3]),
    });
    let spec = camlib_length::TurnStockSpec {
        version: 1,
        units: "mm".into(),
        z_min_mm: bar.spec.z_min,
        z_max_mm: bar.spec.z_max,
        outer_radius_mm: bar.spec.outer,
        bore_radius_mm: bar.spec.bore,
        cell_mm: bar.spec.cell,
        max_cells: bar.spec.max_cells,
    };
    camlib_length::TurnStock::from_parts(spec, cells.collect(), vec![]).unwrap()
}
