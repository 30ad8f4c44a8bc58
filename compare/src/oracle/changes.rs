//! Commit and difference.
use super::ranges::{blocks, kept};
use super::stock::{
    Bar, bar, camlib_stock, cells, change_from_camlib, change_to_camlib, fits, from_camlib,
};
use super::{ADDS, AFTER, GENERATION, HOLDS_OTHER, NO_BIN, RISING, ROOM, STALE, demand, demand_at};
use crate::call::{Answer, Change, List, Outcome, Reason, Room, Spec, Stamp};

/// 19: the list carries the stock's two numbers.
pub fn of_this_stock(stamp: Stamp, list: &List) -> Result<(), Reason> {
    let Stamp {
        edition,
        generation,
    } = list.stamp;
    demand(edition == stamp.edition, STALE)?;
    demand(generation == stamp.generation, STALE)
}

/// 6: no more changes than are lent.
pub fn lent_changes(list: &List) -> Result<Vec<Change>, Reason> {
    let lent = list.indices.len().min(list.records.len() / 8);
    demand(list.changes <= lent, ROOM)?;
    let (records, _) = list.records.as_chunks::<8>();
    let pairs = list.indices.iter().zip(records).take(list.changes);
    let change = |(index, record): (&usize, &[f64; 8])| Change {
        index: *index,
        before: record[..4].try_into().unwrap(),
        after: record[4..].try_into().unwrap(),
    };
    Ok(pairs.map(change).collect())
}

/// 7 over the whole list, at the later of the first pair that does not rise; then change by change 8,
/// 21, 22, 23.
pub fn acceptable(bar: &Bar, cells: &[[f64; 4]], changes: &[Change]) -> Result<(), Reason> {
    for (k, w) in changes.windows(2).enumerate() {
        demand_at(w[0].index < w[1].index, RISING, k + 1)?;
    }
    for (k, c) in changes.iter().enumerate() {
        demand_at(fits(bar, &c.after), AFTER, k)?;
        demand_at(c.index < bar.n, NO_BIN, k)?;
        // As numbers: -0.0 is 0.0, and nothing is equal to what is no number.
        demand_at(cells[c.index] == c.before, HOLDS_OTHER, k)?;
        let removes = c.after[0] <= c.before[0]
            && c.after[1] <= c.before[1]
            && c.after[2] >= c.before[2]
            && c.after[3] >= c.before[3];
        demand_at(removes, ADDS, k)?;
    }
    Ok(())
}

/// 1, 2, 3, 19, 20, 6, 7, 8/21/22/23, 12.
pub fn apply(spec: &Spec, stamp: Stamp, lent: &[f64], lent_blocks: &[f64], list: &List) -> Outcome {
    let bar = bar(spec)?;
    let cells = cells(&bar, lent)?;
    of_this_stock(stamp, list)?;
    kept(&bar, &cells, lent_blocks)?;
    let changes = lent_changes(list)?;
    acceptable(&bar, &cells, &changes)?;
    demand(stamp.generation < u64::MAX, GENERATION)?;
    let mut stock = camlib_stock(&bar, &cells, &[]);
    let changes: Vec<_> = changes.iter().map(change_to_camlib).collect();
    stock.apply(&changes).unwrap();
    let cells: Vec<_> = stock.cells().iter().map(from_camlib).collect();
    let renewed = blocks(&bar, &cells);
    let generation = stamp.generation + stock.generation();
    Ok(Answer::Stock(cells, renewed, vec![], generation, vec![]))
}

/// 1, 2, 3 for both stocks, 6.
pub fn changes_to(
    spec: &Spec,
    lent: &[f64],
    after: &[f64],
    room: Room,
) -> Result<Vec<Change>, Reason> {
    let bar = bar(spec)?;
    let before = cells(&bar, lent)?;
    let after = cells(&bar, after)?;
    let stock = camlib_stock(&bar, &before, &[]);
    let changes = stock.changes_to(&camlib_stock(&bar, &after, &[]));
    demand(changes.len() <= room.changes(), ROOM)?;
    Ok(changes.iter().map(change_from_camlib).collect())
}
