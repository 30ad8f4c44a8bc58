//! Volume and `envelope_at`.
use super::clean;
use super::rings::stored;
use super::stock::{bar, camlib_stock, cells};
use crate::call::{Reason, Spec, Store};

/// 1, 2, 3, 4: the least and the greatest remaining volume.
pub fn volume(spec: &Spec, lent: &[f64], store: &Store) -> Result<[f64; 2], Reason> {
    let bar = bar(spec)?;
    let cells = cells(&bar, lent)?;
    let rings = stored(&bar, store)?;
    Ok(camlib_stock(&bar, &cells, &rings).volume().map(clean))
}

/// 1, 2, 3; z may be anything.
pub fn envelope_at(spec: &Spec, lent: &[f64], z: f64) -> Result<Option<Vec<f64>>, Reason> {
    let bar = bar(spec)?;
    let cells = cells(&bar, lent)?;
    let stock = camlib_stock(&bar, &cells, &[]);
    let z = clean(z);
    let own = stock.envelope_at(z);
    let most = most_at(&bar.spec, bar.n, z, own, |i| stock.bin(i), |i| cells[i]);
    Ok(most)
}

/// Of the bin of z, and of a neighbour on either side whose closed range holds z, those that hold
/// material: the least bore and the greatest outer radius. Where no neighbour holds z it is what
/// camlib answers of the bin of z alone.
pub fn most_at(
    spec: &Spec,
    n: usize,
    z: f64,
    own: Option<(f64, f64)>,
    bin: impl Fn(usize) -> [f64; 2],
    cell: impl Fn(usize) -> [f64; 4],
) -> Option<Vec<f64>> {
    if !(spec.z_min <= z && z <= spec.z_max) {
        assert_eq!(own, None);
        return None;
    }
    let (first, last) = looked(spec, n, z, bin);
    if first == last {
        return own.map(|(bore, outer)| vec![clean(bore), clean(outer)]);
    }
    walk((first..=last).map(cell))
}

/// The first and the last bin that are looked at for a z within the stock: the bin of z, and a
/// neighbour on either side whose closed range holds z.
pub fn looked(spec: &Spec, n: usize, z: f64, bin: impl Fn(usize) -> [f64; 2]) -> (usize, usize) {
    let i = (((z - spec.z_min) / spec.cell) as usize).min(n - 1);
    let holds = |j: usize| bin(j)[0] <= z && z <= bin(j)[1];
    let before = i > 0 && holds(i - 1);
    let behind = i + 1 < n && holds(i + 1);
    (i - before as usize, i + behind as usize)
}

/// Of the cells that hold material the least bore and the greatest outer radius.
pub fn walk(cells: impl Iterator<Item = [f64; 4]>) -> Option<Vec<f64>> {
    let mut most: Option<Vec<f64>> = None;
    for [_, outer, bore, _] in cells {
        if outer > bore {
            let [b, o] = most.map_or([bore, outer], |m| [m[0], m[1]]);
            most = Some(vec![b.min(bore), o.max(outer)]);
        }
    }
    most
}
