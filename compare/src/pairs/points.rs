//! Points at all edges of two stores: how many written rings cover each.
use super::oracle::{Ring, Told};
use crate::generate::Rng;

/// So many points of one pair at most; of more, as many are drawn.
const MOST: usize = 1024;

fn covers(ring: &Ring, [z, r]: [f64; 2]) -> bool {
    ring[0] <= z && z < ring[1] && ring[2] <= r && r < ring[3]
}

fn covered(rings: &[Ring], point: [f64; 2]) -> usize {
    rings.iter().filter(|ring| covers(ring, point)).count()
}

/// The rings of ring lines.
fn rings_of(lines: &str) -> Vec<Ring> {
    let number = |field: &str| f64::from_bits(u64::from_str_radix(field, 16).unwrap());
    let ring = |line: &str| -> Option<Ring> {
        let fields = line.strip_prefix("ring\t")?.split('\t');
        let numbers: Vec<f64> = fields.map(number).collect();
        numbers.try_into().ok()
    };
    lines.lines().filter_map(ring).collect()
}

/// Each edge once, rising.
fn edges(rings: &[&Ring], from: usize) -> Vec<f64> {
    let mut edges: Vec<f64> = rings.iter().flat_map(|r| [r[from], r[from + 1]]).collect();
    edges.sort_by(f64::total_cmp);
    edges.dedup();
    edges
}

/// All points where edges cross, or as many drawn as are taken of one pair.
fn crossings(rng: &mut Rng, z: &[f64], r: &[f64]) -> Vec<[f64; 2]> {
    if z.len() * r.len() > MOST {
        return (0..MOST).map(|_| [rng.pick(z), rng.pick(r)]).collect();
    }
    z.iter().flat_map(|z| r.iter().map(|r| [*z, *r])).collect()
}

/// How many points were looked at. Each is covered by one written ring where exactly one of the stores covers it, else by none;
/// and no ring of what the first store alone covers stands behind one of what the second alone covers.
pub fn counted(rng: &mut Rng, first: &Told, second: &Told, written: &str) -> Result<usize, String> {
    let written = rings_of(written);
    let all: Vec<&Ring> = first.rings.iter().chain(&second.rings).collect();
    let points = crossings(rng, &edges(&all, 0), &edges(&all, 2));
    for point in &points {
        let either = [&first.rings, &second.rings].map(|rings| covered(rings, *point));
        let wanted = (either[0] != either[1]) as usize;
        let found = covered(&written, *point);
        if found != wanted || either.iter().any(|n| *n > 1) {
            return Err(format!(
                "{found} written rings cover {point:?}, the stores {either:?}"
            ));
        }
    }
    let corner = |ring: &Ring| covered(&first.rings, [ring[0], ring[2]]);
    if !written.is_sorted_by_key(|ring| 1 - corner(ring)) {
        return Err("a ring of the first behind one of the second".into());
    }
    Ok(points.len())
}
