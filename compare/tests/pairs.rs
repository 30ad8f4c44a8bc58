//! What differs between two stock files, over camlib: 02's own cases, and those of the gate.
use compare::call::Spec;
use compare::files::form::lines;
use compare::pairs::oracle::{differences, text, told};
use std::fs;
use std::path::{Path, PathBuf};

fn cases() -> PathBuf {
    Path::new(env!("CARGO_MANIFEST_DIR")).join("../crates/test_side_by_side")
}

/// The bytes of a file of the gate; one that cannot be read has none.
fn bytes(name: &str) -> Vec<u8> {
    fs::read(cases().join("data").join(name)).unwrap_or_default()
}

fn compared(first: &[u8], second: &[u8]) -> String {
    text(&differences(&told(first), &told(second)))
}

/// A file of the bar 0..300, 0..10, one bin, with the rings.
fn with_rings(rings: &[[f64; 4]]) -> Vec<u8> {
    let digits = |numbers: &[f64]| -> String {
        let fields = numbers.iter().map(|x| format!("\t{:016X}", x.to_bits()));
        fields.collect()
    };
    let mut file = format!("stock\t1{}\n", digits(&[0., 300., 10., 0., 300.]));
    file += &format!("cell\t0000{}\n", digits(&[10., 10., 0., 0.]));
    for ring in rings {
        file += &format!("ring{}\n", digits(ring));
    }
    file += &format!("end\t{}\n", rings.len() + 2);
    file.into_bytes()
}

fn islands(count: usize) -> Vec<u8> {
    let island = |i: usize| [3. * i as f64 + 1., 3. * i as f64 + 2., 4., 5.];
    with_rings(&(0..count).map(island).collect::<Vec<_>>())
}

#[test]
fn the_gates_pairs_are_those_of_camlib() {
    let args = fs::read_to_string(cases().join("args")).unwrap();
    let names: Vec<&str> = args.lines().collect();
    let mut wanted = String::new();
    for pair in names.chunks_exact(2) {
        wanted += &format!("{} {}\n", pair[0], pair[1]);
        wanted += &compared(&bytes(pair[0]), &bytes(pair[1]));
    }
    for n in [4096, 4097] {
        wanted += &long_pair(n);
    }
    assert_eq!(fs::read_to_string(cases().join("stdout")).unwrap(), wanted);
}

/// What the gate's program writes of two stocks that it makes itself: the lines of the first and of the last bin.
fn long_pair(n: usize) -> String {
    let file = |x: f64| {
        let spec = Spec {
            z_min: 0.,
            z_max: n as f64,
            outer: 10.,
            bore: 0.,
            cell: 1.,
            max_cells: n,
        };
        lines(&spec, 0, &vec![[x; 4]; n], &[]).concat().into_bytes()
    };
    let text = compared(&file(1.), &file(2.));
    let lines: Vec<&str> = text.lines().collect();
    assert_eq!(lines.len(), 2 * n);
    let shown = [&lines[..2], &lines[2 * n - 2..]].concat().join("\n");
    format!("bins {n}\n{shown}\n")
}

/// Every bin of the longest bars is told, with five digits.
#[test]
fn all_bins_of_the_longest_bars_are_told() {
    let shown = long_pair(16384);
    let last = shown.lines().last().unwrap();
    assert!(last.starts_with("cell\t16383\t4000000000000000\t"));
}

#[test]
fn pieces_in_hand_are_256_at_most() {
    let whole = with_rings(&[[0., 300., 0., 10.]]);
    let most = islands(85);
    assert_eq!(compared(&whole, &most).lines().count(), 256);
    assert_eq!(compared(&most, &whole).lines().count(), 256);
    for pair in [[&whole, &islands(86)], [&islands(86), &whole]] {
        assert_eq!(compared(pair[0], pair[1]), "refused\t11\n");
    }
}

#[test]
fn rings_cut_again_are_no_difference() {
    let whole = with_rings(&[[0., 300., 0., 10.]]);
    let cut = with_rings(&[[7., 300., 0., 10.], [0., 7., 3., 10.], [0., 7., 0., 3.]]);
    assert_eq!(compared(&whole, &cut), "");
    assert_eq!(compared(&cut, &whole), "");
    assert_eq!(compared(&cut, b"stock"), "refused\t2\t1\t16\n");
}
