//! The reader and the writer of stock files that the calls are held against, by the words of Req 06, Req 08 and Req 14.
use compare::call::{Reason, Spec, Store};
use compare::files::form::{MALFORMED, Read, in_form_1, lines};
use compare::files::run::{Reading, Writing};
use compare::oracle::stock::Bar;

const EXAMPLE: &str = "\
stock\t2\t0000000000000000\t4022000000000000\t4024000000000000\t0000000000000000\t4008000000000000\tC0DE0002
cell\t0000\t4010000000000000\t4014000000000000\t0000000000000000\t0000000000000000
cell\t0001\t4010000000000000\t4010000000000000\t0000000000000000\t0000000000000000
cell\t0002\t4010000000000000\t4014000000000000\t0000000000000000\t0000000000000000
ring\t0000000000000000\t4018000000000000\t4000000000000000\t4018000000000000
ring\t4018000000000000\t4022000000000000\t4010000000000000\t4020000000000000
ring\t4008000000000000\t4018000000000000\t4018000000000000\t4020000000000000
end\t7
";

const SPEC: Spec = Spec {
    z_min: 0.,
    z_max: 9.,
    outer: 10.,
    bore: 0.,
    cell: 3.,
    max_cells: 512,
};

fn end(text: &str, cells: usize, rings: usize, most: usize) -> Result<Bar, Reason> {
    let (mut cells, mut rings) = (vec![0; cells], vec![0; rings]);
    let read = Read::bytes(text.as_bytes(), &mut cells, &mut rings);
    read.end(most, &cells, &rings)
}

fn refused(text: &str) -> Option<(u32, Option<usize>)> {
    let reason = end(text, 12, 12, 512).err()?;
    Some((reason.number, reason.place))
}

/// Q after P3 and P11, by 01's own numbers.
#[test]
fn the_example_is_written_and_read() {
    let cells = [[4., 5., 0., 0.], [4., 4., 0., 0.], [4., 5., 0., 0.]];
    let rings = [[0., 6., 2., 6.], [6., 9., 4., 8.], [3., 6., 6., 8.]];
    assert_eq!(lines(&SPEC, 0xC0DE_0002, &cells, &rings).concat(), EXAMPLE);
    let bar = end(EXAMPLE, 12, 12, 512).ok().unwrap();
    assert_eq!((bar.n, bar.spec), (3, SPEC));
    assert_eq!(edition(EXAMPLE), Some(0xC0DE_0002));
}

/// The edition that the first line says, where it is of the form.
fn edition(text: &str) -> Option<u32> {
    let read = Read::bytes(text.as_bytes(), &mut [], &mut []);
    read.first.map(|first| first.edition)
}

/// The example with another first line.
fn with_first(change: impl Fn(&mut Vec<&str>)) -> String {
    let (first, rest) = EXAMPLE.split_once('\n').unwrap();
    let mut fields: Vec<&str> = first.split('\t').collect();
    change(&mut fields);
    format!("{}\n{rest}", fields.join("\t"))
}

/// Form 1 has no edition and is of edition 0; everything else in the place of form or edition is 16 at line 1. Under form 3 an
/// index of four digits is 16 at its line, and so is a ring before there are 4,097 cell lines.
#[test]
fn three_forms_are_read() {
    let older = with_first(|f| {
        f[1] = "1";
        f.pop();
    });
    let (first, _) = EXAMPLE.split_once('\n').unwrap();
    assert!(older.starts_with(&in_form_1(first)));
    assert_eq!((refused(&older), edition(&older)), (None, Some(0)));
    for (text, said) in [
        ("00000000", 0),
        ("FFFFFFFF", u32::MAX),
        ("0000000A", 10),
        ("80000000", 1 << 31),
    ] {
        let file = with_first(|f| f[7] = text);
        assert_eq!((refused(&file), edition(&file)), (None, Some(said)));
    }
    let line_1 = Some((MALFORMED, Some(1)));
    let few = with_first(|f| f[1] = "3");
    let five_digits = few.replace("cell\t", "cell\t0");
    assert_eq!(refused(&few), Some((MALFORMED, Some(2))));
    assert_eq!(refused(&five_digits), Some((MALFORMED, Some(5))));
    assert_eq!(edition(&few), Some(0xC0DE_0002));
    let without = few.replacen("\tC0DE0002", "", 1);
    assert_eq!(refused(&without), line_1);
    for form in ["0", "1", "4", "", "02", "03", "2 ", " 2", "-2", "two"] {
        let file = with_first(|f| f[1] = form);
        assert_eq!(refused(&file), line_1, "form {form:?} with an edition");
        let file = with_first(|f| {
            f[1] = form;
            f.pop();
        });
        let wanted = if form == "1" { None } else { line_1 };
        assert_eq!(refused(&file), wanted, "form {form:?} without one");
    }
    let without = with_first(|f| f.truncate(7));
    assert_eq!(refused(&without), line_1);
    for edition in [
        "",
        "0000000",
        "000000000",
        "c0de0002",
        "C0DE000a",
        "C0DE000G",
        " C0DE002",
        "+C0DE002",
        "C0DE0002\t",
        "C0DE0002\tC0DE0002",
        "C0DE0002\r",
    ] {
        let file = with_first(|f| f[7] = edition);
        assert_eq!(refused(&file), line_1, "edition {edition:?}");
    }
}

/// A reading keeps the edition in its last word, which is read in 32 bits; both forms set it.
#[test]
fn the_last_word_of_a_reading_is_its_edition() {
    let older = in_form_1(EXAMPLE.split_once('\n').unwrap().0);
    for (first, edition) in [(EXAMPLE, 0xC0DE_0002), (&older, 0)] {
        let mut reading = Reading::fresh(12, 12);
        reading.state[7] = 9;
        assert_eq!(reading.take(b"stock"), 0);
        assert_eq!(reading.take(&first.as_bytes()[5..]), 0);
        assert_eq!(reading.state[7], edition);
    }
    let mut reading = Reading::fresh(12, 12);
    assert_eq!(reading.take(EXAMPLE.as_bytes()), 0);
    for word in [0, 7, u32::MAX as u64, 1 << 32, 5 + (1 << 63), u64::MAX] {
        reading.state[7] = word;
        let told = word as u32 as usize;
        assert_eq!(reading.end(3), (0, [Some(3), Some(3), Some(told), None]));
    }
    // a refusal tells none of them
    assert_eq!(reading.end(2), (2, [None; 4]));
}

/// Every cut of the example is 16 at the line that is unfinished or missing.
#[test]
fn a_file_cut_off_is_refused_at_its_next_line() {
    for at in 0..EXAMPLE.len() {
        let whole = EXAMPLE[..at].matches('\n').count();
        assert_eq!(refused(&EXAMPLE[..at]), Some((MALFORMED, Some(whole + 1))));
    }
}

#[test]
fn refusals_have_their_order_and_their_line() {
    let with = |a: &str, b: &str| EXAMPLE.replacen(a, b, 1);
    let line = |n| Some((MALFORMED, Some(n)));
    assert_eq!(refused(&with("stock\t2", "stock\t1")), line(1));
    assert_eq!(refused(&with("cell\t0001", "cell\t0002")), line(3));
    assert_eq!(refused(&with("cell\t0001", "cell\t001")), line(3));
    assert_eq!(refused(&with("4010", "401a")), line(2));
    assert_eq!(
        refused(&with("4018000000000000", "8000000000000000")),
        line(5)
    );
    assert_eq!(refused(&with("4018", "8018")), Some((4, None)));
    assert_eq!(refused(&with("end\t7", "end\t07")), line(8));
    assert_eq!(refused(&with("end\t7", "end\t8")), line(8));
    assert_eq!(refused(&(EXAMPLE.to_owned() + "\n")), line(9));
    assert_eq!(refused(&EXAMPLE.replace('\n', "\r\n")), line(1));
    // a bar that 1 refuses, before and with a last line that is wrong
    let bad = with("4022", "7FF0");
    assert_eq!(refused(&bad), Some((1, None)));
    assert_eq!(refused(&bad.replace("end\t7", "end\t6")), line(8));
    let number = |r: Result<Bar, Reason>| r.err().map(|r| r.number);
    assert_eq!(number(end(EXAMPLE, 12, 12, 2)), Some(2));
    assert_eq!(number(end(EXAMPLE, 11, 12, 3)), Some(3));
    assert_eq!(number(end(EXAMPLE, 12, 11, 3)), Some(4));
}

/// A bar of so many bins of 1 mm.
fn bar_of(n: usize) -> Spec {
    Spec {
        z_max: n as f64,
        cell: 1.,
        max_cells: n,
        ..SPEC
    }
}

/// Each of so many cells told apart.
fn cells_of(n: usize) -> Vec<[f64; 4]> {
    let cell = |i: usize| [1. + i as f64 / 16384., 9., 0., i as f64 / 32768.];
    (0..n).map(cell).collect()
}

/// The number of cells says the form: 4,096 have four digits, 4,097 and 16,384 five. Such files are read and written by the
/// calls, in parts of any size, and an end that is not theirs is refused.
#[test]
fn the_number_of_cells_says_the_form() {
    for (n, form, index) in [
        (4096, "2", "4095"),
        (4097, "3", "04096"),
        (16384, "3", "16383"),
    ] {
        let (spec, cells, rings) = (bar_of(n), cells_of(n), [[0., 6., 2., 6.]]);
        let lines = lines(&spec, 7, &cells, &rings);
        let text = lines.concat();
        assert!(text.starts_with(&format!("stock\t{form}\t")));
        assert!(lines[n].starts_with(&format!("cell\t{index}\t")));
        assert_eq!(lines[n].len(), 74 + index.len());
        assert_eq!(lines[n + 2], format!("end\t{}\n", n + 2));
        for size in [1000, 4096, text.len()] {
            let mut reading = Reading::fresh(4 * n, 4);
            for part in text.as_bytes().chunks(size) {
                assert_eq!(reading.take(part), 0);
            }
            assert_eq!(reading.end(n), (0, [Some(n), Some(1), Some(7), None]));
            assert_eq!(reading.end(n - 1), (2, [None; 4]));
            let bits = |x: &f64| x.to_bits();
            assert!(
                reading
                    .cells
                    .list()
                    .iter()
                    .copied()
                    .eq(cells.as_flattened().iter().map(bits))
            );
        }
        // without its last cell line the file breaks off, or 3 counts too few of them
        let short: String = (lines[..n].iter().cloned())
            .chain([format!("end\t{n}\n")])
            .collect();
        let mut reading = Reading::fresh(4 * n, 4);
        let (part, whole) = match n {
            4097 => (MALFORMED, (MALFORMED, [None, None, None, Some(n + 1)])),
            _ => (0, (3, [None; 4])),
        };
        assert_eq!(reading.take(short.as_bytes()), part);
        assert_eq!(reading.end(n), whole);
        let store = Store {
            rings: rings.as_flattened().to_vec(),
            count: 1,
        };
        let writing = Writing {
            spec,
            edition: 7,
            cells: cells.as_flattened(),
            store: &store,
        };
        assert_eq!(writing.count(), (0, Some(n + 3)));
        for (k, line) in lines.iter().enumerate() {
            let mut lent = [0; 128];
            assert_eq!(writing.put_line(k, &mut lent), (0, Some(line.len())));
            assert_eq!(&lent[..line.len()], line.as_bytes());
        }
    }
}
