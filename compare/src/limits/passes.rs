//! Checks and proposals of passes at the corners of Req 13 of 02.
use super::{STAMP, bar, kept, stamp, whole};
use crate::call::{Call, PassRoom, Passes, Spec, Verdict};
use crate::oracle::ranges::blocks_len;
use crate::oracle::{
    ARC, ARGUMENT, BLOCKS, CELLS, GENERATION, MANY_CELLS, MILLION, MOST_CELLS, MOST_PASSES,
    MOST_POINTS, MOST_SEGMENTS, TARGETS,
};

/// A check or its refusal, by name.
type Checked = (&'static str, Call, Result<Verdict, u32>);

/// A check of cuts on a bar of n bins, radii 0..10, with targets that every stock meets.
fn checked(n: usize, passes: Passes) -> Call {
    let cells = whole(n);
    Call::CheckPasses {
        spec: bar(n),
        stamp: STAMP,
        blocks: kept(&cells),
        after_len: cells.len(),
        after_blocks_len: blocks_len(n),
        cells,
        targets: [0., 10.].repeat(n),
        passes,
    }
}

/// A check of cuts on such a bar with other targets.
pub fn on_bar(n: usize, targets: Vec<f64>, passes: Passes) -> Call {
    changed(n, passes, |call| {
        if let Call::CheckPasses { targets: lent, .. } = call {
            lent.clone_from(&targets);
        }
    })
}

/// So many level lines over bin 1, each a little deeper.
fn lines(count: usize) -> Passes {
    let mut passes = Passes::default();
    for k in 0..count {
        let r = 9. - k as f64 / 64.;
        passes.push(0, [0.5, 0., r, 1., r, 2.], &[]);
    }
    passes
}

/// A check with one thing changed.
fn changed(n: usize, passes: Passes, change: impl Fn(&mut Call)) -> Call {
    let mut call = checked(n, passes);
    change(&mut call);
    call
}

fn with_targets(n: usize, targets: Vec<f64>) -> Call {
    on_bar(n, targets, lines(1))
}

fn with_stamp(passes: Passes, generation: u64) -> Call {
    changed(4, passes, |call| {
        if let Call::CheckPasses { stamp: lent, .. } = call {
            *lent = stamp(generation);
        }
    })
}

fn with_room(after: usize, after_blocks: usize) -> Call {
    changed(4, lines(1), |call| {
        if let Call::CheckPasses {
            after_len,
            after_blocks_len,
            ..
        } = call
        {
            (*after_len, *after_blocks_len) = (after, after_blocks);
        }
    })
}

/// The cuts: how many, lists that do not reach them, kinds, parts, generations.
fn cut_lists() -> Vec<Checked> {
    use Verdict::{Cut, Yes};
    let last = |k: usize| Ok(Cut(k, ARGUMENT));
    let with = |count: usize, change: &dyn Fn(&mut Passes)| {
        let mut passes = lines(count);
        change(&mut passes);
        checked(4, passes)
    };
    let nose = |parts: [usize; 2], lists: Vec<f64>| {
        let mut passes = lines(1);
        passes.push(
            2,
            [0.5, f64::NAN, f64::NAN, f64::NAN, f64::NAN, f64::NAN],
            &[],
        );
        passes.parts[2..].copy_from_slice(&parts);
        passes.lists = lists;
        checked(4, passes)
    };
    let segment = || vec![9., 1., 9., 2., 0.];
    let mut list = vec![
        ("no cuts", checked(4, lines(0)), Ok(Yes)),
        ("the most cuts", checked(4, lines(MOST_PASSES)), Ok(Yes)),
        (
            "one cut more",
            checked(4, lines(MOST_PASSES + 1)),
            Err(TARGETS),
        ),
        (
            "the most over many bins",
            checked(MANY_CELLS, lines(MOST_PASSES)),
            Ok(Yes),
        ),
        (
            "the most over one bin more",
            checked(MANY_CELLS + 1, lines(MOST_PASSES)),
            Ok(Yes),
        ),
        (
            "the most over the most bins",
            checked(MOST_CELLS, lines(MOST_PASSES)),
            Ok(Yes),
        ),
        (
            "a number short",
            with(3, &|p| p.numbers.truncate(17)),
            last(2),
        ),
        (
            "a number over",
            with(3, &|p| p.numbers.push(f64::NAN)),
            Ok(Yes),
        ),
        ("no numbers", with(3, &|p| p.numbers.clear()), last(0)),
        (
            "lines without parts",
            with(3, &|p| p.parts.clear()),
            Ok(Yes),
        ),
        (
            "a part over",
            with(3, &|p| p.parts.push(usize::MAX)),
            Ok(Yes),
        ),
        ("an arc", with(3, &|p| p.kinds[1] = 9), Ok(Cut(1, ARC))),
        (
            "an arc behind a bad cut",
            with(3, &|p| (p.kinds[2], p.numbers[0]) = (9, -1.)),
            last(0),
        ),
        (
            "an inside cut behind a bad one",
            with(3, &|p| (p.kinds[2], p.numbers[0]) = (8, -1.)),
            Err(TARGETS),
        ),
        (
            "an inside cut behind an arc",
            with(3, &|p| (p.kinds[0], p.kinds[2]) = (9, 4)),
            Err(TARGETS),
        ),
        ("a part", nose([0, 5], segment()), Ok(Yes)),
        ("an empty part at the end", nose([5, 0], segment()), Ok(Yes)),
        ("an empty part of no lists", nose([0, 0], vec![]), Ok(Yes)),
        (
            "a part that starts behind the end",
            nose([6, 0], segment()),
            last(1),
        ),
        (
            "a part of one number too many",
            nose([0, 6], segment()),
            last(1),
        ),
        (
            "a part that ends behind the end",
            nose([1, 5], segment()),
            last(1),
        ),
        (
            "a part whose last three numbers are not there",
            nose([3, 5], segment()),
            last(1),
        ),
        (
            "a part that starts at the last size",
            nose([usize::MAX, 0], segment()),
            last(1),
        ),
        (
            "a part whose end wraps",
            nose([usize::MAX, 6], segment()),
            last(1),
        ),
        (
            "a part whose end wraps to 0",
            nose([1, usize::MAX], segment()),
            last(1),
        ),
        (
            "a part whose end wraps to the end",
            nose([usize::MAX - 4, 10], segment()),
            last(1),
        ),
        (
            "a part of the last size",
            nose([0, usize::MAX], segment()),
            last(1),
        ),
        (
            "a part that is no whole segment",
            nose([0, 4], segment()),
            last(1),
        ),
    ];
    for kind in 4..9 {
        list.push((
            "an inside cut",
            with(3, &|p| p.kinds[2] = kind),
            Err(TARGETS),
        ));
    }
    for kind in [10, 11, 256, 1 << 16, 1 << 31, u32::MAX] {
        list.push(("no kind", with(3, &|p| p.kinds[2] = kind), last(2)));
    }
    // a part one short, and two noses whose parts overlap
    let mut two = Passes::default();
    for _ in 0..2 {
        two.push(2, [0.5; 6], &segment());
    }
    let mut short = two.clone();
    short.parts.pop();
    let mut overlapping = two.clone();
    overlapping.parts = vec![0, 10, 0, 5];
    let mut same = two.clone();
    same.parts = vec![0, 10, 0, 10];
    list.push(("a part short", checked(4, short), last(1)));
    list.push(("parts that overlap", checked(4, overlapping), Ok(Yes)));
    list.push(("parts that are the same", checked(4, same), Ok(Yes)));
    for (count, said) in [(MOST_SEGMENTS, Ok(Yes)), (MOST_SEGMENTS + 1, last(0))] {
        let mut long = Passes::default();
        long.push(2, [0.5; 6], &segment().repeat(count));
        list.push((
            "a nose of the most segments, and one more",
            checked(4, long),
            said,
        ));
    }
    for (count, said) in [(MOST_POINTS, Ok(Yes)), (MOST_POINTS + 1, last(0))] {
        let mut many = Passes::default();
        many.push(3, [0.5; 6], &[1., 4.].repeat(count));
        list.push((
            "a polygon of the most points, and one more",
            checked(4, many),
            said,
        ));
    }
    let spent = u64::MAX;
    list.push((
        "the last generation, no cuts",
        with_stamp(lines(0), spent),
        Ok(Yes),
    ));
    list.push((
        "the last generation, a cut",
        with_stamp(lines(1), spent),
        Ok(Cut(0, GENERATION)),
    ));
    list.push((
        "up to the last generation",
        with_stamp(lines(3), spent - 3),
        Ok(Yes),
    ));
    list.push((
        "past the last generation",
        with_stamp(lines(3), spent - 2),
        Ok(Cut(2, GENERATION)),
    ));
    let mut bad = lines(1);
    bad.numbers[0] = -1.;
    list.push(("5 before 12", with_stamp(bad, spent), last(0)));
    list
}

/// The targets, and the room for the stock afterwards.
fn target_lists() -> Vec<Checked> {
    use Verdict::{Bin, Yes};
    let each = |pair: [f64; 2]| with_targets(4, pair.repeat(4));
    let one = |at: usize, x: f64| {
        let mut targets = [0., 10.].repeat(4);
        targets[at] = x;
        with_targets(4, targets)
    };
    let cut = || vec![0., 10., 8.5, 8.5, 0., 10., 0., 10.];
    let turned = |at: usize, x: f64| {
        let mut targets = cut();
        targets[at] = x;
        with_targets(4, targets)
    };
    let (up, down) = (8.5_f64.next_up(), 8.5_f64.next_down());
    let mut list = vec![
        ("no targets", with_targets(4, vec![]), Err(TARGETS)),
        ("a target short", with_targets(4, vec![1.; 7]), Err(TARGETS)),
        ("a target over", with_targets(4, vec![1.; 9]), Err(TARGETS)),
        (
            "a bin's targets over",
            with_targets(4, vec![1.; 10]),
            Err(TARGETS),
        ),
        ("a million", each([-MILLION, MILLION]), Ok(Yes)),
        ("targets of 0", each([-0., 0.]), Ok(Bin(0))),
        ("-0.0 as a lower target", each([-0., 10.]), Ok(Yes)),
        ("-0.0 above 0", each([0., -0.]), Ok(Bin(0))),
        ("lower above upper by an ulp", turned(2, up), Err(TARGETS)),
        (
            "lower above upper in the last bin",
            one(6, 10_f64.next_up()),
            Err(TARGETS),
        ),
        ("the very cell", with_targets(4, cut()), Ok(Yes)),
        (
            "a lower target an ulp more",
            with_targets(4, vec![0., 10., up, 9., 0., 10., 0., 10.]),
            Ok(Bin(1)),
        ),
        ("an upper target an ulp less", turned(3, down), Err(TARGETS)),
        (
            "an upper target an ulp less, and a lower one",
            with_targets(4, vec![0., 10., 8., down, 0., 10., 0., 10.]),
            Ok(Bin(1)),
        ),
        (
            "more than the blank has",
            with_targets(4, vec![0., 10., 0., 10., 0., 10., 11., 12.]),
            Ok(Bin(3)),
        ),
        (
            "the first of two bins",
            with_targets(4, vec![0., 10., 0., 10., 11., 12., 11., 12.]),
            Ok(Bin(2)),
        ),
        ("no room for cells", with_room(0, 2), Err(CELLS)),
        ("a number of a cell short", with_room(15, 2), Err(CELLS)),
        ("a cell short", with_room(12, 2), Err(CELLS)),
        ("a cell over", with_room(20, 2), Err(CELLS)),
        ("no room for kept numbers", with_room(16, 0), Err(BLOCKS)),
        ("a kept number short", with_room(16, 1), Err(BLOCKS)),
        ("a kept number over", with_room(16, 3), Err(BLOCKS)),
        ("3 before 20", with_room(15, 1), Err(CELLS)),
    ];
    for x in [
        f64::NAN,
        f64::INFINITY,
        f64::NEG_INFINITY,
        MILLION.next_up(),
        -MILLION.next_up(),
    ] {
        for at in [0, 1, 6, 7] {
            list.push(("a target that is not usable", one(at, x), Err(TARGETS)));
        }
    }
    list
}

/// Checks at the corners of Req 13 of 02, by name, with their verdicts or refusals.
pub fn checks() -> Vec<Checked> {
    [cut_lists(), target_lists()].concat()
}

/// The targets of docs/PASSES.md on a bar of twelve bins: five at 20, one loose or not, the rest at 28.
pub fn two_steps(loose: bool) -> Vec<f64> {
    let mut targets = [19.99, 20.01].repeat(5);
    targets.extend(if loose { [19.5, 30.] } else { [27.99, 28.01] });
    targets.extend([27.99, 28.01].repeat(6));
    targets
}

/// The bar of docs/PASSES.md: z 0..12, outer 30, bins of 1 mm.
pub fn pass_bar() -> (Spec, Vec<f64>) {
    let spec = Spec {
        outer: 30.,
        ..bar(12)
    };
    (spec, [30., 30., 0., 0.].repeat(12))
}

/// Proposals at the corners of Req 13 of 02, with how many passes they are, or their refusals.
pub fn proposals() -> Vec<(&'static str, Call, Result<usize, u32>)> {
    let (spec, cells) = pass_bar();
    let all = PassRoom {
        kinds: 128,
        numbers: 768,
        parts: 256,
    };
    let mut list = vec![];
    let mut at = |name, targets: Vec<f64>, rn, room, said| {
        let call = Call::ProposePasses {
            spec,
            cells: cells.clone(),
            targets,
            rn,
            room,
        };
        list.push((name, call, said));
    };
    let two = || two_steps(true);
    at("two steps", two(), 0.8, all, Ok(2));
    at("two steps side by side", two_steps(false), 0.8, all, Ok(2));
    at("nothing stands over", [0., 30.].repeat(12), 0.8, all, Ok(0));
    at("a nose of radius 0", two(), 0., all, Ok(2));
    at("a nose of -0.0", two(), -0., all, Ok(2));
    at("a nose of a million", two(), MILLION, all, Ok(2));
    at("a nose wider than a step", two_steps(false), 9., all, Ok(2));
    let narrow = [[20., 20.], [28., 28.]].as_flattened().repeat(6);
    at("steps too narrow for the nose", narrow, 0.8, all, Ok(7));
    for (name, rn) in [
        ("no radius", f64::NAN),
        ("a negative radius", -f64::from_bits(1)),
        ("an infinite radius", f64::INFINITY),
        ("a radius past a million", MILLION.next_up()),
    ] {
        at(name, two(), rn, all, Err(ARGUMENT));
        at("25 before 5", vec![1.; 23], rn, all, Err(TARGETS));
    }
    for (kinds, numbers, parts, passes) in [
        (0, 768, 256, 0),
        (128, 0, 256, 0),
        (128, 768, 0, 0),
        (1, 768, 256, 1),
        (128, 11, 256, 1),
        (128, 768, 3, 1),
        (128, 12, 4, 2),
        (2, 12, 4, 2),
        (0, 0, 0, 0),
        (1, 6, 2, 1),
    ] {
        let room = PassRoom {
            kinds,
            numbers,
            parts,
        };
        at("room for so many", two(), 0.8, room, Ok(passes));
    }
    list.extend(many_steps());
    list
}

/// A bar of falling steps: as many passes as there may be, and one more.
fn many_steps() -> Vec<(&'static str, Call, Result<usize, u32>)> {
    let steps = |n: usize, room: usize| {
        let target = |k: usize| [10. - (n - k) as f64 / 64.; 2];
        Call::ProposePasses {
            spec: bar(n),
            cells: whole(n),
            targets: (0..n).flat_map(target).collect(),
            rn: 0.25,
            room: PassRoom {
                kinds: room,
                numbers: 6 * room,
                parts: 2 * room,
            },
        }
    };
    vec![
        ("one pass fewer than there may be", steps(127, 200), Ok(127)),
        ("the most passes", steps(128, 200), Ok(128)),
        ("one pass too many", steps(129, 200), Ok(128)),
        ("room for the most", steps(129, 128), Ok(128)),
        ("room for one fewer", steps(129, 127), Ok(127)),
        ("the most bins", steps(640, 200), Ok(128)),
    ]
}

/// All of them, with their numbers.
pub fn numbered() -> Vec<(Call, u32)> {
    let checks = checks().into_iter();
    let checks = checks.map(|(_, call, said)| (call, said.err().unwrap_or(0)));
    let proposals = proposals().into_iter();
    let proposals = proposals.map(|(_, call, said)| (call, said.err().unwrap_or(0)));
    checks.chain(proposals).collect()
}
