//! The exact arithmetic against known digits, one case of each kind worked out by hand, and bounds that are bent.
use compare::call::Spec;
use compare::exact::arc::{circle, exact, pi, strays};
use compare::exact::judge::{Exact, Report};
use compare::exact::lent::{Cut, bin, cells_after, chords, volume};
use compare::exact::number::{Long, ZERO};
use compare::exact::shape::{Bin, Read, place};
use compare::exact::sweep::Sweep;
use compare::generate::Rng;
use compare::oracle::stock::{Bar, bar, camlib_stock, fresh};
use plain::motion::Curve;
use plain::turning::stock::TurnSide;

fn long(x: f64) -> Long {
    x.into()
}

fn bar_of(z_min: f64, z_max: f64, outer: f64, cell: f64) -> Bar {
    let spec = Spec {
        z_min,
        z_max,
        outer,
        bore: 0.,
        cell,
        max_cells: 4096,
    };
    bar(&spec).unwrap()
}

fn between(za: f64, zb: f64) -> Bin {
    Bin {
        za: za.into(),
        zb: zb.into(),
    }
}

fn read(cut: &Cut) -> Exact {
    Exact::new(cut, Read::Millimetres)
}

/// A report of the library's cells after a cut.
fn report(bar: &Bar, cut: &Cut) -> Report {
    let mut report = Report::default();
    report.take(bar, cut);
    report
}

// ---- the arithmetic

#[test]
fn roots_have_known_digits() {
    let two = "1.4142135623730950488016887242096980785696718753769480731766797379907324784621070388503875343276415727";
    assert_eq!(long(2.).root().digits(100), two);
    assert_eq!(long(2.).root_by_digits().digits(100), two);
    let three = "1.7320508075688772935274463415058723669428052538103806280558069794519330169088000370811461867572485756";
    assert_eq!(long(3.).root().digits(100), three);
    let golden = (long(1.) + long(5.).root()) / long(2.);
    let known = "1.6180339887498948482045868343656381177203091798057628621354486227052604628189024497072072041893911374";
    assert_eq!(golden.digits(100), known);
    assert_eq!(ZERO.root(), ZERO);
    assert_eq!(long(6.25).root_by_digits(), long(2.5));
}

#[test]
fn quotients_have_known_digits() {
    let seventh = (long(1.) / long(7.)).digits(100);
    assert_eq!(seventh, format!("0.{}1428", "142857".repeat(16)));
    let known = "3.1428571428571428571428571428571428571428571428571428571428571428571428571428571428571428571428571428";
    assert_eq!((long(22.) / long(7.)).digits(100), known);
    let thousandth = (long(4.4) / long(1000.)).digits(50);
    assert_eq!(
        thousandth,
        "0.00440000000000000035527136788005009293556213378906"
    );
    assert_eq!((long(-3.) / long(1024.)), long(-3. / 1024.));
    assert_eq!(
        pi().digits(60),
        "3.141592653589793238462643383279502884197169399375105820974944"
    );
}

#[test]
fn roots_and_quotients_are_good_to_seventy_digits() {
    let mut rng = Rng::new(7);
    let tiny = (0..70).fold(long(1.), |x, _| x / long(10.));
    for _ in 0..3000 {
        let x = long(rng.between(0., 1.) * 10_f64.powi(rng.below(30) as i32 - 15));
        let y = long(rng.between(-1., 1.) * 10_f64.powi(rng.below(20) as i32 - 10));
        let root = x.root();
        assert!((root * root - x).abs() <= x * tiny, "{x:?}");
        assert!((root - x.root_by_digits()).abs() <= root * tiny, "{x:?}");
        if !y.is_zero() {
            assert!((x / y * y - x).abs() <= x * tiny, "{x:?} {y:?}");
        }
    }
}

#[test]
fn sums_and_products_are_exact() {
    let mut rng = Rng::new(8);
    for _ in 0..3000 {
        let [a, b, c] = [0; 3].map(|_| long(rng.between(-1e6, 1e6)));
        assert_eq!(a * (b + c), a * b + a * c);
        assert_eq!((a + b) * (a - b), a * a - b * b);
        assert_eq!((a + b) - b, a);
        assert_eq!(a.cmp(&b), a.near().partial_cmp(&b.near()).unwrap());
    }
    for x in [
        0.,
        -0.,
        1.,
        -2.5,
        1e6,
        0.1,
        5e-324,
        f64::MIN_POSITIVE,
        1e-100,
        4.4,
    ] {
        let kept = if x.abs() < 1e-130 { 0. } else { x };
        assert_eq!(long(x).near(), kept);
    }
}

// ---- one case of each kind, by hand

/// A level way at radius 9 from z = 3 to 6, radius 5: 3, 4 and 5.
#[test]
fn a_nose() {
    let cut = Cut::Nose(0, 5., vec![[9., 3., 9., 6., 0.]]);
    let nose = read(&cut);
    assert_eq!(nose.leaves(between(0., 3.)), Some(long(5.)));
    assert_eq!(nose.leaves(between(3., 6.)), Some(long(4.)));
    assert_eq!(nose.deepest(between(6., 9.)), Some(long(4.)));
    assert_eq!(nose.leaves(between(9., 12.)), None);
    assert_eq!(nose.deepest(between(10., 12.)), Some(long(6.)));
    assert_eq!(nose.deepest(between(11., 12.)), None);
    let seen = report(&bar_of(0., 9., 10., 3.), &cut);
    assert_eq!(
        (seen.sure.bins, seen.sure.wrong, seen.deep.wrong),
        (3, 0, 0)
    );
}

/// A way that rises 3 over 4: its side lies 5/4 of the radius below it. Inside the same with radii negated.
#[test]
fn a_leaning_nose() {
    let nose = Read::Millimetres.capsule([0., 0., 3., 4.], long(1.));
    assert_eq!(nose.at(long(2.)), Some(long(0.25)));
    assert_eq!(nose.at(long(-1.)), Some(ZERO));
    assert_eq!(nose.at(long(5.25)), None);
    let inside = read(&Cut::Nose(1, 1., vec![[3., 0., 0., 4., 0.]]));
    assert_eq!(inside.leaves(between(2., 2.)), Some(long(-2.75)));
}

/// How far a bound lies from the sweep: a nose of radius 5 would have to be 6 to reach z = 12, and 3 to leave r = 5.
#[test]
fn how_far_away() {
    let nose = Read::Millimetres.capsule([9., 3., 9., 6.], long(5.));
    assert_eq!(nose.short(between(9., 12.)), long(1.));
    assert_eq!(nose.lacks(between(9., 12.), long(9.)), long(1.));
    assert_eq!(nose.lacks(between(3., 6.), long(3.)), long(1.));
    assert_eq!(nose.enters(between(3., 6.), long(6.)), long(2.));
    assert_eq!(nose.enters(between(10., 12.), long(6.)), ZERO);
}

/// A sag of 5 leaves a shrunk radius of 0 and a grown one of 10; one of 6 leaves no shrunk one.
#[test]
fn a_nose_with_sag() {
    let nose = read(&Cut::Nose(0, 5., vec![[9., 3., 9., 6., 5.]]));
    assert_eq!(nose.leaves(between(3., 6.)), Some(long(9.)));
    assert_eq!(nose.leaves(between(0., 3.)), None);
    assert_eq!(nose.deepest(between(3., 6.)), Some(long(-1.)));
    assert_eq!(nose.deepest(between(12., 13.)), Some(long(1.)));
    let nose = read(&Cut::Nose(0, 5., vec![[9., 3., 9., 6., 6.]]));
    assert_eq!(nose.leaves(between(3., 6.)), None);
}

/// A triangle with its lowest corner at z = 1, r = 2, and edges of slopes -2 and 1/2.
#[test]
fn a_polygon() {
    let cut = Cut::Polygon(0, 0.5, vec![[0., 4.], [1., 2.], [5., 4.]]);
    let polygon = read(&cut);
    assert_eq!(polygon.leaves(between(0.5, 2.)), Some(long(3.5)));
    assert_eq!(polygon.deepest(between(0.5, 2.)), Some(long(2.)));
    assert_eq!(polygon.deepest(between(2., 3.)), Some(long(2.5)));
    assert_eq!(polygon.deepest(between(5., 6.)), None);
    let seen = report(&bar_of(0., 4., 10., 1.), &cut);
    assert_eq!(
        (seen.sure.bins, seen.sure.wrong, seen.deep.wrong),
        (4, 0, 0)
    );
}

/// A drill of radius 4 whose point is 2 high, its tip at z = 1.
#[test]
fn a_drill() {
    let cut = Cut::Drill([1., 4., 2.]);
    let drill = read(&cut);
    assert_eq!(drill.leaves(between(1.5, 2.)), Some(long(-1.)));
    assert_eq!(drill.deepest(between(1.5, 2.)), Some(long(-2.)));
    assert_eq!(drill.deepest(between(0., 1.)), None);
    assert_eq!(drill.leaves(between(3., 9.)), Some(long(-4.)));
    let seen = report(&bar_of(0., 4., 10., 1.), &cut);
    assert_eq!(
        (seen.sure.bins, seen.sure.wrong, seen.deep.wrong),
        (2, 0, 0)
    );
}

#[test]
fn a_thread() {
    let cut = Cut::Thread(0, [3., 1., 8.]);
    let thread = read(&cut);
    assert_eq!(thread.deepest(between(2., 3.)), Some(long(8.)));
    assert_eq!(thread.deepest(between(3., 4.)), None);
    assert_eq!(thread.leaves(between(2., 3.)), None);
    let seen = report(&bar_of(0., 4., 10., 1.), &cut);
    assert_eq!((seen.sure.bins, seen.deep.bins, seen.deep.wrong), (0, 2, 0));
}

/// A chord of 8 with a bulge of 1/2: a sag of 2, a radius of 5, a centre 3 from the chord.
#[test]
fn an_arc() {
    let (a, b) = (place(10., 0.), place(10., 8.));
    let (centre, radius) = circle(a, b, long(0.5));
    assert_eq!(radius, long(5.));
    assert_eq!(centre.z, long(4.));
    assert_eq!((centre.r - long(10.)).abs(), long(3.));
    assert_eq!(strays(a, b, 0.5, centre, radius), Some(long(2.)));
    assert_eq!(
        chords([10., 0., 0.5], [10., 8.], 2.),
        [[10., 0., 10., 8., 2.]]
    );
    assert_eq!(chords([10., 0., 0.5], [10., 8.], 1.).len(), 2);
}

/// A nose of radius 1 along that arc: arched up to r = 12 it leaves 11 at its crown, and bowled down to 8 it reaches 7.
#[test]
fn a_nose_along_an_arc() {
    let (a, b) = (place(10., 0.), place(10., 8.));
    let arch = Sweep::new(a, b, long(-0.5), long(1.)).unwrap();
    assert_eq!(arch.at(long(4.)), Some(long(11.)));
    assert_eq!(arch.at(long(0.)), Some(long(9.)));
    assert_eq!(arch.at(long(-1.5)), None);
    assert_eq!(arch.leaves(between(2., 6.)), Some(long(11.)));
    assert_eq!(arch.lacks(between(2., 6.), long(10.5)), long(0.5));
    let bowl = Sweep::new(a, b, long(0.5), long(1.)).unwrap();
    assert_eq!(bowl.at(long(4.)), Some(long(7.)));
    assert_eq!(bowl.deepest(between(2., 6.)), Some(long(7.)));
    assert_eq!(bowl.enters(between(2., 6.), long(7.5)), long(0.5));
    assert!(Sweep::new(a, b, long(0.5), long(6.)).is_none());
}

/// A tube of radii 1 and 3, 2 long, less a ring of radii 1 and 2, 1 long: 16 pi and 13 pi.
#[test]
fn a_volume() {
    let bar = bar_of(0., 2., 10., 2.);
    let (cells, rings) = ([[3., 3., 1., 1.]], [[0., 1., 1., 2.]]);
    let (before, after) = exact(&bar, &cells, &rings, |c| [c[3], c[0]]);
    assert_eq!(before.digits(60), (pi() * long(16.)).digits(60));
    assert_eq!(after.digits(60), (pi() * long(13.)).digits(60));
    let [least, greatest] = volume(&bar, &cells, &rings);
    assert_eq!(least, greatest);
    assert!((long(least) - after).abs() < long(1e-14));
}

// ---- bounds that say too much are found

#[test]
fn a_bent_bound_is_told() {
    let (bar, cut) = (
        bar_of(0., 9., 10., 3.),
        Cut::Nose(0, 5., vec![[9., 3., 9., 6., 0.]]),
    );
    let good = cells_after(&bar, &cut);
    assert_eq!(good, [[4., 5., 0., 0.], [4., 4., 0., 0.], [4., 5., 0., 0.]]);
    let bent = |i: usize, cell: [f64; 4]| {
        let mut cells = good.clone();
        cells[i] = cell;
        let mut seen = Report::default();
        seen.judge(&bar, &read(&cut), &cut, &cells);
        seen
    };
    let seen = bent(0, [4., 5_f64.next_down(), 0., 0.]);
    assert_eq!((seen.sure.wrong, seen.deep.wrong), (1, 0));
    assert_eq!(seen.sure.most.unwrap().0, long(5. - 5_f64.next_down()));
    let seen = bent(1, [4_f64.next_up(), 5., 0., 0.]);
    assert_eq!((seen.sure.wrong, seen.deep.wrong), (0, 1));
    assert_eq!(seen.deep.away.unwrap().0, long(4_f64.next_up() - 4.));
    let seen = bent(2, [10., 10., 0., 0.]);
    assert_eq!(
        (seen.sure.wrong, seen.deep.wrong, seen.deep.strips),
        (0, 1, 1)
    );
    assert_eq!(seen.deep.widest.unwrap().0, long(3.));
}

// ---- where a bound says too much

/// The cells after a line outside, by the untouched Rust and by the library.
fn both(bar: &Bar, rn: f64, a: [f64; 2], b: [f64; 2]) -> [Vec<[f64; 2]>; 2] {
    let mut stock = camlib_stock(bar, &fresh(bar), &[]);
    let curve = Curve::Line {
        start: [a[0], 0., a[1]],
        end: [b[0], 0., b[1]],
    };
    let changes = stock.preview(&curve, rn, TurnSide::Outer, 0.).unwrap();
    stock.apply(&changes).unwrap();
    let camlib = stock
        .cells()
        .iter()
        .map(|c| [c.outer.lower_mm, c.outer.upper_mm]);
    let cells = cells_after(bar, &Cut::Nose(0, rn, vec![[a[0], a[1], b[0], b[1], 0.]]));
    [
        camlib.collect(),
        cells.iter().map(|c| [c[0], c[1]]).collect(),
    ]
}

/// A face whose nose begins 3.3e-16 mm behind a bin's start, which counts as reached: as f64 4.4 - 0.4 is above 4. As
/// typed it is 4, and the bound is right.
#[test]
fn the_edge_of_a_nose_on_the_edge_of_a_bin() {
    let bar = bar_of(4., 5., 10., 0.5);
    let [camlib, here] = both(&bar, 0.4, [9., 4.4], [2., 4.4]);
    assert_eq!(here[0], [1.6, 2.]);
    assert_eq!(camlib, here);
    let cut = Cut::Nose(0, 0.4, vec![[9., 4.4, 2., 4.4, 0.]]);
    let seen = report(&bar, &cut);
    assert_eq!((seen.sure.wrong, seen.sure.strips), (1, 1));
    assert_eq!(seen.sure.widest.unwrap().0.near(), 3.3306690738754696e-16);
    let mut typed = Report {
        read: Read::Typed,
        ..Report::default()
    };
    typed.take(&bar, &cut);
    assert_eq!(typed.sure.wrong, 0);
    // A margin of 1e-9 makes it right of the f64 too.
    let mut seen = Report::default();
    seen.take_with_margin(&bar, &cut, 1e-9);
    assert_eq!(seen.sure.wrong, 0);
}

/// Near its edge a nose stands upright, and a root of what cancels is off by 4.4e-9 where the edge is less than 1e-15 away.
#[test]
fn a_root_of_what_cancels() {
    let bar = bar_of(0., 1., 10., 0.05);
    let [camlib, here] = both(&bar, 0.8, [9., 0.85], [9., 0.95]);
    assert_eq!(bin(&bar.spec, 1), [0.05, 0.1]);
    assert_eq!(here[1][1], 8.999999985098839);
    assert_eq!(camlib, here);
    let seen = report(&bar, &Cut::Nose(0, 0.8, vec![[9., 0.85, 9., 0.95, 0.]]));
    let (by, away) = (
        seen.sure.most.unwrap().0.near(),
        seen.sure.away.unwrap().0.near(),
    );
    assert!(4.36e-9 < by && by < 4.37e-9, "{by:e}");
    assert!(away < 1e-15, "{away:e}");
}
