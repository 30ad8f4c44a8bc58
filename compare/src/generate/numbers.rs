//! Single numbers: the edges of the domain, what lies outside it, patterns for roots and lengths.
use super::Rng;
use crate::call::Call;

const LEAST: f64 = f64::from_bits(1);

/// Outside every domain: no number, infinite, or past a million.
pub fn outside(rng: &mut Rng) -> f64 {
    let x = rng.pick(&[
        f64::INFINITY,
        1e6_f64.next_up(),
        2e6,
        1e300,
        f64::MAX,
        f64::NAN,
    ]);
    let payload = rng.word() % (1 << 51);
    let x = if x.is_nan() && rng.once_in(2) {
        f64::from_bits(0x7FF0_0000_0000_0000 | payload.max(1))
    } else {
        x
    };
    if rng.once_in(2) { -x } else { x }
}

/// Inside the domain, at an edge of something.
pub fn edge(rng: &mut Rng) -> f64 {
    let sizes = [
        0.,
        LEAST,
        f64::MIN_POSITIVE,
        f64::MIN_POSITIVE.next_down(),
        1e-300,
        2.72e-162,
        1e-154,
        1e-12,
        1e-12_f64.next_up(),
        1.,
        1e6_f64.next_down(),
        1e6,
    ];
    let x = rng.pick(&sizes);
    if rng.once_in(2) { -x } else { x }
}

/// Whatever bits.
pub fn any(rng: &mut Rng) -> f64 {
    f64::from_bits(rng.word())
}

/// The number, or now and then one from outside or an edge.
pub fn damaged(rng: &mut Rng, x: f64) -> f64 {
    match rng.below(60) {
        0 => outside(rng),
        1 => edge(rng),
        2 => -x,
        _ => x,
    }
}

/// Arguments of the root: every exponent, squares and their neighbours, midpoints of two roots.
pub fn radicand(rng: &mut Rng) -> f64 {
    let word = rng.word();
    let significand = word >> 12;
    let exponent = (rng.word() % 2047) << 52;
    let x = match rng.below(8) {
        0 => return any(rng),
        1 => f64::from_bits(significand >> (word % 52)),
        2 => {
            let r = f64::from_bits(((rng.word() % 1020 + 512) << 52) | significand >> 26 << 26);
            neighbour(rng, r * r)
        }
        3 => {
            // Near the square of a point half way between two values of f64.
            let r = f64::from_bits((1023 << 52) | significand);
            let s = r.next_up();
            let up = [1., 2., 4., 0.25][rng.below(4)];
            neighbour(rng, (r * s) * up)
        }
        4 => {
            let r = (word % 0x4000_0000) as f64;
            neighbour(rng, r * r)
        }
        5 => f64::from_bits(exponent | rng.pick(&[0, 1, 2, (1 << 52) - 1, (1 << 52) - 2])),
        _ => f64::from_bits(exponent | significand),
    };
    if rng.once_in(64) { -x } else { x }
}

fn neighbour(rng: &mut Rng, x: f64) -> f64 {
    match rng.below(5) {
        0 => x.next_up(),
        1 => x.next_down(),
        _ => x,
    }
}

/// Where a length's rule or its rounding turns: 2^-400 and its neighbours, 2^-511, below which a square
/// is subnormal, 2^-537, below which it vanishes, the least normal and the least value, and zero.
pub fn turning_point(rng: &mut Rng) -> f64 {
    let tiny = 2_f64.powi(-400);
    let x = rng.pick(&[
        tiny,
        tiny.next_up(),
        tiny.next_down(),
        2_f64.powi(-511),
        2_f64.powi(-537),
        f64::MIN_POSITIVE,
        LEAST,
        0.,
    ]);
    if rng.once_in(2) { -x } else { x }
}

/// Parts of a length: shop sizes, squares that vanish, are subnormal or overflow, parts about 2^-400
/// and below, and any bits.
pub fn part(rng: &mut Rng) -> f64 {
    let around = |rng: &mut Rng, low: u64, high: u64| {
        let exponent = low + rng.word() % (high - low);
        let sign = rng.word() >> 63 << 63;
        f64::from_bits(sign | exponent << 52 | rng.word() >> 12)
    };
    match rng.below(20) {
        0 => any(rng),
        1 => edge(rng),
        2 => outside(rng),
        3 => around(rng, 480, 515),
        4 => around(rng, 484, 488),
        5 => around(rng, 1530, 1540),
        6 => (rng.below(4001) as f64 - 2000.) / 8.,
        7 => around(rng, 0, 2047),
        8 => turning_point(rng),
        9 => around(rng, 0, 626),
        10 => around(rng, 0, 60),
        11 => around(rng, 620, 626),
        _ => rng.written(-100., 100.),
    }
}

pub fn root_call(rng: &mut Rng) -> Call {
    Call::Root { x: radicand(rng) }
}

pub fn length_call(rng: &mut Rng) -> Call {
    let (x, y) = parts(rng);
    Call::Length { x, y }
}

/// Two parts; now and then of one size.
pub fn parts(rng: &mut Rng) -> (f64, f64) {
    let x = part(rng);
    let y = match rng.below(8) {
        0 => x,
        1 => x * rng.between(-2., 2.),
        2 => rng.pick(&[0., -0.]),
        _ => part(rng),
    };
    (x, y)
}
