//! Which roots the library's guess misses: its floats and its quick test a second time. No comparison
//! rests on this; it finds values for the bench and for the tests, and counts them.

/// What becomes of a guess.
#[derive(Clone, Copy, Debug, PartialEq)]
pub enum Guess {
    /// The quick test says that it is the nearest.
    Passes,
    /// It says so of a number beside the guess.
    Beside,
    /// It says so of none of the three, or the guess is not below 2.
    Digits,
}

/// Of a normal x above zero.
pub fn guess(x: f64) -> Guess {
    let odd = (x.to_bits() >> 52) % 2 == 0;
    let digits = (x.to_bits() % (1 << 52)) | 1 << 52;
    let m = digits << odd as u32;
    let s = root_of(m as f64 / (1_u64 << 52) as f64);
    if s >= 2. {
        return Guess::Digits;
    }
    let u = (s.to_bits() % (1 << 52)) | 1 << 52;
    if is_nearest(m, u) {
        Guess::Passes
    } else if is_nearest(m, u - 1) || is_nearest(m, u + 1) {
        Guess::Beside
    } else {
        Guess::Digits
    }
}

/// The first so many values k/1000 that the guess misses.
pub fn missed(count: usize) -> Vec<f64> {
    let thousandths = (1_u64..).map(|k| k as f64 / 1000.);
    let missed = thousandths.filter(|x| guess(*x) != Guess::Passes);
    missed.take(count).collect()
}

fn root_of(f: f64) -> f64 {
    let f2 = f * f;
    let a = (201326592.38090513 + f * 0.7731451153656295)
        + f2 * ((f * 0.03321394069862195 - 0.18448207977408917) - f2 * 0.002531119174832449);
    let s = a - 201326592.0;
    let q = s * s;
    let p = f + q;
    s + ((s * 0.8) * (f - q)) * p / (p * p - f2 * 0.8)
}

fn is_nearest(m: u64, u: u64) -> bool {
    let (h, l) = (u >> 26, u % (1 << 26));
    let d = m.wrapping_sub(h * h);
    d < 1 << 29 && (h * (2 * l + 1) + (l * (l + 1) >> 26)).wrapping_sub(d << 26) < 2 * h
}
