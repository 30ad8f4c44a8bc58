//! Numbers with 448 binary digits behind the point, 134 decimal ones, and 191 before it.
//!
//! A sum and a difference are exact. A product loses less than 2^-448, and nothing where both factors end
//! above 2^-224, as shop sizes do. A quotient and a root are rounded to 384 binary digits behind the point, so that
//! those that end there, as the root of 25, are told exactly; at the sizes that are measured here they are good to
//! 100 decimal digits. `tests/exact.rs` holds them against known digits and against roots by digits.
use std::cmp::Ordering;
use std::ops::{Add, Div, Mul, Neg, Sub};

const LIMBS: usize = 10;
const BEHIND: usize = 7;

/// A sign and a size in 64-bit limbs, the lowest first. Zero is not negative.
#[derive(Clone, Copy, PartialEq, Eq)]
pub struct Long {
    negative: bool,
    limbs: [u64; LIMBS],
}

pub const ZERO: Long = Long {
    negative: false,
    limbs: [0; LIMBS],
};

/// a + b * c + carry, as its low and its high limb.
fn step(a: u64, b: u64, c: u64, carry: u64) -> (u64, u64) {
    let wide = a as u128 + b as u128 * c as u128 + carry as u128;
    (wide as u64, (wide >> 64) as u64)
}

fn compare(a: &[u64; LIMBS], b: &[u64; LIMBS]) -> Ordering {
    a.iter().rev().cmp(b.iter().rev())
}

/// The sum of two sizes; it must fit.
fn plus(a: &[u64; LIMBS], b: &[u64; LIMBS]) -> [u64; LIMBS] {
    let (mut sum, mut carry) = ([0; LIMBS], 0);
    for k in 0..LIMBS {
        let wide = a[k] as u128 + b[k] as u128 + carry;
        (sum[k], carry) = (wide as u64, wide >> 64);
    }
    assert!(carry == 0, "a number is too large");
    sum
}

/// a - b, where a is no less.
fn less(a: &[u64; LIMBS], b: &[u64; LIMBS]) -> [u64; LIMBS] {
    let (mut difference, mut borrow) = ([0; LIMBS], false);
    for k in 0..LIMBS {
        let (x, under) = a[k].overflowing_sub(b[k]);
        let (x, under_too) = x.overflowing_sub(borrow as u64);
        (difference[k], borrow) = (x, under | under_too);
    }
    difference
}

impl Long {
    fn new(negative: bool, limbs: [u64; LIMBS]) -> Self {
        let negative = negative && limbs != [0; LIMBS];
        Self { negative, limbs }
    }

    pub fn is_negative(self) -> bool {
        self.negative
    }

    pub fn is_zero(self) -> bool {
        self.limbs == [0; LIMBS]
    }

    pub fn is_positive(self) -> bool {
        !self.negative && !self.is_zero()
    }

    pub fn abs(self) -> Self {
        Self::new(false, self.limbs)
    }

    /// The bit of 2^power of its size.
    fn bit(self, power: i32) -> bool {
        let at = (power + 64 * BEHIND as i32) as usize;
        self.limbs[at / 64] >> (at % 64) & 1 == 1
    }

    /// The power of its highest bit.
    fn top(self) -> Option<i32> {
        let k = self.limbs.iter().rposition(|x| *x != 0)?;
        let place = 64 * k as i32 + 63 - self.limbs[k].leading_zeros() as i32;
        Some(place - 64 * BEHIND as i32)
    }

    /// The f64 that has its first 53 bits.
    pub fn near(self) -> f64 {
        let Some(top) = self.top() else {
            return 0.;
        };
        let lowest = (top - 52).max(-64 * BEHIND as i32);
        let bits = (lowest..=top)
            .rev()
            .fold(0_u64, |bits, power| bits << 1 | self.bit(power) as u64);
        let size = bits as f64 * 2_f64.powi(lowest);
        if self.negative { -size } else { size }
    }

    fn half(self) -> Self {
        let mut limbs = self.limbs;
        for k in 0..LIMBS {
            let above = limbs.get(k + 1).map_or(0, |x| x << 63);
            limbs[k] = limbs[k] >> 1 | above;
        }
        Self::new(self.negative, limbs)
    }

    /// The nearest number of 384 binary digits behind the point.
    fn settled(self) -> Self {
        let mut half = ZERO;
        half.limbs[0] = 1 << 63;
        let mut limbs = plus(&self.limbs, &half.limbs);
        limbs[0] = 0;
        Self::new(self.negative, limbs)
    }

    /// The root of a number that is not negative: Newton's steps to one over it, from the processor's guess.
    pub fn root(self) -> Self {
        assert!(!self.negative, "the root of a negative number");
        let Some(top) = self.top() else {
            return ZERO;
        };
        if !(-150..150).contains(&top) {
            return self.root_by_digits();
        }
        let mut over = Long::from(1. / self.near().sqrt());
        for _ in 0..4 {
            over = over + (over * (Long::from(1.) - self * (over * over))).half();
        }
        let root = self * over;
        (root + ((self - root * root) * over).half()).settled()
    }

    /// The same bit by bit: the greatest number of 448 bits behind the point whose square is not above it.
    pub fn root_by_digits(self) -> Self {
        let mut root = ZERO;
        for place in (0..64 * (BEHIND + LIMBS) / 2).rev() {
            let mut more = root;
            more.limbs[place / 64] |= 1 << (place % 64);
            if !more.square_passes(self) {
                root = more;
            }
        }
        root
    }

    /// Its square is above the number, every digit of the square counted.
    fn square_passes(self, other: Self) -> bool {
        let wide = self.wide_product(&self);
        let mut against = [0; 2 * LIMBS];
        against[BEHIND..BEHIND + LIMBS].copy_from_slice(&other.limbs);
        wide.iter().rev().gt(against.iter().rev())
    }

    fn wide_product(&self, other: &Self) -> [u64; 2 * LIMBS] {
        let mut wide = [0; 2 * LIMBS];
        for i in 0..LIMBS {
            if self.limbs[i] == 0 {
                continue;
            }
            let mut carry = 0;
            for j in 0..LIMBS {
                (wide[i + j], carry) = step(wide[i + j], self.limbs[i], other.limbs[j], carry);
            }
            wide[i + LIMBS] = carry;
        }
        wide
    }

    /// Its decimal digits, so many behind the point, the rest cut off.
    pub fn digits(self, places: usize) -> String {
        let mut whole = [
            self.limbs[BEHIND],
            self.limbs[BEHIND + 1],
            self.limbs[BEHIND + 2],
        ];
        let mut text = vec![];
        while whole != [0; 3] || text.is_empty() {
            let mut rest = 0_u128;
            for limb in whole.iter_mut().rev() {
                let wide = rest << 64 | *limb as u128;
                (*limb, rest) = ((wide / 10) as u64, wide % 10);
            }
            text.push(char::from(b'0' + rest as u8));
        }
        text.reverse();
        let mut text: String = text.into_iter().collect();
        text.push('.');
        let mut behind = self.limbs;
        for _ in 0..places {
            behind[BEHIND..].fill(0);
            let mut carry = 0;
            for limb in &mut behind {
                (*limb, carry) = step(0, *limb, 10, carry);
            }
            text.push(char::from(b'0' + behind[BEHIND] as u8));
        }
        if self.negative {
            format!("-{text}")
        } else {
            text
        }
    }

    pub fn least(self, other: Self) -> Self {
        if other < self { other } else { self }
    }

    pub fn greatest(self, other: Self) -> Self {
        if other > self { other } else { self }
    }

    /// A number from its decimal digits behind the point.
    pub fn from_digits(whole: f64, digits: &str) -> Self {
        let ten = Long::from(10.);
        let mut behind = ZERO;
        for digit in digits.bytes().rev() {
            behind = (behind + Long::from((digit - b'0') as f64)) / ten;
        }
        Long::from(whole) + behind
    }
}

impl From<f64> for Long {
    /// All digits of a finite number below 2^190; what lies below 2^-448 is cut off.
    fn from(x: f64) -> Self {
        assert!(x.is_finite() && x.abs() < 2_f64.powi(190), "{x}");
        let bits = x.to_bits();
        let exponent = (bits >> 52 & 0x7FF) as i32;
        let fraction = bits & ((1 << 52) - 1);
        let (significand, power) = match exponent {
            0 => (fraction, -1074),
            _ => (fraction | 1 << 52, exponent - 1075),
        };
        let place = power + 64 * BEHIND as i32;
        let mut limbs = [0; LIMBS];
        if place >= 0 {
            let (k, up) = (place as usize / 64, place % 64);
            let wide = (significand as u128) << up;
            limbs[k] = wide as u64;
            if wide >> 64 != 0 {
                limbs[k + 1] = (wide >> 64) as u64;
            }
        } else if place > -64 {
            limbs[0] = significand >> -place;
        }
        Self::new(x < 0., limbs)
    }
}

impl PartialOrd for Long {
    fn partial_cmp(&self, other: &Self) -> Option<Ordering> {
        Some(self.cmp(other))
    }
}

impl Ord for Long {
    fn cmp(&self, other: &Self) -> Ordering {
        match (self.negative, other.negative) {
            (false, false) => compare(&self.limbs, &other.limbs),
            (true, true) => compare(&other.limbs, &self.limbs),
            (false, true) => Ordering::Greater,
            (true, false) => Ordering::Less,
        }
    }
}

impl Neg for Long {
    type Output = Self;
    fn neg(self) -> Self {
        Self::new(!self.negative, self.limbs)
    }
}

impl Add for Long {
    type Output = Self;
    fn add(self, other: Self) -> Self {
        if self.negative == other.negative {
            return Self::new(self.negative, plus(&self.limbs, &other.limbs));
        }
        match compare(&self.limbs, &other.limbs) {
            Ordering::Less => Self::new(other.negative, less(&other.limbs, &self.limbs)),
            _ => Self::new(self.negative, less(&self.limbs, &other.limbs)),
        }
    }
}

impl Sub for Long {
    type Output = Self;
    fn sub(self, other: Self) -> Self {
        self + -other
    }
}

impl Mul for Long {
    type Output = Self;
    fn mul(self, other: Self) -> Self {
        let wide = self.wide_product(&other);
        assert!(
            wide[BEHIND + LIMBS..].iter().all(|x| *x == 0),
            "a product is too large"
        );
        let mut limbs = [0; LIMBS];
        limbs.copy_from_slice(&wide[BEHIND..BEHIND + LIMBS]);
        Self::new(self.negative != other.negative, limbs)
    }
}

impl Div for Long {
    type Output = Self;
    /// By Newton's steps to one over the divisor, from the processor's guess, and one step more for the quotient.
    fn div(self, other: Self) -> Self {
        let mut over = Long::from(1. / other.near());
        for _ in 0..4 {
            over = over + over * (Long::from(1.) - other * over);
        }
        let quotient = self * over;
        (quotient + (self - other * quotient) * over).settled()
    }
}

impl std::fmt::Debug for Long {
    fn fmt(&self, f: &mut std::fmt::Formatter) -> std::fmt::Result {
        f.write_str(&self.digits(40))
    }
}
