//! BabyBear, the field of p = 2^31 - 2^27 + 1 elements, by Montgomery's method.

use std::ops::{Add, AddAssign, Mul, MulAssign, Neg, Sub};

/// The modulus.
pub const P: u32 = 0x7800_0001;

/// The logarithm of the greatest group of a power of two.
pub const TWO_ADICITY: usize = 27;

/// The inverse of p modulo 2^32.
pub const P_INVERSE: u32 = 0x8800_0001;

/// 2^64 modulo p.
const R_SQUARED: u32 = 1_172_168_163;

/// An element of order 2^27.
const ROOT: u32 = 440_564_289;

/// What constraints and polynomials are computed in: the field, or its extension.
pub trait Algebra:
    Copy + Add<Output = Self> + Sub<Output = Self> + Mul<Output = Self> + From<BabyBear>
{
}

/// An element `a`, as `a * 2^32` modulo p.
#[derive(Clone, Copy, Debug, Default, PartialEq, Eq)]
#[repr(transparent)]
pub struct BabyBear(u32);

/// `x / 2^32` modulo p, of an `x` below `p * 2^32`.
#[inline(always)]
const fn reduce(x: u64) -> u32 {
    let multiple = (x as u32).wrapping_mul(P_INVERSE) as u64 * P as u64;
    let (difference, is_below) = ((x >> 32) as u32).overflowing_sub((multiple >> 32) as u32);
    if is_below {
        difference.wrapping_add(P)
    } else {
        difference
    }
}

impl BabyBear {
    pub const ZERO: BabyBear = BabyBear(0);
    pub const ONE: BabyBear = BabyBear::new(1);

    /// A generator of the multiplicative group.
    pub const GENERATOR: BabyBear = BabyBear::new(31);

    /// The element of a number below p.
    pub const fn new(number: u32) -> BabyBear {
        BabyBear(reduce(number as u64 * R_SQUARED as u64))
    }

    /// The element of a number, if that is below p.
    pub fn checked(number: u64) -> Option<BabyBear> {
        (number < P as u64).then(|| BabyBear::new(number as u32))
    }

    /// The element as it is kept.
    #[cfg(wide)]
    pub const fn word(self) -> u32 {
        self.0
    }

    /// The number of the element, below p.
    pub const fn number(self) -> u32 {
        reduce(self.0 as u64)
    }

    /// The power by squaring and multiplying.
    pub fn power(self, exponent: u64) -> BabyBear {
        let (mut power, mut square, mut rest) = (BabyBear::ONE, self, exponent);
        while rest > 0 {
            if rest & 1 == 1 {
                power *= square;
            }
            square *= square;
            rest >>= 1;
        }
        power
    }

    /// The inverse; zero of zero.
    pub fn inverse(self) -> BabyBear {
        self.power(P as u64 - 2)
    }

    /// The element of order `2^log_size` whose squares are those of the smaller sizes.
    pub fn root_of_unity(log_size: usize) -> BabyBear {
        BabyBear::new(ROOT).power(1 << (TWO_ADICITY - log_size))
    }

    /// `first`, `first * self`, `first * self^2`, and so on without an end.
    pub fn powers_from(self, first: BabyBear) -> impl Iterator<Item = BabyBear> {
        std::iter::successors(Some(first), move |power| Some(*power * self))
    }
}

impl Algebra for BabyBear {}

impl Add for BabyBear {
    type Output = BabyBear;
    #[inline(always)]
    fn add(self, other: BabyBear) -> BabyBear {
        let sum = self.0 + other.0;
        BabyBear(sum.min(sum.wrapping_sub(P)))
    }
}

impl Sub for BabyBear {
    type Output = BabyBear;
    #[inline(always)]
    fn sub(self, other: BabyBear) -> BabyBear {
        let difference = self.0.wrapping_sub(other.0);
        BabyBear(difference.min(difference.wrapping_add(P)))
    }
}

impl Mul for BabyBear {
    type Output = BabyBear;
    #[inline(always)]
    fn mul(self, other: BabyBear) -> BabyBear {
        BabyBear(reduce(self.0 as u64 * other.0 as u64))
    }
}

impl Neg for BabyBear {
    type Output = BabyBear;
    fn neg(self) -> BabyBear {
        BabyBear::ZERO - self
    }
}

impl AddAssign for BabyBear {
    #[inline(always)]
    fn add_assign(&mut self, other: BabyBear) {
        *self = *self + other;
    }
}

impl MulAssign for BabyBear {
    #[inline(always)]
    fn mul_assign(&mut self, other: BabyBear) {
        *self = *self * other;
    }
}

#[cfg(wide)]
pub use crate::wide::inverses;

/// The inverses of elements that aren't zero, by one inversion and three products each.
#[cfg(not(wide))]
pub fn inverses(elements: &[BabyBear]) -> Vec<BabyBear> {
    let mut product = BabyBear::ONE;
    let mut inverses = Vec::with_capacity(elements.len());
    for element in elements {
        inverses.push(product);
        product *= *element;
    }
    let mut rest = product.inverse();
    for (inverse, element) in inverses.iter_mut().zip(elements).rev() {
        *inverse *= rest;
        rest *= *element;
    }
    inverses
}
