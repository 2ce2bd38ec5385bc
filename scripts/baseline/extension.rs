//! The extension of degree four by a root of X^4 - 11.

use crate::field::{Algebra, BabyBear};
use std::ops::{Add, AddAssign, Mul, Sub};

/// How many coordinates an element has.
pub const DEGREE: usize = 4;

/// The fourth power of X.
const ELEVEN: BabyBear = BabyBear::new(11);

/// The element whose coordinates of 1, X, X^2 and X^3 these are.
#[derive(Clone, Copy, Debug, Default, PartialEq, Eq)]
pub struct Extension<T = BabyBear>(pub [T; DEGREE]);

impl Extension {
    pub const ZERO: Extension = Extension([BabyBear::ZERO; DEGREE]);
    pub const ONE: Extension = Extension([
        BabyBear::ONE,
        BabyBear::ZERO,
        BabyBear::ZERO,
        BabyBear::ZERO,
    ]);

    /// The power with the exponent `2^times`.
    pub fn squared(self, times: usize) -> Extension {
        (0..times).fold(self, |power, _| power * power)
    }

    /// The conjugate `a(-X)`: its product with the element has no odd powers of X.
    fn conjugate(self) -> Extension {
        let [a, b, c, d] = self.0;
        Extension([a, -b, c, -d])
    }

    /// The inverse of an element that isn't zero, by norms down to the base field.
    pub fn inverse(self) -> Extension {
        let conjugate = self.conjugate();
        let Extension([a, _, c, _]) = self * conjugate;
        let norm = (a * a - ELEVEN * c * c).inverse();
        conjugate * Extension([a * norm, BabyBear::ZERO, -c * norm, BabyBear::ZERO])
    }

    /// 1, the element, its square, and so on: `count` powers.
    pub fn powers(self, count: usize) -> Vec<Extension> {
        std::iter::successors(Some(Extension::ONE), |power| Some(*power * self))
            .take(count)
            .collect()
    }
}

impl Algebra for Extension {}

impl From<BabyBear> for Extension {
    fn from(element: BabyBear) -> Extension {
        Extension([element, BabyBear::ZERO, BabyBear::ZERO, BabyBear::ZERO])
    }
}

impl<T: Algebra> Extension<T> {
    /// The element times one of the base field.
    #[inline(always)]
    pub fn scaled(self, factor: T) -> Extension<T> {
        Extension(self.0.map(|coordinate| coordinate * factor))
    }
}

impl<T: Algebra> Add for Extension<T> {
    type Output = Extension<T>;
    #[inline(always)]
    fn add(self, other: Extension<T>) -> Extension<T> {
        let ([a, b, c, d], [e, f, g, h]) = (self.0, other.0);
        Extension([a + e, b + f, c + g, d + h])
    }
}

impl<T: Algebra> AddAssign for Extension<T> {
    #[inline(always)]
    fn add_assign(&mut self, other: Extension<T>) {
        *self = *self + other;
    }
}

impl<T: Algebra> Sub for Extension<T> {
    type Output = Extension<T>;
    #[inline(always)]
    fn sub(self, other: Extension<T>) -> Extension<T> {
        let ([a, b, c, d], [e, f, g, h]) = (self.0, other.0);
        Extension([a - e, b - f, c - g, d - h])
    }
}

impl<T: Algebra> Mul for Extension<T> {
    type Output = Extension<T>;
    #[inline(always)]
    fn mul(self, other: Extension<T>) -> Extension<T> {
        let ([a, b, c, d], [e, f, g, h]) = (self.0, other.0);
        let eleven = T::from(ELEVEN);
        Extension([
            a * e + eleven * (b * h + c * g + d * f),
            a * f + b * e + eleven * (c * h + d * g),
            a * g + b * f + c * e + eleven * (d * h),
            a * h + b * g + c * f + d * e,
        ])
    }
}
