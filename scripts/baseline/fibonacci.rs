//! Fibonacci's AIR: two columns, of which each row is the sum of the row before.

use crate::air::{Air, Window};
use crate::field::{Algebra, BabyBear};

/// How many columns there are.
pub const WIDTH: usize = 2;

/// The AIR. Its public values are both numbers of the first row, and the last number.
pub struct Fibonacci;

impl Air<WIDTH, 0> for Fibonacci {
    const DIGEST: &'static str = "3f7ad4d356178c9d894d1ec3f551ca81c8181f99d4b98acbf61d822de05e8c08";
    const PUBLIC_VALUES: usize = 3;
    const CONSTRAINTS: usize = 5;
    const DEGREE: usize = 2;

    #[inline(always)]
    fn constraints<T: Algebra>(
        window: Window<T, WIDTH, 0>,
        publics: &[BabyBear],
        zero: &mut impl FnMut(T),
    ) {
        let ([a, b], [next_a, next_b]) = (*window.local, *window.next);
        let selectors = window.selectors;
        zero(selectors.first * (a - publics[0].into()));
        zero(selectors.first * (b - publics[1].into()));
        zero(selectors.transition * (next_a - b));
        zero(selectors.transition * (next_b - (a + b)));
        zero(selectors.last * (b - publics[2].into()));
    }
}
