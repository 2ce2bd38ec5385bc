//! What an AIR is: columns, and constraints over two rows that follow each other.

use crate::dft::Rows;
use crate::field::{Algebra, BabyBear};
#[cfg(wide)]
use crate::wide::{Packed, LANES};
#[cfg(wide)]
use std::array::from_fn;

/// The selectors of the first row, of the last one, and of all but the last.
#[derive(Clone, Copy)]
pub struct Selectors<T> {
    pub first: T,
    pub last: T,
    pub transition: T,
}

/// What constraints are over: a row and the next, of the main columns, and of the preprocessed
/// ones the row that stands beside the first.
#[derive(Clone, Copy)]
pub struct Window<'a, T, const W: usize, const P: usize> {
    pub local: &'a [T; W],
    pub next: &'a [T; W],
    pub preprocessed: &'a [T; P],
    pub selectors: Selectors<T>,
}

/// An AIR of `W` main columns and `P` preprocessed ones, of which no next row is read.
pub trait Air<const W: usize, const P: usize> {
    /// The digest by which a statement's AIR is known to be this one.
    const DIGEST: &'static str;

    const PUBLIC_VALUES: usize;

    const CONSTRAINTS: usize;

    /// The greatest degree of a constraint, in which the transition's selector doesn't count.
    const DEGREE: usize;

    /// The logarithm of the number of the quotient's chunks, each as long as the trace.
    const LOG_CHUNKS: usize = (Self::DEGREE - 1).next_power_of_two().trailing_zeros() as usize;

    /// Hands over the constraints' values, in the order in which they are folded.
    fn constraints<T: Algebra>(
        window: Window<T, W, P>,
        publics: &[BabyBear],
        zero: &mut impl FnMut(T),
    );
}

/// The rows of a trace, those beside them, and the public values.
struct Checked<'a, const W: usize, const P: usize> {
    rows: &'a Rows<W>,
    preprocessed: Option<&'a Rows<P>>,
    publics: &'a [BabyBear],
}

impl<const W: usize, const P: usize> Checked<'_, W, P> {
    /// Row `i`, where that after the last is the first.
    fn row(&self, i: usize) -> &[BabyBear; W] {
        &self.rows[if i < self.rows.len() { i } else { 0 }]
    }

    fn beside(&self, i: usize) -> &[BabyBear; P] {
        self.preprocessed
            .map_or(&[BabyBear::ZERO; P], |rows| &rows[i])
    }

    fn selectors(&self, i: usize) -> Selectors<BabyBear> {
        let one_if = |holds| if holds { BabyBear::ONE } else { BabyBear::ZERO };
        let is_last = i + 1 == self.rows.len();
        Selectors {
            first: one_if(i == 0),
            last: one_if(is_last),
            transition: one_if(!is_last),
        }
    }

    /// The first constraint that row `i` breaks.
    fn broken_in<A: Air<W, P>>(&self, i: usize) -> Option<(usize, usize)> {
        let window = Window {
            local: self.row(i),
            next: self.row(i + 1),
            preprocessed: self.beside(i),
            selectors: self.selectors(i),
        };
        let (mut count, mut broken) = (0, None);
        A::constraints(window, self.publics, &mut |value| {
            if value != BabyBear::ZERO && broken.is_none() {
                broken = Some((i, count));
            }
            count += 1;
        });
        broken
    }

    /// Whether none of the eight rows from `i` on breaks a constraint.
    #[cfg(wide)]
    fn eight_hold<A: Air<W, P>>(&self, i: usize) -> bool {
        let selectors: [_; LANES] = from_fn(|lane| self.selectors(i + lane));
        let window = Window {
            local: &from_fn(|c| Packed::of(|lane| self.rows[i + lane][c])),
            next: &from_fn(|c| Packed::of(|lane| self.row(i + lane + 1)[c])),
            preprocessed: &from_fn(|c| Packed::of(|lane| self.beside(i + lane)[c])),
            selectors: Selectors {
                first: Packed::of(|lane| selectors[lane].first),
                last: Packed::of(|lane| selectors[lane].last),
                transition: Packed::of(|lane| selectors[lane].transition),
            },
        };
        let mut hold = true;
        A::constraints(window, self.publics, &mut |value: Packed| {
            hold &= value.is_zero()
        });
        hold
    }
}

/// The first row, with the constraint, that the trace breaks.
pub fn first_broken<A: Air<W, P>, const W: usize, const P: usize>(
    rows: &Rows<W>,
    preprocessed: Option<&Rows<P>>,
    publics: &[BabyBear],
) -> Option<(usize, usize)> {
    let checked = Checked {
        rows,
        preprocessed,
        publics,
    };
    #[cfg(wide)]
    let first = (0..rows.len() / LANES)
        .find(|k| !checked.eight_hold::<A>(k * LANES))
        .unwrap_or(rows.len() / LANES)
        * LANES;
    #[cfg(not(wide))]
    let first = 0;
    (first..rows.len()).find_map(|i| checked.broken_in::<A>(i))
}
