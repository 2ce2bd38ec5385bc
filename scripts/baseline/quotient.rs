//! The quotient of the folded constraints by the vanishing polynomial, a chunk a coset.

use crate::air::{Air, Selectors, Window};
use crate::commitment::Committed;
use crate::dft::{interpolate, Rows};
use crate::extension::{Extension, DEGREE};
use crate::field::{inverses, BabyBear};
use crate::fri::PARAMETERS;
use crate::protocol::chunk_shifts;
#[cfg(wide)]
use crate::wide::{in_each, scattered, Packed, PackedExtension, LANES};
#[cfg(wide)]
use std::array::from_fn;

/// The points of the coset of a shift that is as large as the trace's group.
struct Coset {
    points: Vec<BabyBear>,
    /// The last point of the group itself.
    last_point: BabyBear,
    /// What the vanishing polynomial of the group is on the whole coset.
    vanishing: BabyBear,
}

impl Coset {
    fn new(log_height: usize, shift: BabyBear) -> Coset {
        let root = BabyBear::root_of_unity(log_height);
        let points = root.powers_from(shift).take(1 << log_height);
        Coset {
            points: points.collect(),
            last_point: root.inverse(),
            vanishing: shift.power(1 << log_height) - BabyBear::ONE,
        }
    }

    /// The inverses of the differences from a point.
    fn over(&self, point: BabyBear) -> Vec<BabyBear> {
        let differences: Vec<_> = self.points.iter().map(|x| *x - point).collect();
        inverses(&differences)
    }

    /// The selectors at each point.
    fn selectors(&self) -> impl Iterator<Item = Selectors<BabyBear>> + '_ {
        let (first, last) = (self.over(BabyBear::ONE), self.over(self.last_point));
        let points = self.points.iter().zip(first).zip(last);
        points.map(|((x, first), last)| Selectors {
            first: self.vanishing * first,
            last: self.vanishing * last,
            transition: *x - self.last_point,
        })
    }
}

/// Of rows on the coset of the generator, a power of two of them, those on one of the smaller
/// cosets into which it falls.
struct CosetRows<'a, const W: usize> {
    extended: &'a Rows<W>,
    first: usize,
    step: usize,
}

impl<const W: usize> CosetRows<'_, W> {
    /// The rows on the coset of chunk `chunk`, of `2^log_chunks`.
    fn new(committed: &Committed<W>, chunk: usize, log_chunks: usize) -> CosetRows<'_, W> {
        // The larger coset has the quotient's among its own points.
        let step = 1 << (PARAMETERS.log_blowup - log_chunks);
        CosetRows {
            extended: &committed.matrices[0].extended,
            first: step * chunk,
            step: step << log_chunks,
        }
    }

    /// Row `i`, where that behind the last is the first.
    #[inline(always)]
    fn row(&self, i: usize) -> &[BabyBear; W] {
        let mask = self.extended.len() - 1;
        &self.extended[(self.first + self.step * i) & mask]
    }
}

/// What a chunk is made of: columns, public values, and the powers by which the constraints are
/// folded, each over the vanishing value.
struct Chunk<'a, const W: usize, const P: usize> {
    rows: CosetRows<'a, W>,
    preprocessed: Option<CosetRows<'a, P>>,
    publics: &'a [BabyBear],
    powers: Vec<Extension>,
}

impl<const W: usize, const P: usize> Chunk<'_, W, P> {
    /// The quotient's value at a point.
    #[inline(always)]
    fn value<A: Air<W, P>>(&self, i: usize, selectors: Selectors<BabyBear>) -> [BabyBear; DEGREE] {
        let preprocessed = self.preprocessed.as_ref();
        let window = Window {
            local: self.rows.row(i),
            next: self.rows.row(i + 1),
            preprocessed: preprocessed.map_or(&[BabyBear::ZERO; P], |rows| rows.row(i)),
            selectors,
        };
        let (mut sum, mut powers) = (Extension::ZERO, self.powers.iter());
        A::constraints(window, self.publics, &mut |value| {
            if let Some(power) = powers.next() {
                sum += power.scaled(value);
            }
        });
        sum.0
    }
}

#[cfg(wide)]
impl<const W: usize, const P: usize> Chunk<'_, W, P> {
    /// The quotient's values at eight points, from the point `i` on.
    #[inline(always)]
    fn eight_values<A: Air<W, P>>(
        &self,
        i: usize,
        selectors: &[Selectors<BabyBear>; LANES],
        powers: &[PackedExtension],
    ) -> [Extension; LANES] {
        let rows: [_; LANES + 1] = from_fn(|lane| self.rows.row(i + lane));
        let preprocessed = self.preprocessed.as_ref();
        let beside: [&[BabyBear; P]; LANES] =
            from_fn(|lane| preprocessed.map_or(&[BabyBear::ZERO; P], |rows| rows.row(i + lane)));
        let window = Window {
            local: &from_fn(|c| Packed::of(|lane| rows[lane][c])),
            next: &from_fn(|c| Packed::of(|lane| rows[lane + 1][c])),
            preprocessed: &from_fn(|c| Packed::of(|lane| beside[lane][c])),
            selectors: Selectors {
                first: Packed::of(|lane| selectors[lane].first),
                last: Packed::of(|lane| selectors[lane].last),
                transition: Packed::of(|lane| selectors[lane].transition),
            },
        };
        let (mut sum, mut powers) = (in_each(Extension::ZERO), powers.iter());
        A::constraints(window, self.publics, &mut |value| {
            if let Some(power) = powers.next() {
                sum += power.scaled(value);
            }
        });
        scattered(sum)
    }

    /// The quotient's values at all points.
    fn values<A: Air<W, P>>(&self, selectors: Vec<Selectors<BabyBear>>) -> Rows<DEGREE> {
        let powers: Vec<_> = self.powers.iter().copied().map(in_each).collect();
        let (eights, rest) = selectors.as_chunks::<LANES>();
        let mut values = Vec::with_capacity(selectors.len());
        for (k, eight) in eights.iter().enumerate() {
            let found = self.eight_values::<A>(LANES * k, eight, &powers);
            values.extend(found.map(|value| value.0));
        }
        for (i, selectors) in (values.len()..).zip(rest) {
            values.push(self.value::<A>(i, *selectors));
        }
        values
    }
}

#[cfg(not(wide))]
impl<const W: usize, const P: usize> Chunk<'_, W, P> {
    /// The quotient's values at all points.
    fn values<A: Air<W, P>>(
        &self,
        selectors: impl Iterator<Item = Selectors<BabyBear>>,
    ) -> Rows<DEGREE> {
        let each = selectors.enumerate();
        each.map(|(i, selectors)| self.value::<A>(i, selectors))
            .collect()
    }
}

/// The columns of the quotient's chunks, by their coefficients. The powers of alpha are those by
/// which the constraints are folded.
pub fn quotient_chunks<A: Air<W, P>, const W: usize, const P: usize>(
    trace: &Committed<W>,
    preprocessed: Option<&Committed<P>>,
    publics: &[BabyBear],
    powers: &[Extension],
) -> Vec<Rows<DEGREE>> {
    let log_height = trace.matrices[0].coefficients.len().trailing_zeros() as usize;
    let chunk = |(i, shift)| {
        let coset = Coset::new(log_height, shift);
        let inverse = coset.vanishing.inverse();
        let chunk = Chunk {
            rows: CosetRows::new(trace, i, A::LOG_CHUNKS),
            preprocessed: preprocessed.map(|one| CosetRows::new(one, i, A::LOG_CHUNKS)),
            publics,
            powers: powers.iter().map(|power| power.scaled(inverse)).collect(),
        };
        #[cfg(wide)]
        let values = chunk.values::<A>(coset.selectors().collect());
        #[cfg(not(wide))]
        let values = chunk.values::<A>(coset.selectors());
        interpolate(values, shift)
    };
    let shifts = chunk_shifts(log_height, A::LOG_CHUNKS);
    shifts.into_iter().enumerate().map(chunk).collect()
}
