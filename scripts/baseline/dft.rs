//! Radix-2 transforms of all columns of a matrix at once, row by row.

use crate::field::BabyBear;
#[cfg(wide)]
use crate::wide::{Packed, LANES};

/// A matrix of `W` columns, as rows.
pub type Rows<const W: usize> = Vec<[BabyBear; W]>;

/// Each row to the place whose number has its bits the other way round.
fn reverse_bits<const W: usize>(rows: &mut [[BabyBear; W]]) {
    let log_size = rows.len().trailing_zeros();
    for i in 1..rows.len() {
        let j = i.reverse_bits() >> (usize::BITS - log_size);
        if i < j {
            rows.swap(i, j);
        }
    }
}

/// The sums and differences of the rows of two halves, the second times the twiddles.
#[cfg(wide)]
fn butterflies<const W: usize>(
    low: &mut [[BabyBear; W]],
    high: &mut [[BabyBear; W]],
    twiddles: &[BabyBear],
) {
    by_lanes(low, high, twiddles, |even, odd, twiddle| {
        let product = *odd * twiddle;
        (*even, *odd) = (*even + product, *even - product);
    });
}

/// Changes the elements of two lists of rows, each by a factor of its row.
#[cfg(wide)]
#[inline(always)]
fn by_lanes<const W: usize>(
    low: &mut [[BabyBear; W]],
    high: &mut [[BabyBear; W]],
    factors: &[BabyBear],
    change: impl Fn(&mut Packed, &mut Packed, Packed),
) {
    let both = |even: &mut [BabyBear; LANES], odd: &mut [BabyBear; LANES], factor: Packed| {
        let (mut x, mut y) = (Packed::load(even), Packed::load(odd));
        change(&mut x, &mut y, factor);
        x.store(even);
        y.store(odd);
    };
    if W > 0 && LANES % W == 0 && low.len() * W >= LANES {
        // Narrow rows, several in a vector.
        let (low, high) = (low.as_flattened_mut(), high.as_flattened_mut());
        let pairs = low.as_chunks_mut().0.iter_mut().zip(high.as_chunks_mut().0);
        for ((even, odd), factors) in pairs.zip(factors.chunks_exact(LANES / W)) {
            both(even, odd, Packed::of(|i| factors[i / W]));
        }
        return;
    }
    for ((even, odd), factor) in low.iter_mut().zip(high).zip(factors) {
        let ((even, even_rest), (odd, odd_rest)) = (even.as_chunks_mut(), odd.as_chunks_mut());
        let factor = Packed::from(*factor);
        for (even, odd) in even.iter_mut().zip(odd) {
            both(even, odd, factor);
        }
        // What is left of the row, in the front lanes of a vector of zeros.
        let (mut x, mut y) = ([BabyBear::ZERO; LANES], [BabyBear::ZERO; LANES]);
        x[..even_rest.len()].copy_from_slice(even_rest);
        y[..odd_rest.len()].copy_from_slice(odd_rest);
        both(&mut x, &mut y, factor);
        even_rest.copy_from_slice(&x[..even_rest.len()]);
        odd_rest.copy_from_slice(&y[..odd_rest.len()]);
    }
}

/// The sums and differences of the rows of two halves, the second times the twiddles.
#[cfg(not(wide))]
fn butterflies<const W: usize>(
    low: &mut [[BabyBear; W]],
    high: &mut [[BabyBear; W]],
    twiddles: &[BabyBear],
) {
    for ((even, odd), twiddle) in low.iter_mut().zip(high).zip(twiddles) {
        for (x, y) in even.iter_mut().zip(odd) {
            let product = *y * *twiddle;
            (*x, *y) = (*x + product, *x - product);
        }
    }
}

/// Coefficients to the values at the powers of a root whose order is their number.
fn transform<const W: usize>(rows: &mut [[BabyBear; W]], root: BabyBear) {
    reverse_bits(rows);
    let log_size = rows.len().trailing_zeros();
    for level in 0..log_size {
        let half = 1 << level;
        let ratio = root.power(1 << (log_size - 1 - level));
        let twiddles: Vec<_> = ratio.powers_from(BabyBear::ONE).take(half).collect();
        for block in rows.chunks_exact_mut(2 * half) {
            let (low, high) = block.split_at_mut(half);
            butterflies(low, high, &twiddles);
        }
    }
}

/// Each row times the power of the base with its number, the first times `first`.
#[cfg(wide)]
fn scale<const W: usize>(rows: &mut [[BabyBear; W]], first: BabyBear, base: BabyBear) {
    let factors = Packed::powers_from(base, first).flat_map(Packed::lanes);
    for (row, factor) in rows.iter_mut().zip(factors) {
        for value in row {
            *value *= factor;
        }
    }
}

/// Each row times the power of the base with its number, the first times `first`.
#[cfg(not(wide))]
fn scale<const W: usize>(rows: &mut [[BabyBear; W]], first: BabyBear, base: BabyBear) {
    for (row, factor) in rows.iter_mut().zip(base.powers_from(first)) {
        for value in row {
            *value *= factor;
        }
    }
}

/// The values on the coset of the shift with `2^log_size` points, of columns with at most as many
/// coefficients.
pub fn evaluate<const W: usize>(
    coefficients: &[[BabyBear; W]],
    shift: BabyBear,
    log_size: usize,
) -> Rows<W> {
    let mut rows = Vec::with_capacity(1 << log_size);
    rows.extend_from_slice(coefficients);
    scale(&mut rows, BabyBear::ONE, shift);
    rows.resize(1 << log_size, [BabyBear::ZERO; W]);
    transform(&mut rows, BabyBear::root_of_unity(log_size));
    rows
}

/// The coefficients of the columns with these values on the coset of the shift.
pub fn interpolate<const W: usize>(mut values: Rows<W>, shift: BabyBear) -> Rows<W> {
    let log_size = values.len().trailing_zeros() as usize;
    transform(&mut values, BabyBear::root_of_unity(log_size).inverse());
    let size = BabyBear::new(values.len() as u32);
    scale(&mut values, size.inverse(), shift.inverse());
    values
}
