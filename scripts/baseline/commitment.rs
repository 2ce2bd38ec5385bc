//! Commitments to columns: trees over their values on a larger coset.

use crate::dft::{evaluate, Rows};
use crate::extension::Extension;
use crate::field::BabyBear;
use crate::fri::PARAMETERS;
use crate::merkle::{leaves, write_rows, Tree};
use crate::proof::RowsOpening;
use crate::sha256::Digest;
#[cfg(wide)]
use crate::wide::{apart, beside, by_two, Packed};

/// Columns, and their values on the coset of the generator.
pub struct Matrix<const W: usize> {
    pub coefficients: Rows<W>,
    pub extended: Rows<W>,
}

impl<const W: usize> Matrix<W> {
    fn new(coefficients: Rows<W>) -> Matrix<W> {
        let bits = coefficients.len().trailing_zeros() as usize + PARAMETERS.log_blowup;
        let extended = evaluate(&coefficients, BabyBear::GENERATOR, bits);
        Matrix {
            coefficients,
            extended,
        }
    }

    /// The columns' values at a point.
    #[cfg(wide)]
    pub fn values_at(&self, point: Extension) -> Vec<Extension> {
        let mut pairs = vec![Packed::from(BabyBear::ZERO); W.div_ceil(2)];
        let mut power = Extension::ONE;
        for row in &self.coefficients {
            let both = beside(power, power);
            for (pair, coefficients) in pairs.iter_mut().zip(by_two(row)) {
                *pair = *pair + both * coefficients;
            }
            power = power * point;
        }
        pairs.into_iter().flat_map(apart).take(W).collect()
    }

    /// The columns' values at a point.
    #[cfg(not(wide))]
    pub fn values_at(&self, point: Extension) -> Vec<Extension> {
        let (mut values, mut power) = ([Extension::ZERO; W], Extension::ONE);
        for row in &self.coefficients {
            for (value, coefficient) in values.iter_mut().zip(row) {
                *value += power.scaled(*coefficient);
            }
            power = power * point;
        }
        values.to_vec()
    }
}

/// Matrices of one height, and the tree over their rows.
pub struct Committed<const W: usize> {
    pub matrices: Vec<Matrix<W>>,
    tree: Tree,
}

impl<const W: usize> Committed<W> {
    /// The commitment to columns, a matrix of coefficients each.
    pub fn new(matrices: Vec<Rows<W>>) -> Committed<W> {
        let matrices: Vec<_> = matrices.into_iter().map(Matrix::new).collect();
        let leaves = leaves(matrices[0].extended.len(), |place, bytes| {
            write_rows(bytes, rows_at(&matrices, place))
        });
        Committed {
            tree: Tree::new(leaves),
            matrices,
        }
    }

    pub fn root(&self) -> Digest {
        self.tree.root()
    }

    /// The rows at a place, and their path.
    pub fn open(&self, place: usize) -> RowsOpening {
        RowsOpening {
            rows: rows_at(&self.matrices, place).map(<[_]>::to_vec).collect(),
            path: self.tree.path(place),
        }
    }
}

/// The row of each matrix at a place.
fn rows_at<const W: usize>(
    matrices: &[Matrix<W>],
    place: usize,
) -> impl ExactSizeIterator<Item = &[BabyBear]> {
    matrices
        .iter()
        .map(move |matrix| &matrix.extended[place][..])
}
