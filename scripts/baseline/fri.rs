//! FRI, folding by two: its parameters, what is claimed, and what both sides do.

use crate::challenger::Challenger;
use crate::extension::Extension;
use crate::field::{Algebra, BabyBear};
use crate::sha256::Digest;

/// The configuration that is meant where a statement names none.
pub struct Parameters {
    pub log_blowup: usize,
    pub num_queries: usize,
    pub query_bits: usize,
}

pub const PARAMETERS: Parameters = Parameters {
    log_blowup: 2,
    num_queries: 120,
    query_bits: 16,
};

impl Parameters {
    /// The five numbers of FRI. The folds lead to a constant, and there is no work before them.
    pub fn numbers(&self) -> [usize; 5] {
        [self.log_blowup, 0, self.num_queries, 0, self.query_bits]
    }
}

/// The values of a matrix's columns at points.
pub type Points = Vec<(Extension, Vec<Extension>)>;

/// What is said of a commitment's matrices.
pub struct Claim {
    pub root: Digest,
    pub matrices: Vec<Points>,
}

/// The parameters and the claims, as the transcript has them before anything is drawn.
pub fn observe_claims(challenger: &mut Challenger, log_height: usize, claims: &[Claim]) {
    for number in PARAMETERS.numbers() {
        challenger.observe_number(number);
    }
    challenger.observe_number(claims.len());
    for claim in claims {
        challenger.observe_number(claim.matrices.len());
        challenger.observe_root(&claim.root);
        for points in &claim.matrices {
            challenger.observe_number(log_height);
            observe_points(challenger, points);
        }
    }
}

fn observe_points(challenger: &mut Challenger, points: &Points) {
    challenger.observe_number(points.len());
    for (point, values) in points {
        challenger.observe_extension(*point);
        challenger.observe_number(values.len());
        for value in values {
            challenger.observe_extension(*value);
        }
    }
}

/// The value at `x^2` of the folded word, from those at `x` and at `-x`, by `1 / (2 x)`.
#[inline(always)]
pub fn fold_pair<T: Algebra>(
    beta: Extension<T>,
    half: T,
    inverse: T,
    low: Extension<T>,
    high: Extension<T>,
) -> Extension<T> {
    (low + high).scaled(half) + beta * (low - high).scaled(inverse)
}

/// A half, and the inverse of twice an element.
pub fn half_and_inverse(x: BabyBear) -> (BabyBear, BabyBear) {
    let half = BabyBear::new(2).inverse();
    (half, half * x.inverse())
}
