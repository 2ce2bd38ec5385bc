//! The verifier: the transcript, the openings, and the constraints at zeta.

use crate::air::{Air, Selectors, Window};
use crate::extension::{Extension, DEGREE};
use crate::field::{Algebra, BabyBear, TWO_ADICITY};
use crate::fri::PARAMETERS;
use crate::fri_verifier::{ensure, verify as verify_claims, Refusal};
use crate::proof::Proof;
use crate::protocol::{chunk_shifts, claims, transcript};
use crate::prover::commit_rows;
use crate::sha256::Digest;
use crate::statement::Statement;
use std::array::from_fn;

/// The selectors at a point that isn't in the group, and the vanishing value there.
fn selectors_at(point: Extension, log_height: usize) -> (Selectors<Extension>, Extension) {
    let last_point = Extension::from(BabyBear::root_of_unity(log_height).inverse());
    let vanishing = point.squared(log_height) - Extension::ONE;
    let transition = point - last_point;
    let selectors = Selectors {
        first: vanishing * (point - Extension::ONE).inverse(),
        last: vanishing * transition.inverse(),
        transition,
    };
    (selectors, vanishing)
}

/// The element of the extension whose coordinates are polynomials with these values.
fn recomposed(chunk: [Extension; DEGREE]) -> Extension {
    let basis = |i| {
        let coordinate = |j| {
            if i == j {
                BabyBear::ONE
            } else {
                BabyBear::ZERO
            }
        };
        Extension(from_fn(coordinate))
    };
    let terms = chunk.iter().enumerate();
    terms.fold(Extension::ZERO, |sum, (i, value)| sum + basis(i) * *value)
}

/// A list of so many elements.
fn exactly<T: Algebra, const N: usize>(list: &[T]) -> Result<[T; N], Refusal> {
    list.try_into().map_err(|_| "the number of opened values")
}

/// The quotient's value at zeta: each chunk's times the polynomial that is 1 on its coset and 0 on
/// the others.
fn quotient_at(
    chunks: &[Vec<Extension>],
    log_height: usize,
    log_chunks: usize,
    zeta: Extension,
) -> Result<Extension, Refusal> {
    // A power that is the same at all points of a coset tells the cosets apart.
    let powers: Vec<_> = chunk_shifts(log_height, log_chunks)
        .iter()
        .map(|shift| shift.power(1 << log_height))
        .collect();
    let power = zeta.squared(log_height);
    let mut quotient = Extension::ZERO;
    for (i, chunk) in chunks.iter().enumerate() {
        let mut value = recomposed(exactly(chunk)?);
        for other in powers[..i].iter().chain(&powers[i + 1..]) {
            let inverse = (powers[i] - *other).inverse();
            value = value * (power - Extension::from(*other)).scaled(inverse);
        }
        quotient += value;
    }
    Ok(quotient)
}

/// Tests that the constraints hold at zeta.
fn check_equation<A: Air<W, P>, const W: usize, const P: usize>(
    proof: &Proof,
    publics: &[BabyBear],
    alpha: Extension,
    zeta: Extension,
) -> Result<(), Refusal> {
    let (selectors, vanishing) = selectors_at(zeta, proof.log_height);
    let window = Window {
        local: &exactly(&proof.local)?,
        next: &exactly(&proof.next)?,
        preprocessed: &exactly(proof.preprocessed.as_deref().unwrap_or(&[]))?,
        selectors,
    };
    let mut folded = Extension::ZERO;
    A::constraints(window, publics, &mut |value| {
        folded = folded * alpha + value
    });
    let quotient = quotient_at(&proof.chunks, proof.log_height, A::LOG_CHUNKS, zeta)?;
    ensure(folded == vanishing * quotient, "the constraints at zeta")
}

/// Tests the height, and how many values are opened.
fn check_shape<A: Air<W, P>, const W: usize, const P: usize>(
    statement: &Statement<P>,
    proof: &Proof,
) -> Result<(), Refusal> {
    let is_high = proof.log_height <= TWO_ADICITY - PARAMETERS.log_blowup;
    ensure(is_high, "the height")?;
    let has_height = |rows: &Vec<_>| rows.len() == 1 << proof.log_height;
    let are_beside = statement.preprocessed.as_ref().is_none_or(has_height);
    ensure(are_beside, "the height of the preprocessed columns")?;
    let are_opened = statement.preprocessed.is_some() == proof.preprocessed.is_some();
    ensure(are_opened, "the preprocessed values")?;
    ensure(
        proof.chunks.len() == 1 << A::LOG_CHUNKS,
        "the number of chunks",
    )
}

/// The root of the preprocessed columns' tree.
fn preprocessed_root<const P: usize>(statement: &mut Statement<P>) -> Option<Digest> {
    let rows = statement.preprocessed.take()?;
    Some(commit_rows(rows).root())
}

/// Tests that there is a trace for a proof, but for a small chance.
pub fn verify<A: Air<W, P>, const W: usize, const P: usize>(
    mut statement: Statement<P>,
    proof: &Proof,
) -> Result<(), Refusal> {
    let log_height = proof.log_height;
    check_shape::<A, W, P>(&statement, proof)?;
    let fixed_root = preprocessed_root(&mut statement);
    let mut challenger =
        transcript::<A, W, P>(&statement, log_height, &proof.trace_root, fixed_root);
    let alpha = challenger.draw();
    challenger.observe_root(&proof.quotient_root);
    let zeta = challenger.draw();
    let is_outside = zeta.squared(log_height) != Extension::ONE;
    ensure(is_outside, "zeta in the group")?;
    let claims = claims(proof, fixed_root, zeta);
    verify_claims(log_height, &claims, &proof.opening, &mut challenger)?;
    check_equation::<A, W, P>(proof, &statement.publics, alpha, zeta)
}
