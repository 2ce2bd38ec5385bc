//! FRI's verifier.

use crate::challenger::Challenger;
use crate::extension::Extension;
use crate::field::BabyBear;
use crate::fri::{fold_pair, half_and_inverse, observe_claims, Claim, PARAMETERS};
use crate::merkle::{all_lead, leaf_text, write_pair, write_rows, Way};
use crate::proof::{FriProof, LayerOpening, RowsOpening};
use crate::sha256::Digest;

/// Why a proof is refused.
pub type Refusal = &'static str;

/// Goes on where the condition holds.
pub fn ensure(condition: bool, refusal: Refusal) -> Result<(), Refusal> {
    if condition {
        Ok(())
    } else {
        Err(refusal)
    }
}

/// What the transcript of a proof draws.
struct Drawn {
    alpha: Extension,
    betas: Vec<Extension>,
    places: Vec<usize>,
}

/// Plays the transcript, and tests the work.
fn replay(
    log_height: usize,
    claims: &[Claim],
    proof: &FriProof,
    challenger: &mut Challenger,
) -> Result<Drawn, Refusal> {
    let bits = log_height + PARAMETERS.log_blowup;
    observe_claims(challenger, log_height, claims);
    let alpha = challenger.draw();
    let beta = |root: &Digest| {
        challenger.observe_root(root);
        challenger.draw()
    };
    let betas = proof.roots.iter().map(beta).collect();
    challenger.observe_extension(proof.last[0]);
    let passes = challenger.check_witness(PARAMETERS.query_bits, proof.witness);
    ensure(passes, "the work before the queries")?;
    let places = (0..PARAMETERS.num_queries)
        .map(|_| challenger.draw_bits(bits))
        .collect();
    Ok(Drawn {
        alpha,
        betas,
        places,
    })
}

/// The batch's value at a point of the larger coset, from the opened rows.
fn batched(claims: &[Claim], inputs: &[RowsOpening], alpha: Extension, x: BabyBear) -> Extension {
    let (mut sum, mut factor) = (Extension::ZERO, Extension::ONE);
    for (claim, input) in claims.iter().zip(inputs) {
        for (points, row) in claim.matrices.iter().zip(&input.rows) {
            for (point, values) in points {
                let mut numerator = Extension::ZERO;
                for (element, value) in row.iter().zip(values) {
                    numerator += factor * (Extension::from(*element) - *value);
                    factor = factor * alpha;
                }
                sum += numerator * (Extension::from(x) - *point).inverse();
            }
        }
    }
    sum
}

/// Tests that the opened rows are as many and as wide as claimed, and adds their way to the root.
fn check_input<'a>(
    claim: &'a Claim,
    input: &'a RowsOpening,
    bits: usize,
    place: usize,
    ways: &mut Vec<Way<'a>>,
) -> Result<(), Refusal> {
    let count = claim.matrices.len();
    ensure(input.rows.len() == count, "the number of matrices")?;
    for (points, row) in claim.matrices.iter().zip(&input.rows) {
        let is_wide = points.iter().all(|(_, values)| values.len() == row.len());
        ensure(is_wide, "the width of a row")?;
    }
    ways.push(Way {
        root: &claim.root,
        depth: bits,
        place,
        leaf: leaf_text(|bytes| write_rows(bytes, input.rows.iter().map(Vec::as_slice))),
        path: &input.path,
    });
    Ok(())
}

fn check_inputs<'a>(
    claims: &'a [Claim],
    inputs: &'a [RowsOpening],
    bits: usize,
    place: usize,
    ways: &mut Vec<Way<'a>>,
) -> Result<(), Refusal> {
    let count = claims.len();
    ensure(inputs.len() == count, "the number of rows of a query")?;
    let mut pairs = claims.iter().zip(inputs);
    pairs.try_for_each(|(claim, input)| check_input(claim, input, bits, place, ways))
}

/// Where a query's value leads, by the folds. The ways of the layers' pairs are added.
fn walk<'a>(
    proof: &'a FriProof,
    betas: &[Extension],
    layers: &'a [LayerOpening],
    bits: usize,
    start: usize,
    mut value: Extension,
    ways: &mut Vec<Way<'a>>,
) -> Result<Extension, Refusal> {
    let count = proof.roots.len();
    ensure(layers.len() == count, "the number of layers of a query")?;
    let (mut shift, mut place) = (BabyBear::GENERATOR, start);
    for (i, layer) in layers.iter().enumerate() {
        let log_size = bits - i;
        let half = 1 << (log_size - 1);
        let (low, high) = if place < half {
            (value, layer.sibling)
        } else {
            (layer.sibling, value)
        };
        place %= half;
        ways.push(Way {
            root: &proof.roots[i],
            depth: log_size - 1,
            place,
            leaf: leaf_text(|bytes| write_pair(bytes, &low.0, &high.0)),
            path: &layer.path,
        });
        let x = shift * BabyBear::root_of_unity(log_size).power(place as u64);
        let (half, inverse) = half_and_inverse(x);
        value = fold_pair(betas[i], half, inverse, low, high);
        shift *= shift;
    }
    Ok(value)
}

/// Tests that no claim is of a point on the larger coset, and the lengths of the proof's lists.
fn check_shape(log_height: usize, claims: &[Claim], proof: &FriProof) -> Result<(), Refusal> {
    let bits = log_height + PARAMETERS.log_blowup;
    let inverse = BabyBear::GENERATOR.inverse();
    let matrices = claims.iter().flat_map(|claim| &claim.matrices);
    let mut powers = matrices
        .flatten()
        .map(|(point, _)| point.scaled(inverse).squared(bits));
    let are_off = powers.all(|power| power != Extension::ONE);
    ensure(are_off, "a point on the coset")?;
    ensure(proof.roots.len() == log_height, "the number of folds")?;
    ensure(proof.last.len() == 1, "the length of the final polynomial")?;
    let count = proof.queries.len();
    ensure(count == PARAMETERS.num_queries, "the number of queries")
}

/// Tests that claims hold of columns of `2^log_height` coefficients, but for a small chance.
pub fn verify(
    log_height: usize,
    claims: &[Claim],
    proof: &FriProof,
    challenger: &mut Challenger,
) -> Result<(), Refusal> {
    let bits = log_height + PARAMETERS.log_blowup;
    check_shape(log_height, claims, proof)?;
    let drawn = replay(log_height, claims, proof, challenger)?;
    let mut ways = Vec::new();
    for (query, place) in proof.queries.iter().zip(drawn.places) {
        check_inputs(claims, &query.inputs, bits, place, &mut ways)?;
        let x = BabyBear::GENERATOR * BabyBear::root_of_unity(bits).power(place as u64);
        let value = batched(claims, &query.inputs, drawn.alpha, x);
        let reached = walk(
            proof,
            &drawn.betas,
            &query.layers,
            bits,
            place,
            value,
            &mut ways,
        )?;
        ensure(reached == proof.last[0], "the final value")?;
    }
    ensure(all_lead(&ways), "a path")
}
