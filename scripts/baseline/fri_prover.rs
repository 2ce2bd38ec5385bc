//! FRI's prover: the batch of all claims, its folds, and what is opened of them.

use crate::challenger::Challenger;
use crate::commitment::Committed;
use crate::dft::{evaluate, Rows};
use crate::extension::{Extension, DEGREE};
use crate::field::BabyBear;
use crate::fri::{fold_pair, half_and_inverse, observe_claims, Claim, PARAMETERS};
use crate::merkle::{leaves, write_pair, Tree};
use crate::proof::{FriProof, LayerOpening, Query, RowsOpening};
#[cfg(wide)]
use crate::wide::{apart, beside, by_two, gathered, in_each, scattered, Packed, LANES};

/// The sum of the claims' quotients `(p(X) - p(z)) / (X - z)`, each times a power of alpha.
pub struct Batch {
    alpha: Extension,
    factor: Extension,
    sum: Vec<Extension>,
}

impl Batch {
    /// Adds the quotients of the columns at a point, by division from the highest coefficient on.
    fn add<const W: usize>(&mut self, coefficients: &Rows<W>, point: Extension) {
        let mut factors = [Extension::ZERO; W];
        for factor in &mut factors {
            *factor = self.factor;
            self.factor = self.factor * self.alpha;
        }
        let combine = combination(&factors);
        let mut carry = Extension::ZERO;
        for (sum, row) in self.sum.iter_mut().zip(&coefficients[1..]).rev() {
            carry = carry * point + combine(row);
            *sum += carry;
        }
    }
}

/// The sum of a row's elements, each times its factor.
#[cfg(wide)]
fn combination<const W: usize>(
    factors: &[Extension; W],
) -> impl Fn(&[BabyBear; W]) -> Extension + use<W> {
    let pairs = factors.chunks(2);
    let pairs = pairs.map(|pair| beside(pair[0], *pair.get(1).unwrap_or(&Extension::ZERO)));
    let pairs: Vec<_> = pairs.collect();
    move |row| {
        let products = pairs.iter().zip(by_two(row));
        let [first, second] = apart(
            products.fold(Packed::from(BabyBear::ZERO), |sum, (factors, elements)| {
                sum + *factors * elements
            }),
        );
        first + second
    }
}

/// The sum of a row's elements, each times its factor.
#[cfg(not(wide))]
fn combination<const W: usize>(
    factors: &[Extension; W],
) -> impl Fn(&[BabyBear; W]) -> Extension + '_ {
    |row| {
        let mut combined = Extension::ZERO;
        for (factor, coefficient) in factors.iter().zip(row) {
            combined += factor.scaled(*coefficient);
        }
        combined
    }
}

/// A commitment that is opened, to columns of any number.
pub trait Opened {
    /// Adds the quotients of a claim on it.
    fn add_to(&self, batch: &mut Batch, claim: &Claim);

    /// The rows at a place.
    fn open(&self, place: usize) -> RowsOpening;
}

impl<const W: usize> Opened for Committed<W> {
    fn add_to(&self, batch: &mut Batch, claim: &Claim) {
        for (matrix, points) in self.matrices.iter().zip(&claim.matrices) {
            for (point, _) in points {
                batch.add(&matrix.coefficients, *point);
            }
        }
    }

    fn open(&self, place: usize) -> RowsOpening {
        Committed::open(self, place)
    }
}

/// A word, and the tree over its pairs of values at opposite points.
struct Layer {
    values: Vec<Extension>,
    tree: Tree,
}

impl Layer {
    fn new(values: Vec<Extension>) -> Layer {
        let (low, high) = values.split_at(values.len() / 2);
        let write = |i: usize, bytes: &mut Vec<u8>| write_pair(bytes, &low[i].0, &high[i].0);
        let tree = Tree::new(leaves(low.len(), write));
        Layer { values, tree }
    }

    fn open(&self, place: usize) -> LayerOpening {
        let half = self.values.len() / 2;
        let place = place % self.values.len();
        LayerOpening {
            sibling: self.values[place ^ half],
            path: self.tree.path(place % half),
        }
    }
}

/// A word on the coset of the shift, folded: a word on that of the square.
fn fold(values: &[Extension], shift: BabyBear, beta: Extension) -> Vec<Extension> {
    let log_size = values.len().trailing_zeros() as usize;
    let ratio = BabyBear::root_of_unity(log_size).inverse();
    let (half, first) = half_and_inverse(shift);
    let (low, high) = values.split_at(values.len() / 2);
    #[cfg(wide)]
    if low.len() >= LANES {
        let (beta, half) = (in_each(beta), Packed::from(half));
        let pairs = low.as_chunks().0.iter().zip(high.as_chunks().0);
        let folded = pairs.zip(Packed::powers_from(ratio, first));
        return folded
            .flat_map(|((low, high), inverse)| {
                scattered(fold_pair(
                    beta,
                    half,
                    inverse,
                    gathered(low),
                    gathered(high),
                ))
            })
            .collect();
    }
    let pairs = low.iter().zip(high).zip(ratio.powers_from(first));
    pairs
        .map(|((low, high), inverse)| fold_pair(beta, half, inverse, *low, *high))
        .collect()
}

/// A batch's values on the coset of the generator.
fn word_of(batch: Vec<Extension>, bits: usize) -> Vec<Extension> {
    let rows: Rows<DEGREE> = batch.into_iter().map(|element| element.0).collect();
    evaluate(&rows, BabyBear::GENERATOR, bits)
        .into_iter()
        .map(Extension)
        .collect()
}

/// The layers of all folds, and the constant that they lead to.
fn fold_all(
    mut values: Vec<Extension>,
    count: usize,
    challenger: &mut Challenger,
) -> (Vec<Layer>, Extension) {
    let mut shift = BabyBear::GENERATOR;
    let mut layers = Vec::with_capacity(count);
    for _fold in 0..count {
        let layer = Layer::new(values);
        challenger.observe_root(&layer.tree.root());
        values = fold(&layer.values, shift, challenger.draw());
        shift *= shift;
        layers.push(layer);
    }
    (layers, values[0])
}

/// A proof of true claims, one of each commitment, all to columns of one height.
pub fn open(
    log_height: usize,
    commitments: &[&dyn Opened],
    claims: &[Claim],
    challenger: &mut Challenger,
) -> FriProof {
    let bits = log_height + PARAMETERS.log_blowup;
    observe_claims(challenger, log_height, claims);
    let mut batch = Batch {
        alpha: challenger.draw(),
        factor: Extension::ONE,
        sum: vec![Extension::ZERO; 1 << log_height],
    };
    for (commitment, claim) in commitments.iter().zip(claims) {
        commitment.add_to(&mut batch, claim);
    }
    let (layers, last) = fold_all(word_of(batch.sum, bits), log_height, challenger);
    challenger.observe_extension(last);
    let witness = challenger.grind(PARAMETERS.query_bits);
    let query = |place| Query {
        inputs: commitments.iter().map(|one| one.open(place)).collect(),
        layers: layers.iter().map(|layer| layer.open(place)).collect(),
    };
    let places: Vec<_> = (0..PARAMETERS.num_queries)
        .map(|_| challenger.draw_bits(bits))
        .collect();
    FriProof {
        roots: layers.iter().map(|layer| layer.tree.root()).collect(),
        last: vec![last],
        witness,
        queries: places.into_iter().map(query).collect(),
    }
}
