//! The prover: the trace's commitment, alpha, the quotient's commitment, zeta, the openings.

use crate::air::Air;
use crate::commitment::Committed;
use crate::dft::{interpolate, Rows};
use crate::extension::{Extension, DEGREE};
use crate::field::BabyBear;
use crate::fri_prover::{open, Opened};
use crate::proof::Proof;
use crate::protocol::{claims, transcript};
use crate::quotient::quotient_chunks;
use crate::statement::Statement;

/// The commitment to columns by their rows.
pub fn commit_rows<const W: usize>(rows: Rows<W>) -> Committed<W> {
    Committed::new(vec![interpolate(rows, BabyBear::ONE)])
}

/// The powers by which the constraints are folded, that of the first the highest.
fn folding_powers(alpha: Extension, count: usize) -> Vec<Extension> {
    let mut powers = alpha.powers(count);
    powers.reverse();
    powers
}

/// What was committed to.
struct Commitments<const W: usize, const P: usize> {
    trace: Committed<W>,
    quotient: Committed<DEGREE>,
    preprocessed: Option<Committed<P>>,
}

impl<const W: usize, const P: usize> Commitments<W, P> {
    /// The proof but for the openings' own: the values at zeta.
    fn values_at(&self, zeta: Extension, log_height: usize) -> Proof {
        let next_zeta = zeta.scaled(BabyBear::root_of_unity(log_height));
        let (trace, chunks) = (&self.trace.matrices[0], self.quotient.matrices.iter());
        let preprocessed = self.preprocessed.as_ref();
        Proof {
            trace_root: self.trace.root(),
            quotient_root: self.quotient.root(),
            local: trace.values_at(zeta),
            next: trace.values_at(next_zeta),
            preprocessed: preprocessed.map(|one| one.matrices[0].values_at(zeta)),
            chunks: chunks.map(|one| one.values_at(zeta)).collect(),
            opening: Default::default(),
            log_height,
        }
    }

    /// The commitments in the order in which they are opened.
    fn opened(&self) -> Vec<&dyn Opened> {
        let mut opened: Vec<&dyn Opened> = vec![&self.trace, &self.quotient];
        opened.extend(self.preprocessed.as_ref().map(|one| one as &dyn Opened));
        opened
    }
}

/// A proof that the rows satisfy the constraints.
pub fn prove<A: Air<W, P>, const W: usize, const P: usize>(
    mut statement: Statement<P>,
    rows: Rows<W>,
) -> Proof {
    let log_height = rows.len().trailing_zeros() as usize;
    let preprocessed = statement.preprocessed.take().map(commit_rows);
    let fixed_root = preprocessed.as_ref().map(Committed::root);
    let trace = commit_rows(rows);
    let mut challenger = transcript::<A, W, P>(&statement, log_height, &trace.root(), fixed_root);
    let powers = folding_powers(challenger.draw(), A::CONSTRAINTS);
    let (fixed, publics) = (preprocessed.as_ref(), &statement.publics);
    let chunks = quotient_chunks::<A, W, P>(&trace, fixed, publics, &powers);
    let commitments = Commitments {
        trace,
        quotient: Committed::new(chunks),
        preprocessed,
    };
    challenger.observe_root(&commitments.quotient.root());
    let zeta = challenger.draw();
    let mut proof = commitments.values_at(zeta, log_height);
    let claims = claims(&proof, fixed_root, zeta);
    let opened = commitments.opened();
    proof.opening = open(log_height, &opened, &claims, &mut challenger);
    proof
}
