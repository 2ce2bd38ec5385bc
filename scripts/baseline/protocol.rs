//! What both sides of the protocol do: the transcript's beginning, and what a proof claims.

use crate::air::Air;
use crate::challenger::Challenger;
use crate::extension::{Extension, DEGREE};
use crate::field::BabyBear;
use crate::fri::Claim;
use crate::proof::Proof;
use crate::sha256::Digest;
use crate::statement::Statement;

/// A step of the protocol's description: its place, its kind, its label, a number of elements with
/// how it is told, and their degree.
type Step = ([u8; 2], &'static str, (u8, usize), usize);

/// The steps for so many preprocessed columns and public values.
fn steps(preprocessed: usize, public_values: usize) -> Vec<Step> {
    let message = |label| ([0, 0], label, (0, 1), 0);
    let challenge = |label| ([0, 2], label, (0, 1), DEGREE);
    let mut steps = vec![message("trace_commitment")];
    if preprocessed > 0 {
        steps.push(message("preprocessed_commitment"));
    }
    steps.extend([
        ([0, 1], "public_values", (1, public_values), 1),
        challenge("alpha"),
        message("quotient_commitment"),
        challenge("zeta"),
        ([1, 4], "opening_argument", (2, 0), 0),
        ([2, 4], "opening_argument", (2, 0), 0),
    ]);
    steps
}

fn push_number(bytes: &mut Vec<u8>, number: usize) {
    bytes.extend((number as u64).to_be_bytes());
}

fn push_text(bytes: &mut Vec<u8>, text: &str) {
    push_number(bytes, text.len());
    bytes.extend(text.bytes());
}

/// The bytes that tell the protocol for an AIR at a height from others.
fn seed<A: Air<W, P>, const W: usize, const P: usize>(log_height: usize) -> Vec<u8> {
    let mut bytes = vec![1];
    push_text(&mut bytes, "p3-uni-stark");
    let steps = steps(P, A::PUBLIC_VALUES);
    push_number(&mut bytes, steps.len());
    for (kind, label, (tag, count), degree) in steps {
        bytes.extend(kind);
        push_text(&mut bytes, label);
        bytes.push(tag);
        push_number(&mut bytes, count);
        push_number(&mut bytes, degree);
    }
    // Two heights, the widths of main and preprocessed columns, the number of periodic columns and
    // of chunks, and whether next rows of both are opened.
    let items = [log_height, log_height, W, P, 0, 1 << A::LOG_CHUNKS, 1, 0];
    push_number(&mut bytes, items.len());
    for item in items {
        push_number(&mut bytes, 8);
        push_number(&mut bytes, item);
    }
    bytes
}

/// The transcript before anything is drawn.
pub fn transcript<A: Air<W, P>, const W: usize, const P: usize>(
    statement: &Statement<P>,
    log_height: usize,
    trace: &Digest,
    preprocessed: Option<Digest>,
) -> Challenger {
    let mut challenger = statement.challenger();
    challenger.observe_bytes(&seed::<A, W, P>(log_height));
    challenger.observe_root(trace);
    if let Some(root) = preprocessed {
        challenger.observe_root(&root);
    }
    for value in &statement.publics {
        challenger.observe(*value);
    }
    challenger
}

/// Where the quotient's chunks are taken from: the shifts of the cosets, as large as the trace's
/// group, into which the coset of the generator falls that is as many times larger.
pub fn chunk_shifts(log_height: usize, log_chunks: usize) -> Vec<BabyBear> {
    BabyBear::root_of_unity(log_height + log_chunks)
        .powers_from(BabyBear::GENERATOR)
        .take(1 << log_chunks)
        .collect()
}

/// What a proof's opened values say of its commitments, and of that to the preprocessed columns.
pub fn claims(proof: &Proof, preprocessed: Option<Digest>, zeta: Extension) -> Vec<Claim> {
    let next_zeta = zeta.scaled(BabyBear::root_of_unity(proof.log_height));
    let at_zeta = |values: &Vec<Extension>| vec![(zeta, values.clone())];
    let trace = vec![(zeta, proof.local.clone()), (next_zeta, proof.next.clone())];
    let mut claims = vec![
        Claim {
            root: proof.trace_root,
            matrices: vec![trace],
        },
        Claim {
            root: proof.quotient_root,
            matrices: proof.chunks.iter().map(at_zeta).collect(),
        },
    ];
    claims.extend(preprocessed.map(|root| Claim {
        root,
        matrices: proof.preprocessed.iter().map(at_zeta).collect(),
    }));
    claims
}
