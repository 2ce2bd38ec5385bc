//! A statement: which AIR it is of, its preprocessed rows and public values, and the digest that
//! stands for it in the transcript.

use crate::challenger::Challenger;
use crate::dft::Rows;
use crate::field::BabyBear;
use crate::fri::PARAMETERS;
use crate::json::Json;
use crate::sha256::{digest, Digest};

/// The names of nodes, each at the place that is its number.
const NAMES: [&str; 14] = [
    "constant",
    "main",
    "next",
    "preprocessed",
    "preprocessed_next",
    "public",
    "periodic",
    "first",
    "last",
    "transition",
    "add",
    "sub",
    "mul",
    "neg",
];

/// Numbers of 8 bytes each, the high one first.
#[derive(Default)]
struct Words {
    bytes: Vec<u8>,
}

impl Words {
    fn push(&mut self, number: u64) {
        self.bytes.extend_from_slice(&number.to_be_bytes());
    }

    fn extend(&mut self, numbers: &[u64]) {
        self.bytes.reserve(8 * numbers.len());
        for number in numbers {
            self.push(*number);
        }
    }

    /// How many numbers there are, and these.
    fn list(&mut self, numbers: &[u64]) {
        self.push(numbers.len() as u64);
        self.extend(numbers);
    }

    /// A node: its name's number, and its operands.
    fn node(&mut self, node: &Json) -> Option<()> {
        let (name, operands) = node.items()?.split_first()?;
        let name = name.text()?;
        self.push(NAMES.iter().position(|other| *other == name)? as u64);
        for operand in operands {
            self.push(operand.number()?);
        }
        Some(())
    }

    /// The preprocessed columns, with so many of their rows.
    fn preprocessed(&mut self, width: u64, rows: &[Json]) -> Option<()> {
        self.push(1);
        self.push(width);
        self.push(width * rows.len() as u64);
        self.bytes.reserve(8 * width as usize * rows.len());
        for row in rows {
            self.extend(row.numbers()?);
        }
        Some(())
    }

    /// An AIR without periodic columns and hints, with so many of its preprocessed rows.
    fn air(&mut self, air: &Json, rows: &[Json]) -> Option<()> {
        self.push(air.get("width")?.number()?);
        self.push(air.get("publics")?.number()?);
        self.list(&[]);
        match air.get("preprocessed") {
            Some(columns) => self.preprocessed(columns.get("width")?.number()?, rows)?,
            None => self.push(0),
        }
        self.extend(&[0, 0]);
        self.list(air.get("constants")?.numbers()?);
        let nodes = air.get("nodes")?.items()?;
        self.push(nodes.len() as u64);
        nodes.iter().try_for_each(|node| self.node(node))?;
        let constraints = air.get("constraints")?.items()?;
        self.push(constraints.len() as u64);
        for constraint in constraints {
            self.extend(&[0, constraint.get("base")?.number()?]);
        }
        Some(())
    }
}

/// An AIR that has all that is read of one here.
fn plain_air(statement: &Json) -> Option<&Json> {
    let air = statement.get("air")?;
    let hints = ["max_constraint_degree", "num_constraints"];
    let is_plain = air.get("periodic")?.numbers()?.is_empty()
        && hints.iter().all(|name| air.get(name).is_none());
    is_plain.then_some(air)
}

/// The rows of the preprocessed columns, if there are any.
fn rows_of(air: &Json) -> Option<&[Json]> {
    match air.get("preprocessed") {
        Some(columns) => columns.get("rows")?.items(),
        None => Some(&[]),
    }
}

/// The digest, in hexadecimal digits, of a statement's AIR without its preprocessed rows.
pub fn air_digest(statement: &Json) -> Option<String> {
    let mut words = Words::default();
    words.air(plain_air(statement)?, &[])?;
    let digits = digest(&words.bytes).map(|byte| format!("{byte:02x}"));
    Some(digits.concat())
}

/// The digest of the statement's canonical bytes, with the default configuration.
fn statement_digest(air: &Json, rows: &[Json], publics: &[u64]) -> Option<Digest> {
    let mut words = Words::default();
    // The number of bytes behind it, which is known in the end.
    words.push(0);
    words.bytes.extend(b"voskligan statement 3");
    // BabyBear, and FRI with its numbers.
    words.extend(&[0, 1]);
    words.extend(&PARAMETERS.numbers().map(|number| number as u64));
    words.air(air, rows)?;
    words.list(publics);
    // No work before the two challenges.
    words.extend(&[0, 0]);
    let length = words.bytes.len() as u64 - 8;
    words.bytes[..8].copy_from_slice(&length.to_be_bytes());
    Some(digest(&words.bytes))
}

/// The elements of numbers below p.
fn elements(numbers: &[u64]) -> Option<Vec<BabyBear>> {
    numbers.iter().map(|n| BabyBear::checked(*n)).collect()
}

/// A row of `P` elements.
fn row<const P: usize>(row: &Json) -> Option<[BabyBear; P]> {
    let numbers: &[u64; P] = row.numbers()?.try_into().ok()?;
    let mut row = [BabyBear::ZERO; P];
    for (element, number) in row.iter_mut().zip(numbers) {
        *element = BabyBear::checked(*number)?;
    }
    Some(row)
}

/// A statement of an AIR with `P` preprocessed columns.
pub struct Statement<const P: usize> {
    digest: Digest,
    pub publics: Vec<BabyBear>,
    /// None where there are no such columns.
    pub preprocessed: Option<Rows<P>>,
}

impl<const P: usize> Statement<P> {
    /// The statement in JSON, if it has the default configuration and so many public values.
    pub fn read(statement: &Json, public_values: usize) -> Option<Statement<P>> {
        let options = ["config", "alpha_bits", "ood_bits"];
        let is_plain = options.iter().all(|name| statement.get(name).is_none());
        let publics = statement.get("public_values")?.numbers()?;
        (is_plain && publics.len() == public_values).then_some(())?;
        let air = plain_air(statement)?;
        let rows = rows_of(air)?;
        let preprocessed: Option<Rows<P>> = rows.iter().map(row).collect();
        Some(Statement {
            digest: statement_digest(air, rows, publics)?,
            publics: elements(publics)?,
            preprocessed: Some(preprocessed?).filter(|_| P > 0),
        })
    }

    /// A challenger that has observed the digest of the statement.
    pub fn challenger(&self) -> Challenger {
        let mut challenger = Challenger::new();
        challenger.observe_bytes(&self.digest);
        challenger
    }
}
