//! A proof, and its bytes.

use crate::extension::{Extension, DEGREE};
use crate::field::{BabyBear, P};
use crate::sha256::Digest;

/// A row of each matrix of a commitment, and their path.
pub struct RowsOpening {
    pub rows: Vec<Vec<BabyBear>>,
    pub path: Vec<Digest>,
}

/// The value that is paired with one on a query's way, and the pair's path.
pub struct LayerOpening {
    pub sibling: Extension,
    pub path: Vec<Digest>,
}

/// What is opened at a drawn place: rows of each commitment, and a value of each fold.
pub struct Query {
    pub inputs: Vec<RowsOpening>,
    pub layers: Vec<LayerOpening>,
}

/// A proof that claims of columns' values hold.
#[derive(Default)]
pub struct FriProof {
    pub roots: Vec<Digest>,
    pub last: Vec<Extension>,
    pub witness: BabyBear,
    pub queries: Vec<Query>,
}

/// A proof for one AIR: the commitments, what is opened of them at zeta, and of the trace at the
/// next point, and why that is true.
pub struct Proof {
    pub trace_root: Digest,
    pub quotient_root: Digest,
    pub local: Vec<Extension>,
    pub next: Vec<Extension>,
    /// None where the AIR has no preprocessed columns.
    pub preprocessed: Option<Vec<Extension>>,
    pub chunks: Vec<Vec<Extension>>,
    pub opening: FriProof,
    pub log_height: usize,
}

/// What a proof's bytes begin with.
const MAGIC: &[u8] = b"voskligan proof 2";

/// Bytes that grow.
struct Writer(Vec<u8>);

impl Writer {
    fn number(&mut self, number: usize) {
        self.0.extend_from_slice(&(number as u64).to_be_bytes());
    }

    fn base(&mut self, element: BabyBear) {
        self.0.extend_from_slice(&element.number().to_be_bytes());
    }

    fn extension(&mut self, element: &Extension) {
        for coordinate in element.0 {
            self.base(coordinate);
        }
    }

    fn digest(&mut self, digest: &Digest) {
        self.0.extend_from_slice(digest);
    }

    fn list<T>(&mut self, items: &[T], write: impl Fn(&mut Writer, &T)) {
        self.number(items.len());
        for item in items {
            write(self, item);
        }
    }

    fn extensions(&mut self, elements: &[Extension]) {
        self.list(elements, Writer::extension);
    }

    fn row(&mut self, row: &[BabyBear]) {
        self.list(row, |writer, element| writer.base(*element));
    }

    fn input(&mut self, input: &RowsOpening) {
        self.list(&input.rows, |writer, row| writer.row(row));
        self.list(&input.path, Writer::digest);
    }

    fn layer(&mut self, layer: &LayerOpening) {
        self.extension(&layer.sibling);
        self.list(&layer.path, Writer::digest);
    }

    fn query(&mut self, query: &Query) {
        self.list(&query.inputs, Writer::input);
        self.list(&query.layers, Writer::layer);
    }

    fn preprocessed(&mut self, row: &Option<Vec<Extension>>) {
        match row {
            Some(row) => {
                self.0.push(1);
                self.extensions(row);
                // No next row.
                self.0.push(0);
            }
            None => self.0.push(0),
        }
    }

    fn fri(&mut self, proof: &FriProof) {
        self.list(&proof.roots, |writer, root| {
            writer.digest(root);
            // No work is asked for before a fold.
            writer.base(BabyBear::ZERO);
        });
        self.extensions(&proof.last);
        self.base(proof.witness);
        self.list(&proof.queries, Writer::query);
    }
}

impl Proof {
    pub fn to_bytes(&self) -> Vec<u8> {
        let mut writer = Writer(MAGIC.to_vec());
        writer.digest(&self.trace_root);
        writer.digest(&self.quotient_root);
        // No random commitment.
        writer.0.push(0);
        writer.extensions(&self.local);
        writer.0.push(1);
        writer.extensions(&self.next);
        writer.preprocessed(&self.preprocessed);
        writer.list(&self.chunks, |writer, chunk| writer.extensions(chunk));
        // No random row.
        writer.0.push(0);
        writer.fri(&self.opening);
        writer.number(self.log_height);
        writer.base(BabyBear::ZERO);
        writer.base(BabyBear::ZERO);
        writer.0
    }

    /// The proof of some bytes, of the form that `to_bytes` writes.
    pub fn from_bytes(bytes: &[u8]) -> Option<Proof> {
        let mut reader = Reader(bytes);
        reader.expect(MAGIC)?;
        let (trace_root, quotient_root) = (reader.take()?, reader.take()?);
        reader.expect(&[0])?;
        let local = reader.extensions()?;
        reader.expect(&[1])?;
        let next = reader.extensions()?;
        let preprocessed = reader.preprocessed()?;
        let chunks = reader.list(Reader::extensions)?;
        reader.expect(&[0])?;
        let opening = reader.fri()?;
        let log_height = reader.number()?;
        reader.expect(&[0; 8])?;
        let proof = Proof {
            trace_root,
            quotient_root,
            local,
            next,
            preprocessed,
            chunks,
            opening,
            log_height,
        };
        reader.0.is_empty().then_some(proof)
    }
}

/// Bytes that aren't read yet.
struct Reader<'a>(&'a [u8]);

impl Reader<'_> {
    fn take<const N: usize>(&mut self) -> Option<[u8; N]> {
        let (taken, rest) = self.0.split_first_chunk()?;
        self.0 = rest;
        Some(*taken)
    }

    fn expect(&mut self, bytes: &[u8]) -> Option<()> {
        self.0 = self.0.strip_prefix(bytes)?;
        Some(())
    }

    fn number(&mut self) -> Option<usize> {
        usize::try_from(u64::from_be_bytes(self.take()?)).ok()
    }

    fn base(&mut self) -> Option<BabyBear> {
        let number = u32::from_be_bytes(self.take()?);
        (number < P).then(|| BabyBear::new(number))
    }

    fn extension(&mut self) -> Option<Extension> {
        let mut coordinates = [BabyBear::ZERO; DEGREE];
        for coordinate in &mut coordinates {
            *coordinate = self.base()?;
        }
        Some(Extension(coordinates))
    }

    /// As many items as a number says, which is at most that of the bytes behind it.
    fn list<T>(&mut self, read: impl Fn(&mut Self) -> Option<T>) -> Option<Vec<T>> {
        let count = self.number()?;
        (count <= self.0.len()).then_some(())?;
        (0..count).map(|_| read(self)).collect()
    }

    fn extensions(&mut self) -> Option<Vec<Extension>> {
        self.list(Self::extension)
    }

    /// The preprocessed row, without a next one, where the first byte says that it is there.
    fn preprocessed(&mut self) -> Option<Option<Vec<Extension>>> {
        let [is_there] = self.take()?;
        match is_there {
            0 => Some(None),
            1 => {
                let row = self.extensions()?;
                self.expect(&[0])?;
                Some(Some(row))
            }
            _ => None,
        }
    }

    fn input(&mut self) -> Option<RowsOpening> {
        Some(RowsOpening {
            rows: self.list(|reader| reader.list(Self::base))?,
            path: self.list(Self::take)?,
        })
    }

    fn layer(&mut self) -> Option<LayerOpening> {
        Some(LayerOpening {
            sibling: self.extension()?,
            path: self.list(Self::take)?,
        })
    }

    fn query(&mut self) -> Option<Query> {
        Some(Query {
            inputs: self.list(Self::input)?,
            layers: self.list(Self::layer)?,
        })
    }

    fn phase(&mut self) -> Option<Digest> {
        let root = self.take()?;
        self.expect(&[0; 4])?;
        Some(root)
    }

    fn fri(&mut self) -> Option<FriProof> {
        Some(FriProof {
            roots: self.list(Self::phase)?,
            last: self.extensions()?,
            witness: self.base()?,
            queries: self.list(Self::query)?,
        })
    }
}
