//! Binary trees of digests.

use crate::field::BabyBear;
use crate::sha256::Digest;
#[cfg(not(wide))]
use crate::sha256::{digest, node};
#[cfg(wide)]
use crate::wide::{self, LANES};

/// What the text of a leaf begins with.
const LEAF: u8 = 0;

/// The digests of leaves of one length, whose bytes are written.
#[cfg(wide)]
pub fn leaves(count: usize, write: impl Fn(usize, &mut Vec<u8>)) -> Vec<Digest> {
    let mut texts: [Vec<u8>; LANES] = Default::default();
    let mut found = Vec::with_capacity(count);
    for first in (0..count).step_by(LANES) {
        for (i, text) in (first..count).zip(&mut texts) {
            text.clear();
            text.push(LEAF);
            write(i, text);
        }
        // Where fewer are left, the texts before stand in the other lanes.
        let all = wide::digests(
            texts
                .each_ref()
                .map(|text| if text.is_empty() { &texts[0] } else { text }.as_slice()),
        );
        found.extend(&all[..LANES.min(count - first)]);
    }
    found
}

/// The digests of leaves, whose bytes are written.
#[cfg(not(wide))]
pub fn leaves(count: usize, write: impl Fn(usize, &mut Vec<u8>)) -> Vec<Digest> {
    let mut text = Vec::new();
    let leaf = |i| {
        text.clear();
        text.push(LEAF);
        write(i, &mut text);
        digest(&text)
    };
    (0..count).map(leaf).collect()
}

/// The text of a leaf, whose bytes are written.
pub fn leaf_text(write: impl FnOnce(&mut Vec<u8>)) -> Vec<u8> {
    let mut text = vec![LEAF];
    write(&mut text);
    text
}

/// The block that two digests are.
fn block_of(left: &Digest, right: &Digest) -> [u8; 64] {
    let mut block = [0; 64];
    block[..32].copy_from_slice(left);
    block[32..].copy_from_slice(right);
    block
}

/// The nodes above a layer.
#[cfg(not(wide))]
fn layer_above(layer: &[Digest]) -> Vec<Digest> {
    let (pairs, _) = layer.as_chunks::<2>();
    let above = |[left, right]: &[Digest; 2]| node(&block_of(left, right));
    pairs.iter().map(above).collect()
}

/// The nodes above a layer.
#[cfg(wide)]
fn layer_above(layer: &[Digest]) -> Vec<Digest> {
    let (pairs, _) = layer.as_chunks::<2>();
    let mut found = Vec::with_capacity(pairs.len());
    for group in pairs.chunks(LANES) {
        // Where fewer are left, the first pair stands in the other lanes.
        let blocks: [_; LANES] = std::array::from_fn(|lane| {
            let [left, right] = group.get(lane).unwrap_or(&group[0]);
            block_of(left, right)
        });
        found.extend(&wide::nodes(blocks.each_ref())[..group.len()]);
    }
    found
}

/// The layers of a tree, the leaves first, up to the root.
pub struct Tree {
    layers: Vec<Vec<Digest>>,
}

impl Tree {
    /// The tree over a power of two of leaves.
    pub fn new(leaves: Vec<Digest>) -> Tree {
        let mut layers = vec![leaves];
        while layers[layers.len() - 1].len() > 1 {
            layers.push(layer_above(&layers[layers.len() - 1]));
        }
        Tree { layers }
    }

    pub fn root(&self) -> Digest {
        self.layers[self.layers.len() - 1][0]
    }

    /// The digests beside the way from a leaf to the root, lowest first.
    pub fn path(&self, place: usize) -> Vec<Digest> {
        let below = &self.layers[..self.layers.len() - 1];
        below
            .iter()
            .enumerate()
            .map(|(level, layer)| layer[(place >> level) ^ 1])
            .collect()
    }
}

/// A way to the root of a tree that is `depth` digests deep, from a leaf's text at a place.
pub struct Way<'a> {
    pub root: &'a Digest,
    pub depth: usize,
    pub place: usize,
    pub leaf: Vec<u8>,
    pub path: &'a [Digest],
}

impl Way<'_> {
    /// The block of the node over a digest that many levels above the leaf.
    fn block_above(&self, level: usize, below: &Digest) -> [u8; 64] {
        let beside = &self.path[level];
        if (self.place >> level) & 1 == 0 {
            block_of(below, beside)
        } else {
            block_of(beside, below)
        }
    }

    #[cfg(not(wide))]
    fn leads(&self) -> bool {
        let above = |below, level| node(&self.block_above(level, &below));
        self.path.len() == self.depth
            && (0..self.depth).fold(digest(&self.leaf), above) == *self.root
    }
}

/// Whether all of them lead there.
#[cfg(not(wide))]
pub fn all_lead(ways: &[Way]) -> bool {
    ways.iter().all(Way::leads)
}

/// Whether all of them lead there: those of one depth and length of the leaf, eight at once.
#[cfg(wide)]
pub fn all_lead(ways: &[Way]) -> bool {
    let key = |way: &&Way| (way.depth, way.leaf.len());
    let mut sorted: Vec<_> = ways.iter().collect();
    sorted.sort_by_key(key);
    let mut groups = sorted.chunk_by(|one, other| key(one) == key(other));
    groups.all(|group| group.chunks(LANES).all(eight_lead))
}

/// Whether at most eight ways of one depth lead there; the first stands in lanes without one.
#[cfg(wide)]
fn eight_lead(ways: &[&Way]) -> bool {
    let depth = ways[0].depth;
    if ways.iter().any(|way| way.path.len() != depth) {
        return false;
    }
    let lanes: [&Way; LANES] = std::array::from_fn(|lane| *ways.get(lane).unwrap_or(&ways[0]));
    let mut states = wide::digests(lanes.map(|way| way.leaf.as_slice()));
    for level in 0..depth {
        let blocks: [_; LANES] =
            std::array::from_fn(|lane| lanes[lane].block_above(level, &states[lane]));
        states = wide::nodes(blocks.each_ref());
    }
    lanes
        .iter()
        .zip(&states)
        .all(|(way, state)| way.root == state)
}

/// A number as 8 bytes, the high one first.
fn number_bytes(number: usize) -> [u8; 8] {
    (number as u64).to_be_bytes()
}

/// Elements behind the bytes, 4 bytes each, the high one first.
fn push_elements(bytes: &mut Vec<u8>, elements: &[BabyBear]) {
    for element in elements {
        bytes.extend_from_slice(&element.number().to_be_bytes());
    }
}

/// Writes the bytes of a leaf over a row of each of some matrices: how many there are, and of each
/// how many elements, and these.
pub fn write_rows<'a>(bytes: &mut Vec<u8>, rows: impl ExactSizeIterator<Item = &'a [BabyBear]>) {
    bytes.extend_from_slice(&number_bytes(rows.len()));
    for row in rows {
        bytes.extend_from_slice(&number_bytes(row.len()));
        push_elements(bytes, row);
    }
}

/// Writes the bytes of a leaf over two lists of coordinates.
pub fn write_pair(bytes: &mut Vec<u8>, first: &[BabyBear], second: &[BabyBear]) {
    push_elements(bytes, first);
    push_elements(bytes, second);
}
