//! SHA-256 (FIPS 180-4), a block at a time.

/// A digest.
pub type Digest = [u8; 32];

/// The word that is added in each round.
pub const CONSTANTS: [u32; 64] = [
    0x428a2f98, 0x71374491, 0xb5c0fbcf, 0xe9b5dba5, 0x3956c25b, 0x59f111f1, 0x923f82a4, 0xab1c5ed5,
    0xd807aa98, 0x12835b01, 0x243185be, 0x550c7dc3, 0x72be5d74, 0x80deb1fe, 0x9bdc06a7, 0xc19bf174,
    0xe49b69c1, 0xefbe4786, 0x0fc19dc6, 0x240ca1cc, 0x2de92c6f, 0x4a7484aa, 0x5cb0a9dc, 0x76f988da,
    0x983e5152, 0xa831c66d, 0xb00327c8, 0xbf597fc7, 0xc6e00bf3, 0xd5a79147, 0x06ca6351, 0x14292967,
    0x27b70a85, 0x2e1b2138, 0x4d2c6dfc, 0x53380d13, 0x650a7354, 0x766a0abb, 0x81c2c92e, 0x92722c85,
    0xa2bfe8a1, 0xa81a664b, 0xc24b8b70, 0xc76c51a3, 0xd192e819, 0xd6990624, 0xf40e3585, 0x106aa070,
    0x19a4c116, 0x1e376c08, 0x2748774c, 0x34b0bcb5, 0x391c0cb3, 0x4ed8aa4a, 0x5b9cca4f, 0x682e6ff3,
    0x748f82ee, 0x78a5636f, 0x84c87814, 0x8cc70208, 0x90befffa, 0xa4506ceb, 0xbef9a3f7, 0xc67178f2,
];

/// The state before the first block.
pub const INITIAL: [u32; 8] = [
    0x6a09e667, 0xbb67ae85, 0x3c6ef372, 0xa54ff53a, 0x510e527f, 0x9b05688c, 0x1f83d9ab, 0x5be0cd19,
];

/// The state before a node's block: the digest of the text "Voskligan: a node of a tree".
pub const NODE: [u32; 8] = [
    0xdc2227cc, 0x1bde2fe4, 0xace08707, 0x6153b1db, 0xe865567d, 0xe49a000b, 0x6d03969b, 0xc3605b12,
];

/// The next sixteen words of the schedule, in place of the last sixteen.
#[inline(always)]
fn advance(words: &mut [u32; 16]) {
    for i in 0..16 {
        let (near, far) = (words[(i + 14) % 16], words[(i + 1) % 16]);
        let near = near.rotate_right(17) ^ near.rotate_right(19) ^ (near >> 10);
        let far = far.rotate_right(7) ^ far.rotate_right(18) ^ (far >> 3);
        words[i] = words[i]
            .wrapping_add(far)
            .wrapping_add(words[(i + 9) % 16])
            .wrapping_add(near);
    }
}

/// A round on the working variables.
#[inline(always)]
fn round([a, b, c, d, e, f, g, h]: [u32; 8], word: u32) -> [u32; 8] {
    let sigma = e.rotate_right(6) ^ e.rotate_right(11) ^ e.rotate_right(25);
    let chosen = g ^ (e & (f ^ g));
    let first = h
        .wrapping_add(sigma)
        .wrapping_add(chosen)
        .wrapping_add(word);
    let sigma = a.rotate_right(2) ^ a.rotate_right(13) ^ a.rotate_right(22);
    let majority = (a & b) | (c & (a | b));
    [
        first.wrapping_add(sigma).wrapping_add(majority),
        a,
        b,
        c,
        d.wrapping_add(first),
        e,
        f,
        g,
    ]
}

/// The state behind a block.
fn compress(state: &mut [u32; 8], block: &[u8; 64]) {
    let mut words = [0; 16];
    for (word, bytes) in words.iter_mut().zip(block.chunks_exact(4)) {
        *word = u32::from_be_bytes(bytes.try_into().unwrap());
    }
    let mut variables = *state;
    for (turn, constants) in CONSTANTS.chunks_exact(16).enumerate() {
        if turn > 0 {
            advance(&mut words);
        }
        for (word, constant) in words.iter().zip(constants) {
            variables = round(variables, word.wrapping_add(*constant));
        }
    }
    for (word, more) in state.iter_mut().zip(variables) {
        *word = word.wrapping_add(more);
    }
}

/// The blocks of a text: those that are whole, and the last one or two, which are filled up.
pub struct Blocks<'a> {
    whole: &'a [u8],
    last: [u8; 128],
    last_length: usize,
}

impl Blocks<'_> {
    pub fn new(text: &[u8]) -> Blocks<'_> {
        let (whole, rest) = text.split_at(text.len() - text.len() % 64);
        let last_length = if rest.len() < 56 { 64 } else { 128 };
        let mut last = [0; 128];
        last[..rest.len()].copy_from_slice(rest);
        last[rest.len()] = 0x80;
        let bits = 8 * text.len() as u64;
        last[last_length - 8..last_length].copy_from_slice(&bits.to_be_bytes());
        Blocks {
            whole,
            last,
            last_length,
        }
    }

    pub fn count(&self) -> usize {
        (self.whole.len() + self.last_length) / 64
    }

    pub fn get(&self, i: usize) -> &[u8; 64] {
        let whole = self.whole.as_chunks().0;
        whole
            .get(i)
            .unwrap_or_else(|| &self.last.as_chunks().0[i - whole.len()])
    }
}

/// The bytes of a state.
fn bytes_of(state: [u32; 8]) -> Digest {
    let mut digest = [0; 32];
    for (bytes, word) in digest.chunks_exact_mut(4).zip(state) {
        bytes.copy_from_slice(&word.to_be_bytes());
    }
    digest
}

/// The node over a block of two digests.
#[cfg(not(wide))]
pub fn node(block: &[u8; 64]) -> Digest {
    let mut state = NODE;
    compress(&mut state, block);
    bytes_of(state)
}

/// The digest of a text.
pub fn digest(text: &[u8]) -> Digest {
    let mut state = INITIAL;
    let blocks = Blocks::new(text);
    for i in 0..blocks.count() {
        compress(&mut state, blocks.get(i));
    }
    bytes_of(state)
}
