//! Eight lanes side by side, by the intrinsics of AVX2: elements of BabyBear as Plonky3's packed
//! field computes them, and SHA-256. It is built with `--cfg wide` for x86-64-v3, and for nothing
//! else, so that each of these instructions is there.

use crate::extension::{Extension, DEGREE};
use crate::field::{Algebra, BabyBear, P, P_INVERSE};
use crate::sha256::{Blocks, Digest, CONSTANTS, INITIAL, NODE};
use std::arch::x86_64::*;
use std::array::from_fn;
use std::ops::{Add, Mul, Sub};

/// How many lanes there are.
pub const LANES: usize = 8;

/// An element in each lane.
#[derive(Clone, Copy)]
pub struct Packed(__m256i);

// SAFETY, here and below: the program is built for a processor that has AVX2, and a `BabyBear` is
// laid out as the `u32` in it, so that eight of them are the 32 bytes that are loaded or stored.

#[inline(always)]
fn splat(word: u32) -> __m256i {
    unsafe { _mm256_set1_epi32(word as i32) }
}

/// The odd words in the even places.
#[inline(always)]
fn odd_words(words: __m256i) -> __m256i {
    unsafe { _mm256_castps_si256(_mm256_movehdup_ps(_mm256_castsi256_ps(words))) }
}

impl Packed {
    #[inline(always)]
    pub fn load(elements: &[BabyBear; LANES]) -> Packed {
        Packed(unsafe { _mm256_loadu_si256(elements.as_ptr().cast()) })
    }

    #[inline(always)]
    pub fn store(self, elements: &mut [BabyBear; LANES]) {
        unsafe { _mm256_storeu_si256(elements.as_mut_ptr().cast(), self.0) }
    }

    /// The element that each lane's number gives.
    #[inline(always)]
    pub fn of(element: impl FnMut(usize) -> BabyBear) -> Packed {
        Packed::load(&from_fn(element))
    }

    #[inline(always)]
    pub fn lanes(self) -> [BabyBear; LANES] {
        let mut elements = [BabyBear::ZERO; LANES];
        self.store(&mut elements);
        elements
    }

    /// Whether each lane is zero.
    #[inline(always)]
    pub fn is_zero(self) -> bool {
        unsafe { _mm256_testz_si256(self.0, self.0) == 1 }
    }

    /// `first`, `first * base`, .. in the lanes, then the next eight, and so on without an end.
    pub fn powers_from(base: BabyBear, first: BabyBear) -> impl Iterator<Item = Packed> {
        let mut powers = base.powers_from(first);
        let start = Packed::of(|_| powers.next().unwrap_or(BabyBear::ZERO));
        let step = Packed::from(base.power(LANES as u64));
        std::iter::successors(Some(start), move |packed| Some(*packed * step))
    }
}

impl From<BabyBear> for Packed {
    #[inline(always)]
    fn from(element: BabyBear) -> Packed {
        Packed(splat(element.word()))
    }
}

impl Algebra for Packed {}

impl Add for Packed {
    type Output = Packed;
    #[inline(always)]
    fn add(self, other: Packed) -> Packed {
        unsafe {
            let sum = _mm256_add_epi32(self.0, other.0);
            Packed(_mm256_min_epu32(sum, _mm256_sub_epi32(sum, splat(P))))
        }
    }
}

impl Sub for Packed {
    type Output = Packed;
    #[inline(always)]
    fn sub(self, other: Packed) -> Packed {
        unsafe {
            let difference = _mm256_sub_epi32(self.0, other.0);
            Packed(_mm256_min_epu32(
                difference,
                _mm256_add_epi32(difference, splat(P)),
            ))
        }
    }
}

impl Mul for Packed {
    type Output = Packed;
    /// Montgomery's product: the even lanes and the odd ones as 64 bits each.
    #[inline(always)]
    fn mul(self, other: Packed) -> Packed {
        unsafe {
            let even = _mm256_mul_epu32(self.0, other.0);
            let odd = _mm256_mul_epu32(odd_words(self.0), odd_words(other.0));
            let (inverse, modulus) = (splat(P_INVERSE), splat(P));
            let even_multiple = _mm256_mul_epu32(_mm256_mul_epu32(even, inverse), modulus);
            let odd_multiple = _mm256_mul_epu32(_mm256_mul_epu32(odd, inverse), modulus);
            let high = _mm256_blend_epi32::<0b1010_1010>(odd_words(even), odd);
            let multiple =
                _mm256_blend_epi32::<0b1010_1010>(odd_words(even_multiple), odd_multiple);
            let difference = _mm256_sub_epi32(high, multiple);
            Packed(_mm256_min_epu32(
                difference,
                _mm256_add_epi32(difference, modulus),
            ))
        }
    }
}

/// An element of the extension in each lane.
pub type PackedExtension = Extension<Packed>;

/// The same element in each lane.
pub fn in_each(element: Extension) -> PackedExtension {
    Extension(element.0.map(Packed::from))
}

/// Eight elements, one in each lane.
#[inline(always)]
pub fn gathered(elements: &[Extension; LANES]) -> PackedExtension {
    Extension(from_fn(|c| Packed::of(|lane| elements[lane].0[c])))
}

/// The element in each lane.
#[inline(always)]
pub fn scattered(packed: PackedExtension) -> [Extension; LANES] {
    let coordinates = packed.0.map(Packed::lanes);
    from_fn(|lane| Extension(from_fn(|c| coordinates[c][lane])))
}

/// The coordinates of two elements, in lanes beside each other.
#[inline(always)]
pub fn beside(first: Extension, second: Extension) -> Packed {
    Packed::of(|i| {
        if i < DEGREE {
            first.0[i]
        } else {
            second.0[i - DEGREE]
        }
    })
}

/// Two elements of the base field, each for the coordinates of one of two of the extension.
#[inline(always)]
pub fn for_both(first: BabyBear, second: BabyBear) -> Packed {
    Packed::of(|i| if i < DEGREE { first } else { second })
}

/// The two elements of the extension that are beside each other.
#[inline(always)]
pub fn apart(pair: Packed) -> [Extension; 2] {
    let lanes = pair.lanes();
    [0, DEGREE].map(|first| Extension(from_fn(|c| lanes[first + c])))
}

/// The elements of a row by two, the last with a zero where there is no other.
#[inline(always)]
pub fn by_two<const W: usize>(row: &[BabyBear; W]) -> impl Iterator<Item = Packed> + '_ {
    let pairs = row.chunks(2);
    pairs.map(|pair| for_both(pair[0], *pair.get(1).unwrap_or(&BabyBear::ZERO)))
}

/// The inverses of elements that aren't zero, in eight chains of products.
pub fn inverses(elements: &[BabyBear]) -> Vec<BabyBear> {
    let (whole, rest) = elements.as_chunks::<LANES>();
    let mut product = Packed::from(BabyBear::ONE);
    let mut before = Vec::with_capacity(whole.len());
    for eight in whole {
        before.push(product);
        product = product * Packed::load(eight);
    }
    let mut inverses = vec![BabyBear::ZERO; elements.len()];
    let (found, found_rest) = inverses.as_chunks_mut::<LANES>();
    let mut after = Packed::load(&product.lanes().map(BabyBear::inverse));
    for ((inverse, eight), before) in found.iter_mut().zip(whole).zip(before).rev() {
        (before * after).store(inverse);
        after = after * Packed::load(eight);
    }
    for (inverse, element) in found_rest.iter_mut().zip(rest) {
        *inverse = element.inverse();
    }
    inverses
}

// ---- SHA-256

/// A word in each lane, rotated to the right.
macro_rules! rotated {
    ($x:expr, $by:literal) => {
        _mm256_or_si256(
            _mm256_srli_epi32::<$by>($x),
            _mm256_slli_epi32::<{ 32 - $by }>($x),
        )
    };
}

macro_rules! xored {
    ($a:expr, $b:expr, $c:expr) => {
        _mm256_xor_si256(_mm256_xor_si256($a, $b), $c)
    };
}

#[inline(always)]
unsafe fn sum<const N: usize>(words: [__m256i; N]) -> __m256i {
    words.into_iter().fold(_mm256_setzero_si256(), |sum, word| {
        _mm256_add_epi32(sum, word)
    })
}

/// Eight rows of eight words, turned into columns.
#[inline(always)]
unsafe fn transposed(rows: [__m256i; 8]) -> [__m256i; 8] {
    let pairs: [__m256i; 8] = from_fn(|i| {
        let (a, b) = (rows[i & !1 & 6], rows[(i & 6) + 1]);
        if i & 1 == 0 {
            _mm256_unpacklo_epi32(a, b)
        } else {
            _mm256_unpackhi_epi32(a, b)
        }
    });
    // pairs[2 k], pairs[2 k + 1]: the low and the high halves of rows 2 k and 2 k + 1.
    let fours: [__m256i; 8] = from_fn(|i| {
        let (k, half, high) = (i / 4 * 4, (i % 4) / 2, i % 2 == 1);
        let (a, b) = (pairs[k + half], pairs[k + half + 2]);
        if high {
            _mm256_unpackhi_epi64(a, b)
        } else {
            _mm256_unpacklo_epi64(a, b)
        }
    });
    from_fn(|i| {
        let (a, b) = (fours[i % 4], fours[i % 4 + 4]);
        if i < 4 {
            _mm256_permute2x128_si256::<0x20>(a, b)
        } else {
            _mm256_permute2x128_si256::<0x31>(a, b)
        }
    })
}

/// The bytes of each word the other way round.
#[inline(always)]
unsafe fn swapped(words: __m256i) -> __m256i {
    let order = _mm256_setr_epi8(
        3, 2, 1, 0, 7, 6, 5, 4, 11, 10, 9, 8, 15, 14, 13, 12, 3, 2, 1, 0, 7, 6, 5, 4, 11, 10, 9, 8,
        15, 14, 13, 12,
    );
    _mm256_shuffle_epi8(words, order)
}

/// The sixteen words of a block in each lane.
#[inline(always)]
unsafe fn words_of(blocks: [&[u8; 64]; LANES]) -> [__m256i; 16] {
    let half = |at: usize| {
        let rows = from_fn(|lane| swapped(_mm256_loadu_si256(blocks[lane][at..].as_ptr().cast())));
        transposed(rows)
    };
    let (low, high) = (half(0), half(32));
    from_fn(|i| if i < 8 { low[i] } else { high[i - 8] })
}

/// The next sixteen words of the schedule, in place of the last sixteen.
#[inline(always)]
unsafe fn advance(words: &mut [__m256i; 16]) {
    for i in 0..16 {
        let (near, far) = (words[(i + 14) % 16], words[(i + 1) % 16]);
        let near = xored!(
            rotated!(near, 17),
            rotated!(near, 19),
            _mm256_srli_epi32::<10>(near)
        );
        let far = xored!(
            rotated!(far, 7),
            rotated!(far, 18),
            _mm256_srli_epi32::<3>(far)
        );
        words[i] = sum([words[i], far, words[(i + 9) % 16], near]);
    }
}

/// A round on the working variables.
#[inline(always)]
unsafe fn round([a, b, c, d, e, f, g, h]: [__m256i; 8], word: __m256i) -> [__m256i; 8] {
    let sigma = xored!(rotated!(e, 6), rotated!(e, 11), rotated!(e, 25));
    let chosen = _mm256_xor_si256(g, _mm256_and_si256(e, _mm256_xor_si256(f, g)));
    let first = sum([h, sigma, chosen, word]);
    let sigma = xored!(rotated!(a, 2), rotated!(a, 13), rotated!(a, 22));
    let either = _mm256_or_si256(a, b);
    let majority = _mm256_or_si256(_mm256_and_si256(a, b), _mm256_and_si256(c, either));
    [
        sum([first, sigma, majority]),
        a,
        b,
        c,
        _mm256_add_epi32(d, first),
        e,
        f,
        g,
    ]
}

#[inline(always)]
unsafe fn compress(state: &mut [__m256i; 8], blocks: [&[u8; 64]; LANES]) {
    let mut words = words_of(blocks);
    let mut variables = *state;
    for (turn, constants) in CONSTANTS.chunks_exact(16).enumerate() {
        if turn > 0 {
            advance(&mut words);
        }
        for (word, constant) in words.iter().zip(constants) {
            variables = round(variables, _mm256_add_epi32(*word, splat(*constant)));
        }
    }
    for (word, more) in state.iter_mut().zip(variables) {
        *word = _mm256_add_epi32(*word, more);
    }
}

/// The digests of eight texts of one length.
pub fn digests(texts: [&[u8]; LANES]) -> [Digest; LANES] {
    let blocks = texts.map(Blocks::new);
    let mut state = INITIAL.map(splat);
    for i in 0..blocks[0].count() {
        unsafe { compress(&mut state, from_fn(|lane| blocks[lane].get(i))) }
    }
    digests_of(state)
}

/// The nodes over eight blocks of two digests.
pub fn nodes(blocks: [&[u8; 64]; LANES]) -> [Digest; LANES] {
    let mut state = NODE.map(splat);
    unsafe { compress(&mut state, blocks) }
    digests_of(state)
}

/// The bytes of eight states.
fn digests_of(state: [__m256i; 8]) -> [Digest; LANES] {
    unsafe {
        let rows = transposed(state);
        rows.map(|row| {
            let mut digest = [0; 32];
            _mm256_storeu_si256(digest.as_mut_ptr().cast(), swapped(row));
            digest
        })
    }
}
