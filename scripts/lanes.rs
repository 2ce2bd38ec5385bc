//! Transforms over BabyBear's numbers in four ways, with the same butterflies and the same values:
//! a number at a time, reduced by a division by a constant, as a residue's product is; one by
//! Montgomery's method; and by it in lanes, four of 32 bits and eight. Numbers stay plain: of each
//! product the twiddle alone is in Montgomery's form, so that the product is plain again.
//! `bench-lanes` builds it and runs it.
use std::arch::x86_64::*;
use std::time::Instant;

const P: u32 = 2013265921;
/// An element of order 2^27.
const ROOT: u32 = 440564289;
/// The inverse of P modulo 2^32, by Newton's steps.
const INVERSE: u32 = {
    let mut inverse: u32 = 1;
    let mut step = 0;
    while step < 5 {
        inverse = inverse.wrapping_mul(2u32.wrapping_sub(P.wrapping_mul(inverse)));
        step += 1;
    }
    inverse
};
const RUNS: usize = 21;

fn product(a: u32, b: u32) -> u32 {
    (u64::from(a) * u64::from(b) % u64::from(P)) as u32
}

fn sum(a: u32, b: u32) -> u32 {
    let sum = a + b;
    if sum < P { sum } else { sum - P }
}

/// A product by Montgomery's method: `a * b / 2^32`.
fn montgomery_product(a: u32, b: u32) -> u32 {
    let wide = u64::from(a) * u64::from(b);
    let multiple = u64::from((wide as u32).wrapping_mul(INVERSE)) * u64::from(P);
    let (value, is_below) = ((wide >> 32) as u32).overflowing_sub((multiple >> 32) as u32);
    if is_below { value.wrapping_add(P) } else { value }
}

fn to_montgomery(x: u32) -> u32 {
    ((u64::from(x) << 32) % u64::from(P)) as u32
}

/// The twiddles of each layer of a transform of 2^log numbers.
fn twiddles(log: u32) -> Vec<Vec<u32>> {
    let mut steps = vec![ROOT; 28];
    for k in (0..27).rev() {
        steps[k] = product(steps[k + 1], steps[k + 1]);
    }
    let powers = |step: u32, count: usize| {
        std::iter::successors(Some(1), move |w| Some(product(*w, step))).take(count).collect()
    };
    (0..log as usize).map(|layer| powers(steps[layer + 1], 1 << layer)).collect()
}

/// The butterflies of one block, a number at a time.
#[inline(always)]
fn butterflies(low: &mut [u32], high: &mut [u32], twiddles: &[u32], times: fn(u32, u32) -> u32) {
    for ((a, b), w) in low.iter_mut().zip(high).zip(twiddles) {
        let (x, y) = (*a, times(*b, *w));
        *a = sum(x, y);
        *b = sum(x, P - y);
    }
}

#[inline(always)]
fn transform(values: &mut [u32], layers: &[Vec<u32>], times: fn(u32, u32) -> u32) {
    for twiddles in layers {
        for block in values.chunks_exact_mut(2 * twiddles.len()) {
            let (low, high) = block.split_at_mut(twiddles.len());
            butterflies(low, high, twiddles, times);
        }
    }
}

/// A transform in lanes, by the intrinsics of one width; blocks of fewer numbers, one at a time.
macro_rules! in_lanes {
    ($name:ident, $feature:literal, $lanes:literal, $vector:ty, $load:ident, $store:ident,
        $splat:ident, $add:ident, $sub:ident, $min:ident, $times:ident, $down:ident, $odd:expr) => {
        #[target_feature(enable = $feature)]
        unsafe fn $name(values: &mut [u32], layers: &[Vec<u32>]) {
            let (p, inverse) = ($splat(P as i32), $splat(INVERSE as i32));
            let small = layers.partition_point(|twiddles| twiddles.len() < $lanes);
            transform(values, &layers[..small], montgomery_product);
            for twiddles in &layers[small..] {
                for block in values.chunks_exact_mut(2 * twiddles.len()) {
                    let (low, high) = block.split_at_mut(twiddles.len());
                    for place in (0..low.len()).step_by($lanes) {
                        unsafe {
                            let a = $load(low.as_ptr().add(place).cast::<$vector>());
                            let b = $load(high.as_ptr().add(place).cast::<$vector>());
                            let w = $load(twiddles.as_ptr().add(place).cast::<$vector>());
                            let even = $times(b, w);
                            let odd = $times($down::<32>(b), $down::<32>(w));
                            let even_multiple = $times($times(even, inverse), p);
                            let odd_multiple = $times($times(odd, inverse), p);
                            let upper = $odd($down::<32>(even), odd);
                            let multiple = $odd($down::<32>(even_multiple), odd_multiple);
                            let y = $sub(upper, multiple);
                            let y = $min(y, $add(y, p));
                            let sums = $add(a, y);
                            let sums = $min(sums, $sub(sums, p));
                            let differences = $sub(a, y);
                            let differences = $min(differences, $add(differences, p));
                            $store(low.as_mut_ptr().add(place).cast::<$vector>(), sums);
                            $store(high.as_mut_ptr().add(place).cast::<$vector>(), differences);
                        }
                    }
                }
            }
        }
    };
}

in_lanes!(
    by_four_lanes, "sse4.1", 4, __m128i, _mm_loadu_si128, _mm_storeu_si128, _mm_set1_epi32,
    _mm_add_epi32, _mm_sub_epi32, _mm_min_epu32, _mm_mul_epu32, _mm_srli_epi64,
    _mm_blend_epi16::<0xCC>
);
in_lanes!(
    by_eight_lanes, "avx2", 8, __m256i, _mm256_loadu_si256, _mm256_storeu_si256,
    _mm256_set1_epi32, _mm256_add_epi32, _mm256_sub_epi32, _mm256_min_epu32, _mm256_mul_epu32,
    _mm256_srli_epi64, _mm256_blend_epi32::<0xAA>
);

/// The median of some runs' microseconds; panics where the values are others.
fn median(input: &[u32], wanted: &[u32], run: impl Fn(&mut [u32])) -> u128 {
    let mut times: Vec<u128> = (0..RUNS)
        .map(|_| {
            let mut values = input.to_vec();
            let start = Instant::now();
            run(&mut values);
            let time = start.elapsed().as_micros();
            assert!(values == wanted, "other values");
            time
        })
        .collect();
    times.sort_unstable();
    times[RUNS / 2]
}

fn main() {
    println!("| Numbers | division, us | Montgomery | four lanes | eight lanes |");
    println!("|---|---|---|---|---|");
    for log in [12, 16, 18, 20] {
        let input: Vec<u32> = (0..1 << log).map(|i| product(i + 1, 1234567891)).collect();
        let plain = twiddles(log);
        let scaled: Vec<Vec<u32>> =
            plain.iter().map(|layer| layer.iter().map(|w| to_montgomery(*w)).collect()).collect();
        let mut wanted = input.clone();
        transform(&mut wanted, &plain, product);
        let division = median(&input, &wanted, |v| transform(v, &plain, product));
        let montgomery = median(&input, &wanted, |v| transform(v, &scaled, montgomery_product));
        let four = median(&input, &wanted, |v| unsafe { by_four_lanes(v, &scaled) });
        let eight = if is_x86_feature_detected!("avx2") {
            median(&input, &wanted, |v| unsafe { by_eight_lanes(v, &scaled) }).to_string()
        } else {
            "none".to_string()
        };
        println!("| 2^{log} | {division} | {montgomery} | {four} | {eight} |");
    }
}
