//! The transcript: a state of 32 bytes, each the digest of the one before and of what was done.

use crate::extension::Extension;
use crate::field::{BabyBear, P};
use crate::sha256::{digest, Digest};
#[cfg(wide)]
use crate::wide::{digests, LANES};
#[cfg(wide)]
use std::array::from_fn;

#[derive(Clone)]
pub struct Challenger {
    state: Digest,
}

impl Challenger {
    pub fn new() -> Challenger {
        Challenger { state: [0; 32] }
    }

    /// Takes the byte that says what is done, and at most 32 bytes that it is done with.
    fn absorb(&mut self, tag: u8, bytes: &[u8]) {
        let mut text = [tag; 65];
        text[..32].copy_from_slice(&self.state);
        text[33..33 + bytes.len()].copy_from_slice(bytes);
        self.state = digest(&text[..33 + bytes.len()]);
    }

    /// The number of the state's first 8 bytes.
    fn leading(&self) -> u64 {
        u64::from_be_bytes(self.state[..8].try_into().unwrap())
    }

    pub fn observe(&mut self, element: BabyBear) {
        self.absorb(0, &(element.number() as u64).to_be_bytes());
    }

    pub fn observe_root(&mut self, root: &Digest) {
        self.absorb(3, root);
    }

    pub fn observe_extension(&mut self, element: Extension) {
        for coordinate in element.0 {
            self.observe(coordinate);
        }
    }

    /// Observes each byte as an element.
    pub fn observe_bytes(&mut self, bytes: &[u8]) {
        for byte in bytes {
            self.observe(BabyBear::new(*byte as u32));
        }
    }

    /// Observes a number as its 8 bytes.
    pub fn observe_number(&mut self, number: usize) {
        self.observe_bytes(&(number as u64).to_be_bytes());
    }

    fn draw_base(&mut self) -> BabyBear {
        self.absorb(1, &[]);
        BabyBear::new((self.leading() % P as u64) as u32)
    }

    pub fn draw(&mut self) -> Extension {
        Extension(std::array::from_fn(|_| self.draw_base()))
    }

    /// A number of so many bits, fewer than 64.
    pub fn draw_bits(&mut self, bits: usize) -> usize {
        self.absorb(2, &[]);
        self.leading() as usize % (1 << bits)
    }

    /// Whether a witness has done that many bits of work, of 1 to 63.
    pub fn check_witness(&mut self, bits: usize, witness: BabyBear) -> bool {
        self.observe(witness);
        self.draw_bits(bits) == 0
    }

    /// The first element that has done the work, and the state after its check: eight are tried
    /// at once.
    #[cfg(wide)]
    pub fn grind(&mut self, bits: usize) -> BabyBear {
        for first in (0..P).step_by(LANES) {
            let witnesses: [_; LANES] = from_fn(|lane| BabyBear::new(first + lane as u32));
            let observed = witnesses.map(|witness| {
                let mut text = [0; 41];
                text[..32].copy_from_slice(&self.state);
                text[33..].copy_from_slice(&(witness.number() as u64).to_be_bytes());
                text
            });
            let drawn = digests(observed.each_ref().map(|text| &text[..])).map(|state| {
                let mut text = [2; 33];
                text[..32].copy_from_slice(&state);
                text
            });
            let states = digests(drawn.each_ref().map(|text| &text[..]));
            let passes = |state| Challenger { state }.leading() % (1 << bits) == 0;
            if let Some(lane) = states.into_iter().position(passes) {
                self.check_witness(bits, witnesses[lane]);
                return witnesses[lane];
            }
        }
        unreachable!("no element of two billion does {bits} bits of work")
    }

    /// The first element that has done the work, and the state after its check.
    #[cfg(not(wide))]
    pub fn grind(&mut self, bits: usize) -> BabyBear {
        for number in 0..P {
            let (witness, mut trial) = (BabyBear::new(number), self.clone());
            if trial.check_witness(bits, witness) {
                *self = trial;
                return witness;
            }
        }
        unreachable!("no element of two billion does {bits} bits of work")
    }
}
