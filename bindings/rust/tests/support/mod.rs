//! What the tests share: a seeded generator, images in parts, the comparison of library and model, and the list of refusals.
#![allow(dead_code)] // each test takes what it needs

pub mod compare;
pub mod damage;
pub mod faults;
pub mod images;
#[path = "../model/mod.rs"]
pub mod model;
pub mod rings;

const DEFAULT_SEED: u64 = 0x5a17_0c4a_7d00_0001;

/// The seed of all random inputs: `SALTORCHARD_SEED`, or a fixed one.
pub fn seed() -> u64 {
    match std::env::var("SALTORCHARD_SEED") {
        Ok(text) => text.parse().expect("SALTORCHARD_SEED is a decimal number"),
        Err(_) => DEFAULT_SEED,
    }
}

/// xorshift64*.
pub struct Rng(u64);

impl Rng {
    /// A generator of its own for each entry, so that a test's inputs don't depend on the other tests.
    pub fn new(entry: &str) -> Self {
        let mut state = seed();
        for byte in entry.bytes() {
            state = (state ^ u64::from(byte)).wrapping_mul(0x0000_0100_0000_01b3);
        }
        Self(state | 1)
    }

    pub fn next(&mut self) -> u64 {
        self.0 ^= self.0 >> 12;
        self.0 ^= self.0 << 25;
        self.0 ^= self.0 >> 27;
        self.0.wrapping_mul(0x2545_f491_4f6c_dd1d)
    }

    pub fn below(&mut self, end: usize) -> usize {
        ((self.next() >> 16) % end as u64) as usize
    }

    pub fn byte(&mut self) -> u8 {
        (self.next() >> 32) as u8
    }

    pub fn uint32(&mut self) -> u32 {
        (self.next() >> 32) as u32
    }

    pub fn one_in(&mut self, many: usize) -> bool {
        self.below(many) == 0
    }

    pub fn bytes(&mut self, length: usize) -> Vec<u8> {
        (0..length).map(|_| self.byte()).collect()
    }

    pub fn pick<'a, T>(&mut self, from: &'a [T]) -> &'a T {
        &from[self.below(from.len())]
    }
}

pub fn hex(bytes: &[u8]) -> String {
    bytes.iter().map(|byte| format!("{:02x}", byte)).collect()
}
