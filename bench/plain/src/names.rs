//! Numbers for names. The hash has a secret of its own in each run, so that no text can choose names that fall together.

use std::collections::HashMap;
use std::hash::{BuildHasher, Hash, Hasher, RandomState};

#[derive(Clone, Copy)]
pub struct Secret {
    start: u64,
    factor: u64,
}

impl Secret {
    pub fn new() -> Secret {
        let random = RandomState::new();
        Secret { start: random.hash_one(0u8), factor: random.hash_one(1u8) | 1 }
    }
}

impl BuildHasher for Secret {
    type Hasher = Folded;

    fn build_hasher(&self) -> Folded {
        Folded { state: self.start, factor: self.factor }
    }
}

/// Eight bytes at a time: the two halves of a product are folded into one word.
pub struct Folded {
    state: u64,
    factor: u64,
}

impl Folded {
    fn mix(&mut self, word: u64) {
        let product = u128::from(self.state ^ word) * u128::from(self.factor);
        self.state = (product as u64) ^ ((product >> 64) as u64);
    }
}

impl Hasher for Folded {
    fn write(&mut self, bytes: &[u8]) {
        let mut chunks = bytes.chunks_exact(8);
        for chunk in &mut chunks {
            self.mix(u64::from_le_bytes(chunk.try_into().unwrap()));
        }
        let mut last = 0;
        for byte in chunks.remainder() {
            last = last << 8 | u64::from(*byte);
        }
        self.mix(last);
    }

    fn write_u8(&mut self, number: u8) {
        self.mix(number.into());
    }

    fn write_u64(&mut self, number: u64) {
        self.mix(number);
    }

    fn write_usize(&mut self, number: usize) {
        self.mix(number as u64);
    }

    fn finish(&self) -> u64 {
        self.state
    }
}

/// Things by number, from 0, in the order in which they came first.
pub struct Numbered<T> {
    numbers: HashMap<T, u32, Secret>,
    pub list: Vec<T>,
}

impl<T: Copy + Eq + Hash> Numbered<T> {
    pub fn new(secret: Secret) -> Numbered<T> {
        Numbered { numbers: HashMap::with_hasher(secret), list: Vec::new() }
    }

    pub fn number(&mut self, thing: T) -> u32 {
        let list = &mut self.list;
        *self.numbers.entry(thing).or_insert_with(|| {
            list.push(thing);
            list.len() as u32 - 1
        })
    }
}

pub type Names<'t> = Numbered<&'t [u8]>;
