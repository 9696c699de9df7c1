//! Where a map keeps a hash.

use std::collections::hash_map::RandomState;
use std::hash::{BuildHasher, Hasher};

/// Hashes that callers may have chosen are hashed again, by bits from the middle of their product with a random number of
/// 128 bits. However two numbers were chosen, without that factor: they share n given bits with a chance of at most
/// 2 / 2^n.
#[derive(Debug, Clone)]
pub(super) struct Places {
    factor: u128,
}

impl Default for Places {
    fn default() -> Self {
        let random = RandomState::new();
        let half = |number: u64| u128::from(random.hash_one(number));
        Self { factor: half(0) << 64 | half(1) }
    }
}

impl BuildHasher for Places {
    type Hasher = Place;

    #[inline]
    fn build_hasher(&self) -> Place {
        Place { factor: self.factor, place: 0 }
    }
}

#[derive(Debug)]
pub(super) struct Place {
    factor: u128,
    place: u64,
}

impl Hasher for Place {
    #[inline]
    fn write_u64(&mut self, number: u64) {
        self.place = (self.factor.wrapping_mul(u128::from(number)) >> 64) as u64;
    }

    fn write(&mut self, _: &[u8]) {
        unreachable!("the key of a map is a number");
    }

    #[inline]
    fn finish(&self) -> u64 {
        self.place
    }
}
