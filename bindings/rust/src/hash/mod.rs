//! What is hashed: the bytes that std's [`Hash`] writes for a value. The C library hashes them.

pub mod value;

use crate::border;
use crate::error::{Error, ErrorKind};
use std::hash::{Hash, Hasher};

/// The seed that all implementations of the DataSketches format use if no other is passed.
pub const DEFAULT_UPDATE_SEED: u64 = 9001;

/// How many bytes are gathered without memory.
const SMALL: usize = 64;

/// The bytes that `Hash` writes for a value.
pub(crate) struct Gathered {
    length: usize,
    small: [u8; SMALL],
    /// All bytes, once they are more than `SMALL`.
    large: Vec<u8>,
}

impl Gathered {
    #[inline]
    pub(crate) fn of<T: Hash>(value: T) -> Self {
        let mut gathered = Self { length: 0, small: [0; SMALL], large: Vec::new() };
        value.hash(&mut gathered);
        gathered
    }

    #[inline]
    pub(crate) fn bytes(&self) -> &[u8] {
        if self.large.is_empty() {
            &self.small[..self.length]
        } else {
            &self.large
        }
    }

    #[cold]
    fn write_large(&mut self, bytes: &[u8]) {
        if self.large.is_empty() {
            self.large.extend_from_slice(&self.small[..self.length]);
        }
        self.large.extend_from_slice(bytes);
    }
}

impl Hasher for Gathered {
    #[inline]
    fn write(&mut self, bytes: &[u8]) {
        if self.large.is_empty() && bytes.len() <= SMALL - self.length {
            self.small[self.length..self.length + bytes.len()].copy_from_slice(bytes);
            self.length += bytes.len();
        } else if !bytes.is_empty() {
            self.write_large(bytes);
        }
    }

    /// A `Hash` has no use for this.
    fn finish(&self) -> u64 {
        0
    }
}

/// The hash of a seed, of 16 bits and not 0, or an error of this kind.
pub(crate) fn seed_hash(seed: u64, kind: ErrorKind) -> Result<u16, Error> {
    border::seed_hash(seed).ok_or_else(|| Error::new(kind, format!("the seed {seed} has the hash 0: choose another")))
}

#[cfg(test)]
mod tests {
    use super::*;

    #[test]
    fn bytes_are_gathered_whole() {
        for count in [0, 1, 63, 64, 65, 200] {
            for piece in [1, 3, 64, 200] {
                let bytes: Vec<u8> = (0..count).map(|it| it as u8).collect();
                let mut gathered = Gathered::of(());
                for part in bytes.chunks(piece) {
                    gathered.write(part);
                }
                assert_eq!(gathered.bytes(), bytes);
            }
        }
    }
}
