//! An entry.

use std::num::NonZeroU64;

/// A retained entry: a hash from 1 to 2^63 - 2, and its summary.
#[derive(Debug, Clone)]
pub struct TupleEntry<S> {
    hash: NonZeroU64,
    pub(super) summary: S,
}

impl<S> TupleEntry<S> {
    pub(super) fn of(hash: u64, summary: S) -> Self {
        Self { hash: NonZeroU64::new(hash).expect("a retained hash is not 0"), summary }
    }

    pub(super) fn parts(&self) -> (u64, &S) {
        (self.hash(), &self.summary)
    }

    /// The hash.
    pub fn hash(&self) -> u64 {
        self.hash.get()
    }

    /// The summary.
    pub fn summary(&self) -> &S {
        &self.summary
    }
}
