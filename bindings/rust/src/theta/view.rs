//! Views of sketches of both kinds, and their entries.

use super::{CompactThetaSketch, ThetaSketch};
use crate::error::{must, Error, ErrorKind};
use std::num::NonZeroU64;

/// A retained entry: a hash from 1 to 2^63 - 2.
#[derive(Debug, Clone, Copy)]
pub struct ThetaEntry {
    hash: NonZeroU64,
}

impl ThetaEntry {
    #[inline]
    pub(super) fn of(hash: u64) -> Self {
        Self { hash: NonZeroU64::new(hash).expect("a retained hash is not 0") }
    }

    /// The hash.
    pub fn hash(&self) -> u64 {
        self.hash.get()
    }
}

/// The entries of a sketch of either kind.
enum Entries<S, F> {
    Sketch(S),
    Form(F),
}

impl<S: Iterator<Item = ThetaEntry>, F: Iterator<Item = ThetaEntry>> Iterator for Entries<S, F> {
    type Item = ThetaEntry;

    #[inline]
    fn next(&mut self) -> Option<ThetaEntry> {
        match self {
            Self::Sketch(entries) => entries.next(),
            Self::Form(entries) => entries.next(),
        }
    }

    fn size_hint(&self) -> (usize, Option<usize>) {
        match self {
            Self::Sketch(entries) => entries.size_hint(),
            Self::Form(entries) => entries.size_hint(),
        }
    }
}

/// A [`ThetaSketch`] or a [`CompactThetaSketch`], by reference: what unions, intersections and differences take.
///
/// ```
/// let mut sketch = kaftanclay::theta::ThetaSketchBuilder::default().build().unwrap();
/// sketch.update("ann");
/// assert_eq!(sketch.as_view().num_retained(), sketch.compact(true).as_view().num_retained());
/// ```
#[derive(Debug, Clone, Copy)]
pub struct ThetaSketchView<'a>(pub(super) Viewed<'a>);

#[derive(Debug, Clone, Copy)]
pub(super) enum Viewed<'a> {
    Sketch(&'a ThetaSketch),
    Form(&'a CompactThetaSketch),
}

impl<'a> ThetaSketchView<'a> {
    /// The hash of the sketch's seed, of 16 bits.
    pub fn seed_hash(&self) -> u16 {
        match self.0 {
            Viewed::Sketch(sketch) => sketch.seed_hash(),
            Viewed::Form(form) => form.seed_hash(),
        }
    }

    /// Theta, from 1 to 2^63 - 1, which is that of an empty sketch.
    pub fn theta64(&self) -> u64 {
        match self.0 {
            Viewed::Sketch(sketch) => sketch.theta64(),
            Viewed::Form(form) => form.theta64(),
        }
    }

    /// Whether the sketch is empty.
    pub fn is_empty(&self) -> bool {
        match self.0 {
            Viewed::Sketch(sketch) => sketch.is_empty(),
            Viewed::Form(form) => form.is_empty(),
        }
    }

    /// Whether the sketch promises that its hashes ascend: a sketch that takes updates never does.
    pub fn is_ordered(&self) -> bool {
        match self.0 {
            Viewed::Sketch(_) => false,
            Viewed::Form(form) => form.is_ordered(),
        }
    }

    /// The retained entries, as those of the sketch.
    ///
    /// # Panics
    ///
    /// If memory is refused; [`try_iter`](Self::try_iter) returns that as an error.
    pub fn iter(self) -> impl Iterator<Item = ThetaEntry> + 'a {
        must(self.try_iter())
    }

    /// The retained entries, or `OutOfMemory`.
    pub fn try_iter(self) -> Result<impl Iterator<Item = ThetaEntry> + 'a, Error> {
        Ok(match self.0 {
            Viewed::Sketch(sketch) => Entries::Sketch(sketch.try_iter()?),
            Viewed::Form(form) => Entries::Form(form.try_iter()?),
        })
    }

    /// How many hashes the sketch retains.
    pub fn num_retained(&self) -> usize {
        match self.0 {
            Viewed::Sketch(sketch) => sketch.num_retained(),
            Viewed::Form(form) => form.num_retained(),
        }
    }

    /// The error of a sketch of another seed than that of what reads it, in the place of `refused`.
    pub(super) fn refusal(&self, refused: Error, seed_hash: u16) -> Error {
        if refused.kind() == ErrorKind::InvalidArgument && !self.is_empty() && self.seed_hash() != seed_hash {
            Error::other_seed(self.seed_hash(), seed_hash)
        } else {
            refused
        }
    }
}

impl<'a> From<&'a ThetaSketch> for ThetaSketchView<'a> {
    fn from(sketch: &'a ThetaSketch) -> Self {
        Self(Viewed::Sketch(sketch))
    }
}

impl<'a> From<&'a CompactThetaSketch> for ThetaSketchView<'a> {
    fn from(form: &'a CompactThetaSketch) -> Self {
        Self(Viewed::Form(form))
    }
}
