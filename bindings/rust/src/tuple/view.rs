//! Views of sketches of both kinds.

use super::compact::{Form, OwnForm};
use super::image;
use super::own::OwnSketch;
use super::sums::SumsSketch;
use super::{CompactTupleSketch, SummaryPolicy, TupleEntry, TupleSketch};
use crate::border::{self, number_of, same_slice, State};
use crate::codec::SketchBytes;
use crate::error::{must, Error};
use crate::lent::Lent;
use std::collections::hash_map::Values;
use std::{fmt, slice};

/// The entries of a sketch.
pub(super) enum Entries<'a, S> {
    Slice(slice::Iter<'a, TupleEntry<S>>),
    Map(Values<'a, u64, TupleEntry<S>>),
}

impl<'a, S> Entries<'a, S> {
    /// The entries of a sketch of sums, whose summaries are `u64`.
    pub(super) fn of_sums(entries: &'a [TupleEntry<u64>]) -> Self {
        Self::Slice(same_slice(entries).expect("the C library has sums of u64 alone").iter())
    }
}

impl<'a, S> Iterator for Entries<'a, S> {
    type Item = &'a TupleEntry<S>;

    fn next(&mut self) -> Option<&'a TupleEntry<S>> {
        match self {
            Self::Slice(entries) => entries.next(),
            Self::Map(entries) => entries.next(),
        }
    }

    fn size_hint(&self) -> (usize, Option<usize>) {
        match self {
            Self::Slice(entries) => entries.size_hint(),
            Self::Map(entries) => entries.size_hint(),
        }
    }
}

/// A [`TupleSketch`] or a [`CompactTupleSketch`], by reference and without its policy: what unions, intersections and
/// differences take.
///
/// ```
/// use kaftanclay::tuple::{DefaultUpdatePolicy, TupleSketchBuilder};
///
/// let mut visits = TupleSketchBuilder::new(DefaultUpdatePolicy::<u64>::default()).build().unwrap();
/// visits.update("ann", 2);
/// assert_eq!(visits.as_view().iter().next().unwrap().summary(), &2);
/// ```
pub struct TupleSketchView<'a, S>(pub(super) Viewed<'a, S>);

pub(super) enum Viewed<'a, S> {
    Sums(&'a SumsSketch),
    Own(&'a OwnSketch<S>),
    Form(&'a CompactTupleSketch<S>),
}

impl<S> Clone for TupleSketchView<'_, S> {
    fn clone(&self) -> Self {
        *self
    }
}

impl<S> Copy for TupleSketchView<'_, S> {}

impl<S> Clone for Viewed<'_, S> {
    fn clone(&self) -> Self {
        *self
    }
}

impl<S> Copy for Viewed<'_, S> {}

impl<S> fmt::Debug for TupleSketchView<'_, S> {
    fn fmt(&self, f: &mut fmt::Formatter<'_>) -> fmt::Result {
        f.debug_struct("TupleSketchView").field("state", &self.state()).finish_non_exhaustive()
    }
}

impl<'a, S> TupleSketchView<'a, S> {
    pub(super) fn state(&self) -> State {
        match self.0 {
            Viewed::Sums(sketch) => sketch.state(),
            Viewed::Own(sketch) => sketch.state(),
            Viewed::Form(form) => form.state,
        }
    }

    /// The hash of the sketch's seed, of 16 bits.
    pub fn seed_hash(&self) -> u16 {
        match self.0 {
            Viewed::Sums(sketch) => sketch.seed_hash(),
            Viewed::Own(sketch) => sketch.seed_hash(),
            Viewed::Form(form) => form.seed_hash(),
        }
    }

    /// Theta, from 1 to 2^63 - 1, which is that of an empty sketch.
    pub fn theta64(&self) -> u64 {
        self.state().theta
    }

    /// Whether the sketch is empty.
    pub fn is_empty(&self) -> bool {
        self.state().is_empty()
    }

    /// Whether the sketch promises that its hashes ascend: a sketch that takes updates never does.
    pub fn is_ordered(&self) -> bool {
        matches!(self.0, Viewed::Form(form) if form.is_ordered())
    }

    /// The retained entries, as those of the sketch.
    ///
    /// # Panics
    ///
    /// If memory is refused, which only sketches of sums need; [`try_iter`](Self::try_iter) returns that as an error.
    pub fn iter(self) -> impl Iterator<Item = &'a TupleEntry<S>> + 'a {
        must(self.entries())
    }

    /// The retained entries, or `OutOfMemory`.
    pub fn try_iter(self) -> Result<impl Iterator<Item = &'a TupleEntry<S>> + 'a, Error> {
        self.entries()
    }

    pub(super) fn entries(self) -> Result<Entries<'a, S>, Error> {
        match self.0 {
            Viewed::Sums(sketch) => sketch.entries().map(Entries::of_sums),
            Viewed::Own(sketch) => Ok(Entries::Map(sketch.map().values())),
            Viewed::Form(form) => form.entries(),
        }
    }

    /// How many entries the sketch retains.
    pub fn num_retained(&self) -> usize {
        self.state().retained as usize
    }

    /// Whether the sketch is nonempty and of another seed than this.
    pub(super) fn is_foreign(&self, seed_hash: u16) -> bool {
        self.seed_hash() != seed_hash && !self.is_empty()
    }

    pub(super) fn check_seed(&self, seed_hash: u16) -> Result<(), Error> {
        if self.is_foreign(seed_hash) {
            Err(Error::other_seed(self.seed_hash(), seed_hash))
        } else {
            Ok(())
        }
    }

    /// Whether the sketch is the C library's.
    pub(super) fn is_of_sums(&self) -> bool {
        matches!(self.0, Viewed::Sums(_) | Viewed::Form(CompactTupleSketch { form: Form::Sums(_), .. }))
    }

    /// The compact theta sketch of the keys, ordered only if the sketch is, or must be. A seed is needed whose hash is
    /// that of the sketch's.
    pub(super) fn keys(self, seed: u64) -> Result<Lent<'a, border::Compact>, Error> {
        // No call makes it of a sketch of sums.
        let of_sums = |form: &border::CompactSums| {
            let (hashes, _) = form.entries()?;
            border::Compact::of_hashes(form.state(), form.is_ordered(), &hashes, seed).map(Lent::Made)
        };
        match self.0 {
            Viewed::Own(sketch) => sketch.keys().compact(false).map(Lent::Made),
            Viewed::Form(form) => match &form.form {
                Form::Own(form) => Ok(Lent::Given(&form.keys)),
                Form::Sums(kept) => of_sums(&kept.object),
            },
            Viewed::Sums(sketch) => of_sums(&sketch.object().compact(false)?),
        }
    }

    /// The compact sketch of sums, of a sketch whose summaries are `u64`, ordered and of a seed as `keys` is.
    pub(super) fn sums(self, seed: u64) -> Result<Lent<'a, border::CompactSums>, Error> {
        let write = |sum: &S, out: &mut SketchBytes| {
            out.write_u64_le(number_of(sum).expect("the C library has sums of u64 alone"));
        };
        let room = 8 * self.num_retained();
        let image = match self.0 {
            Viewed::Sums(sketch) => return sketch.object().compact(false).map(Lent::Made),
            Viewed::Own(sketch) => {
                let keys = sketch.keys().compact(false)?;
                let (map, hashes) = (sketch.map(), keys.hashes()?);
                image::written(&keys, hashes.iter().map(|hash| map[hash].parts()), room, write)?
            }
            Viewed::Form(form) => match &form.form {
                Form::Sums(kept) => return Ok(Lent::Given(&kept.object)),
                Form::Own(OwnForm { keys, entries }) => {
                    image::written(keys, entries.iter().map(TupleEntry::parts), room, write)?
                }
            },
        };
        border::CompactSums::of_image(&image, seed).map(Lent::Made)
    }
}

impl<'a, P: SummaryPolicy> From<&'a TupleSketch<P>> for TupleSketchView<'a, P::Summary> {
    fn from(sketch: &'a TupleSketch<P>) -> Self {
        Self(sketch.viewed())
    }
}

impl<'a, S> From<&'a CompactTupleSketch<S>> for TupleSketchView<'a, S> {
    fn from(form: &'a CompactTupleSketch<S>) -> Self {
        Self(Viewed::Form(form))
    }
}
