//! The compact sketch.

use super::image;
use super::sums::SumsForm;
use super::value::TupleSummaryValue;
use super::view::Entries;
use super::{TupleEntry, TupleSketchView};
use crate::border::{self, State};
use crate::codec::SketchSlice;
use crate::common::NumStdDev;
use crate::error::{must, Error, ErrorKind};
use crate::hash::{seed_hash, DEFAULT_UPDATE_SEED};
use std::fmt;
use std::mem::size_of;
use std::sync::Arc;

/// A tuple sketch that never changes, and has an image. A clone of one of sums shares the entries with it.
#[derive(Clone)]
pub struct CompactTupleSketch<S> {
    pub(super) form: Form<S>,
    pub(super) state: State,
}

#[derive(Clone)]
pub(super) enum Form<S> {
    /// The C library's; then S is u64.
    Sums(Arc<SumsForm>),
    Own(OwnForm<S>),
}

/// Entries whose keys are those of a theta sketch of the C library, in its order.
#[derive(Clone)]
pub(super) struct OwnForm<S> {
    pub(super) keys: Arc<border::Compact>,
    pub(super) entries: Vec<TupleEntry<S>>,
}

impl<S> fmt::Debug for CompactTupleSketch<S> {
    fn fmt(&self, f: &mut fmt::Formatter<'_>) -> fmt::Result {
        f.debug_struct("CompactTupleSketch")
            .field("state", &self.state)
            .field("ordered", &self.is_ordered())
            .finish_non_exhaustive()
    }
}

impl<S> CompactTupleSketch<S> {
    pub(super) fn of_sums(object: border::CompactSums) -> Self {
        let state = object.state();
        Self { form: Form::Sums(Arc::new(SumsForm::of(object))), state }
    }

    /// A sketch of keys, and of their entries in the order of these.
    pub(super) fn of_keys(keys: border::Compact, entries: Vec<TupleEntry<S>>) -> Self {
        let state = keys.state();
        assert_eq!(state.retained, entries.len() as u64, "each key has its entry");
        Self { form: Form::Own(OwnForm { keys: Arc::new(keys), entries }), state }
    }

    /// A view of the sketch, for unions, intersections and differences.
    pub fn as_view(&self) -> TupleSketchView<'_, S> {
        self.into()
    }

    /// The estimate of how many different keys there were: retained / theta, 0 if the sketch is empty.
    pub fn estimate(&self) -> f64 {
        self.state.estimate()
    }

    /// Theta as a fraction, above 0 and at most 1.
    pub fn theta(&self) -> f64 {
        self.state.fraction()
    }

    /// Theta, from 1 to 2^63 - 1, which is that of an empty sketch.
    pub fn theta64(&self) -> u64 {
        self.state.theta
    }

    /// Whether the sketch is empty.
    pub fn is_empty(&self) -> bool {
        self.state.is_empty()
    }

    /// Whether the sketch is nonempty and its theta is below 2^63 - 1, so that it estimates.
    pub fn is_estimation_mode(&self) -> bool {
        self.state.is_estimation_mode()
    }

    /// How many entries the sketch retains.
    pub fn num_retained(&self) -> usize {
        self.state.retained as usize
    }

    /// Whether the sketch promises that its hashes ascend.
    pub fn is_ordered(&self) -> bool {
        match &self.form {
            Form::Sums(kept) => kept.object.is_ordered(),
            Form::Own(form) => form.keys.is_ordered(),
        }
    }

    /// The hash of the seed, of 16 bits.
    pub fn seed_hash(&self) -> u16 {
        match &self.form {
            Form::Sums(kept) => kept.object.seed_hash(),
            Form::Own(form) => form.keys.seed_hash(),
        }
    }

    /// The retained entries, in the order of the image. Those of sums are copied at the first call, and the sketch
    /// keeps the copy.
    ///
    /// # Panics
    ///
    /// If memory is refused, which only sums need; [`try_iter`](Self::try_iter) returns that as an error.
    pub fn iter(&self) -> impl Iterator<Item = &TupleEntry<S>> + '_ {
        must(self.entries())
    }

    /// The retained entries, or `OutOfMemory`.
    pub fn try_iter(&self) -> Result<impl Iterator<Item = &TupleEntry<S>> + '_, Error> {
        self.entries()
    }

    pub(super) fn entries(&self) -> Result<Entries<'_, S>, Error> {
        match &self.form {
            Form::Sums(kept) => kept.entries().map(Entries::of_sums),
            Form::Own(form) => Ok(Entries::Slice(form.entries.iter())),
        }
    }

    /// A lower bound of how many different keys there were, a whole number (`datasketches` has another interval).
    pub fn lower_bound(&self, num_std_dev: NumStdDev) -> f64 {
        self.state.lower_bound(num_std_dev)
    }

    /// An upper bound of how many different keys there were, a whole number.
    pub fn upper_bound(&self, num_std_dev: NumStdDev) -> f64 {
        self.state.upper_bound(num_std_dev)
    }

    /// About how many bytes of memory the entries have, without what summaries point to.
    pub fn estimated_size(&self) -> usize {
        match &self.form {
            Form::Sums(kept) => kept.object.estimated_size() + 16 * kept.copied(),
            Form::Own(form) => form.keys.estimated_size() + size_of::<TupleEntry<S>>() * form.entries.capacity(),
        }
    }
}

impl<S: TupleSummaryValue> CompactTupleSketch<S> {
    /// The image in the DataSketches format, which libraries that spell summaries likewise read too.
    ///
    /// ```
    /// use kaftanclay::tuple::{CompactTupleSketch, DefaultUpdatePolicy, TupleSketchBuilder};
    ///
    /// let mut visits = TupleSketchBuilder::new(DefaultUpdatePolicy::<u64>::default()).build().unwrap();
    /// visits.update("ann", 2);
    /// let image = visits.compact(true).serialize();
    /// let read = CompactTupleSketch::<u64>::deserialize(&image).unwrap();
    /// assert_eq!(read.iter().next().unwrap().summary(), &2);
    /// ```
    ///
    /// # Panics
    ///
    /// If memory is refused; [`try_serialize`](Self::try_serialize) returns that as an error.
    pub fn serialize(&self) -> Vec<u8> {
        must(self.try_serialize())
    }

    /// The image, or `OutOfMemory`.
    pub fn try_serialize(&self) -> Result<Vec<u8>, Error> {
        match &self.form {
            Form::Sums(kept) => kept.object.image(),
            Form::Own(OwnForm { keys, entries }) => {
                let room = entries.iter().map(|it| it.summary.serialize_size()).sum();
                image::written(keys, entries.iter().map(TupleEntry::parts), room, S::serialize_value)
            }
        }
    }

    /// The sketch whose image the bytes begin with, under the default seed.
    ///
    /// # Errors
    ///
    /// As those of [`deserialize_with_seed`](Self::deserialize_with_seed).
    pub fn deserialize(bytes: &[u8]) -> Result<Self, Error> {
        Self::deserialize_with_seed(bytes, DEFAULT_UPDATE_SEED)
    }

    /// The sketch whose image the bytes begin with, also from libraries that spell summaries likewise; bytes after it
    /// are ignored. The seed of an empty sketch isn't checked.
    ///
    /// # Errors
    ///
    /// `InvalidData` if the bytes begin with no sketch of this seed, repeated hashes and hashes that don't ascend
    /// though the image says so included, or if the hash of the seed is 0; `OutOfMemory`; those of
    /// [`TupleSummaryValue::deserialize_value`].
    pub fn deserialize_with_seed(bytes: &[u8], seed: u64) -> Result<Self, Error> {
        seed_hash(seed, ErrorKind::InvalidData)?;
        if border::is_same::<S, u64>() {
            return border::CompactSums::of_image(bytes, seed).map(Self::of_sums);
        }
        let read = |hash, rest: &mut SketchSlice<'_>| Ok(TupleEntry::of(hash, S::deserialize_value(rest)?));
        let (keys, entries) = image::read(bytes, seed, read)?;
        Ok(Self::of_keys(keys, entries))
    }
}
