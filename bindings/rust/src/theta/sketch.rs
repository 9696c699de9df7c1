//! The sketch that takes updates, and its builder.

use super::{CompactThetaSketch, ThetaEntry, ThetaSketchView};
use crate::border;
use crate::common::{NumStdDev, ResizeFactor};
use crate::error::{must, Error};
use crate::hash::Gathered;
use crate::settings::{setters, Checked, Settings, Start};
use crate::watched::Watched;
use std::fmt;
use std::hash::Hash;

/// A theta sketch that takes updates.
pub struct ThetaSketch {
    sketch: Watched<border::ThetaKind>,
    settings: Checked,
}

impl fmt::Debug for ThetaSketch {
    fn fmt(&self, f: &mut fmt::Formatter<'_>) -> fmt::Result {
        f.debug_struct("ThetaSketch").field("lg_k", &self.settings.lg_k).field("state", &self.sketch.state()).finish()
    }
}

impl ThetaSketch {
    pub(super) fn object(&self) -> &border::Theta {
        self.sketch.object()
    }

    /// A view of the sketch, for unions, intersections and differences.
    pub fn as_view(&self) -> ThetaSketchView<'_> {
        self.into()
    }

    /// Updates the sketch with a value, by the hash of the bytes that `Hash` writes for it.
    /// [`raw_bytes`](crate::hash::value::raw_bytes) has the bytes of a text alone.
    ///
    /// ```
    /// use kaftanclay::hash::value::raw_bytes;
    ///
    /// let mut sketch = kaftanclay::theta::ThetaSketchBuilder::default().build().unwrap();
    /// sketch.update("ann");
    /// sketch.update("ann");
    /// sketch.update(7_u32);
    /// sketch.update(raw_bytes::from_str("ann"));
    /// assert_eq!(sketch.estimate(), 3.0);
    /// ```
    ///
    /// # Panics
    ///
    /// If memory is refused; [`try_update`](Self::try_update) returns that as an error.
    #[inline]
    pub fn update<T: Hash>(&mut self, value: T) {
        must(self.try_update(value));
    }

    /// Updates the sketch as [`update`](Self::update) does.
    ///
    /// # Errors
    ///
    /// `OutOfMemory`, only for a new hash below theta; the sketch is unchanged then.
    #[inline]
    pub fn try_update<T: Hash>(&mut self, value: T) -> Result<(), Error> {
        let value = Gathered::of(value);
        self.sketch.change(|object| object.update_bytes(value.bytes()))
    }

    /// Updates the sketch with a hash of 63 bits of your own. One that is 0 or at least theta isn't retained, but the
    /// sketch is nonempty afterwards. `datasketches` has no such call.
    ///
    /// # Panics
    ///
    /// If memory is refused; [`try_update_hash`](Self::try_update_hash) returns that as an error.
    #[inline]
    pub fn update_hash(&mut self, hash: u64) {
        must(self.try_update_hash(hash));
    }

    /// Updates the sketch as [`update_hash`](Self::update_hash) does.
    ///
    /// # Errors
    ///
    /// As those of [`try_update`](Self::try_update).
    #[inline]
    pub fn try_update_hash(&mut self, hash: u64) -> Result<(), Error> {
        self.sketch.update_at(hash, |object| object.update_hash(hash))
    }

    /// The estimate of how many different values there were: retained / theta, 0 if the sketch is empty.
    pub fn estimate(&self) -> f64 {
        self.sketch.state().estimate()
    }

    /// Theta as a fraction, above 0 and at most 1.
    pub fn theta(&self) -> f64 {
        self.sketch.state().fraction()
    }

    /// Theta, from 1 to 2^63 - 1. An empty sketch has 2^63 - 1, also if it begins at another theta.
    pub fn theta64(&self) -> u64 {
        self.sketch.state().theta
    }

    /// The hash of the seed, of 16 bits.
    pub fn seed_hash(&self) -> u16 {
        self.settings.seed_hash()
    }

    /// Whether there was no update since the sketch was new or reset.
    pub fn is_empty(&self) -> bool {
        self.sketch.state().is_empty()
    }

    /// Whether the sketch is nonempty and its theta is below 2^63 - 1, so that it estimates.
    pub fn is_estimation_mode(&self) -> bool {
        self.sketch.state().is_estimation_mode()
    }

    /// How many hashes the sketch retains.
    pub fn num_retained(&self) -> usize {
        self.sketch.state().retained as usize
    }

    /// The binary logarithm of the nominal entries.
    pub fn lg_k(&self) -> u8 {
        self.settings.lg_k
    }

    /// If the sketch retains more than its k nominal entries, lowers theta to the (k+1)th smallest hash and keeps the
    /// k hashes below it.
    ///
    /// # Panics
    ///
    /// If memory is refused; [`try_trim`](Self::try_trim) returns that as an error.
    pub fn trim(&mut self) {
        must(self.try_trim());
    }

    /// Trims the sketch as [`trim`](Self::trim) does.
    ///
    /// # Errors
    ///
    /// `OutOfMemory`; the sketch is unchanged then.
    pub fn try_trim(&mut self) -> Result<(), Error> {
        self.sketch.trim()
    }

    /// Makes the sketch empty again, as when it was new.
    pub fn reset(&mut self) {
        self.sketch.reset();
    }

    /// The retained entries, in no order that is promised. Each call copies the hashes once.
    ///
    /// # Panics
    ///
    /// If memory is refused; [`try_iter`](Self::try_iter) returns that as an error.
    pub fn iter(&self) -> impl Iterator<Item = ThetaEntry> + '_ {
        must(self.try_iter())
    }

    /// The retained entries, or `OutOfMemory`.
    pub fn try_iter(&self) -> Result<impl Iterator<Item = ThetaEntry> + '_, Error> {
        Ok(self.object().hashes()?.into_iter().map(ThetaEntry::of))
    }

    /// The compact form, of the same hashes and theta. If it is `ordered`, its hashes ascend; else they are in any
    /// order, which is faster. An empty one, or one of one hash whose theta is 2^63 - 1, is ordered anyway.
    ///
    /// # Panics
    ///
    /// If memory is refused; [`try_compact`](Self::try_compact) returns that as an error.
    pub fn compact(&self, ordered: bool) -> CompactThetaSketch {
        must(self.try_compact(ordered))
    }

    /// The compact form, or `OutOfMemory`.
    pub fn try_compact(&self, ordered: bool) -> Result<CompactThetaSketch, Error> {
        self.object().compact(ordered).map(CompactThetaSketch::of)
    }

    /// A lower bound of how many different values there were, a whole number (`datasketches` has another interval).
    pub fn lower_bound(&self, num_std_dev: NumStdDev) -> f64 {
        self.sketch.state().lower_bound(num_std_dev)
    }

    /// An upper bound of how many different values there were, a whole number.
    pub fn upper_bound(&self, num_std_dev: NumStdDev) -> f64 {
        self.sketch.state().upper_bound(num_std_dev)
    }

    /// How many bytes of memory the slots have.
    pub fn estimated_size(&self) -> usize {
        self.object().estimated_size()
    }
}

/// Builds a [`ThetaSketch`]. Settings are checked by [`build`](Self::build).
#[derive(Debug, Default)]
pub struct ThetaSketchBuilder {
    settings: Settings,
}

impl ThetaSketchBuilder {
    setters!();

    /// Builds the sketch.
    ///
    /// ```
    /// use kaftanclay::theta::ThetaSketchBuilder;
    ///
    /// let sketch = ThetaSketchBuilder::default().lg_k(10).seed(7).sampling_probability(0.5).build().unwrap();
    /// assert_eq!(sketch.lg_k(), 10);
    /// assert!(ThetaSketchBuilder::default().lg_k(3).build().is_err());
    /// ```
    ///
    /// # Errors
    ///
    /// `InvalidArgument` if a setting is out of range or the hash of the seed is 0; `OutOfMemory`.
    #[inline]
    pub fn build(self) -> Result<ThetaSketch, Error> {
        let settings = self.settings.checked()?;
        let object = border::Theta::new(settings.lg_k, settings.seed, settings.factor, settings.start)
            .map_err(|error| settings.refusal(error))?;
        Ok(ThetaSketch { sketch: Watched::of(object), settings })
    }
}
