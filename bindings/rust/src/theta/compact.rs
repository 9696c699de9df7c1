//! The compact sketch.

use super::{ThetaEntry, ThetaSketchView};
use crate::border::{self, State};
use crate::common::NumStdDev;
use crate::error::{must, Error, ErrorKind};
use crate::hash::{seed_hash, DEFAULT_UPDATE_SEED};
use std::fmt;
use std::mem::size_of;
use std::sync::{Arc, OnceLock};

/// A theta sketch that never changes, and has an image. A clone shares the hashes with it.
#[derive(Clone)]
pub struct CompactThetaSketch {
    kept: Arc<Kept>,
}

struct Kept {
    object: border::Compact,
    state: State,
    /// The entries, once somebody has asked for them.
    entries: OnceLock<Vec<ThetaEntry>>,
}

impl fmt::Debug for CompactThetaSketch {
    fn fmt(&self, f: &mut fmt::Formatter<'_>) -> fmt::Result {
        f.debug_struct("CompactThetaSketch")
            .field("state", &self.kept.state)
            .field("ordered", &self.is_ordered())
            .finish()
    }
}

impl CompactThetaSketch {
    pub(super) fn of(object: border::Compact) -> Self {
        let state = object.state();
        Self { kept: Arc::new(Kept { object, state, entries: OnceLock::new() }) }
    }

    pub(super) fn object(&self) -> &border::Compact {
        &self.kept.object
    }

    /// A view of the sketch, for unions, intersections and differences.
    pub fn as_view(&self) -> ThetaSketchView<'_> {
        self.into()
    }

    /// The estimate of how many different values there were: retained / theta, 0 if the sketch is empty.
    pub fn estimate(&self) -> f64 {
        self.kept.state.estimate()
    }

    /// Theta as a fraction, above 0 and at most 1.
    pub fn theta(&self) -> f64 {
        self.kept.state.fraction()
    }

    /// Theta, from 1 to 2^63 - 1, which is that of an empty sketch.
    pub fn theta64(&self) -> u64 {
        self.kept.state.theta
    }

    /// Whether the sketch is empty.
    pub fn is_empty(&self) -> bool {
        self.kept.state.is_empty()
    }

    /// Whether the sketch is nonempty and its theta is below 2^63 - 1, so that it estimates.
    pub fn is_estimation_mode(&self) -> bool {
        self.kept.state.is_estimation_mode()
    }

    /// How many hashes the sketch retains.
    pub fn num_retained(&self) -> usize {
        self.kept.state.retained as usize
    }

    /// Whether the sketch promises that its hashes ascend.
    pub fn is_ordered(&self) -> bool {
        self.kept.object.is_ordered()
    }

    /// The hash of the seed, of 16 bits.
    pub fn seed_hash(&self) -> u16 {
        self.kept.object.seed_hash()
    }

    /// The retained entries, in the order of the image. The hashes are copied at the first call, and the sketch keeps
    /// the copy, 8 bytes for each.
    ///
    /// # Panics
    ///
    /// If memory is refused; [`try_iter`](Self::try_iter) returns that as an error.
    pub fn iter(&self) -> impl Iterator<Item = ThetaEntry> + '_ {
        must(self.try_iter())
    }

    /// The retained entries, or `OutOfMemory`.
    pub fn try_iter(&self) -> Result<impl Iterator<Item = ThetaEntry> + '_, Error> {
        Ok(self.entries()?.iter().copied())
    }

    fn entries(&self) -> Result<&[ThetaEntry], Error> {
        if let Some(entries) = self.kept.entries.get() {
            return Ok(entries);
        }
        // The hashes become entries where they are.
        let entries = self.kept.object.hashes()?.into_iter().map(ThetaEntry::of).collect();
        Ok(self.kept.entries.get_or_init(|| entries))
    }

    /// A lower bound of how many different values there were, a whole number (`datasketches` has another interval).
    pub fn lower_bound(&self, num_std_dev: NumStdDev) -> f64 {
        self.kept.state.lower_bound(num_std_dev)
    }

    /// An upper bound of how many different values there were, a whole number.
    pub fn upper_bound(&self, num_std_dev: NumStdDev) -> f64 {
        self.kept.state.upper_bound(num_std_dev)
    }

    /// The image in the DataSketches format, version 3, which other libraries read too.
    ///
    /// # Panics
    ///
    /// If memory is refused; [`try_serialize`](Self::try_serialize) returns that as an error.
    pub fn serialize(&self) -> Vec<u8> {
        must(self.try_serialize())
    }

    /// The image, or `OutOfMemory`.
    pub fn try_serialize(&self) -> Result<Vec<u8>, Error> {
        self.kept.object.image()
    }

    /// The sketch whose image the bytes begin with, under the default seed.
    ///
    /// # Errors
    ///
    /// As those of [`deserialize_with_seed`](Self::deserialize_with_seed).
    pub fn deserialize(bytes: &[u8]) -> Result<Self, Error> {
        Self::deserialize_with_seed(bytes, DEFAULT_UPDATE_SEED)
    }

    /// The sketch whose image the bytes begin with, of serial version 1, 2 or 3, also from other libraries; bytes
    /// after it are ignored. The seed of an empty sketch isn't checked.
    ///
    /// # Errors
    ///
    /// `InvalidData` if the bytes begin with no sketch of this seed, repeated hashes and hashes that don't ascend
    /// though the image says so included, or if the hash of the seed is 0; `OutOfMemory`.
    pub fn deserialize_with_seed(bytes: &[u8], seed: u64) -> Result<Self, Error> {
        seed_hash(seed, ErrorKind::InvalidData)?;
        border::Compact::of_image(bytes, seed).map(Self::of)
    }

    /// How many bytes of memory the hashes have.
    pub fn estimated_size(&self) -> usize {
        let copied = self.kept.entries.get().map_or(0, Vec::capacity);
        self.kept.object.estimated_size() + size_of::<ThetaEntry>() * copied
    }
}
