//! Sketches of sums, least or greatest values that are the C library's, and the entries that are lent of them.

use super::TupleEntry;
use crate::border::{self, vector, Mode, Object, State, Summed, SumsKind};
use crate::error::Error;
use crate::settings::Checked;
use crate::watched::Watched;
use std::sync::OnceLock;

/// A sketch of sums that takes updates.
pub(super) struct SumsSketch {
    sketch: Watched<SumsKind>,
    settings: Checked,
    /// The entries, once somebody has asked for them since the last change.
    entries: OnceLock<Vec<TupleEntry<u64>>>,
}

impl SumsSketch {
    pub(super) fn new(settings: Checked, mode: Mode) -> Result<Self, Error> {
        let Checked { lg_k, factor, start, seed } = settings;
        let object = border::Sums::new(lg_k, seed, factor, start, mode).map_err(|error| settings.refusal(error))?;
        Ok(Self { sketch: Watched::of(object), settings, entries: OnceLock::new() })
    }

    pub(super) fn seed_hash(&self) -> u16 {
        self.settings.seed_hash()
    }

    pub(super) fn object(&self) -> &border::Sums {
        self.sketch.object()
    }

    pub(super) fn state(&self) -> State {
        self.sketch.state()
    }

    #[inline]
    pub(super) fn add_bytes(&mut self, bytes: &[u8], value: u64) -> Result<(), Error> {
        self.entries.take();
        self.sketch.change(|object| object.add_bytes(bytes, value))
    }

    #[inline]
    pub(super) fn add_hash(&mut self, hash: u64, value: u64) -> Result<(), Error> {
        let Self { sketch, entries, .. } = self;
        sketch.update_at(hash, |object| {
            entries.take();
            object.add_hash(hash, value)
        })
    }

    pub(super) fn trim(&mut self) -> Result<(), Error> {
        self.entries.take();
        self.sketch.trim()
    }

    pub(super) fn reset(&mut self) {
        self.entries.take();
        self.sketch.reset();
    }

    pub(super) fn entries(&self) -> Result<&[TupleEntry<u64>], Error> {
        lent(&self.entries, self.object())
    }
}

/// A compact sketch of sums.
pub(super) struct SumsForm {
    pub(super) object: border::CompactSums,
    entries: OnceLock<Vec<TupleEntry<u64>>>,
}

impl SumsForm {
    pub(super) fn of(object: border::CompactSums) -> Self {
        Self { object, entries: OnceLock::new() }
    }

    pub(super) fn entries(&self) -> Result<&[TupleEntry<u64>], Error> {
        lent(&self.entries, &self.object)
    }

    pub(super) fn copied(&self) -> usize {
        self.entries.get().map_or(0, Vec::capacity)
    }
}

/// The entries of an object, which are copied at the first call.
fn lent<'a, K: Summed>(
    kept: &'a OnceLock<Vec<TupleEntry<u64>>>,
    object: &Object<K>,
) -> Result<&'a [TupleEntry<u64>], Error> {
    if let Some(entries) = kept.get() {
        return Ok(entries);
    }
    let (hashes, sums) = object.entries()?;
    let mut entries = vector(hashes.len())?;
    entries.extend(hashes.into_iter().zip(sums).map(|(hash, sum)| TupleEntry::of(hash, sum)));
    Ok(kept.get_or_init(|| entries))
}
