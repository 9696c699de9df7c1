//! The sketch that takes updates, and its builder.

use super::own::{entries_at, OwnSketch};
use super::policy::{mode_of, DefaultUpdatePolicy, SummaryPolicy, SummaryUpdatePolicy};
use super::sums::SumsSketch;
use super::view::Viewed;
use super::{CompactTupleSketch, TupleEntry, TupleSketchView};
use crate::border::{self, State};
use crate::common::{NumStdDev, ResizeFactor};
use crate::error::{must, Error};
use crate::hash::Gathered;
use crate::settings::{setters, Checked, Settings, Start};
use std::fmt;
use std::hash::Hash;
use std::mem::size_of;

/// A tuple sketch that takes updates, with a policy `P` that makes its summaries.
///
/// ```
/// use kaftanclay::tuple::{SummaryPolicy, SummaryUpdatePolicy, TupleSketchBuilder};
///
/// struct Longest;
/// impl SummaryPolicy for Longest {
///     type Summary = String;
///     fn create(&self) -> String {
///         String::new()
///     }
/// }
/// impl SummaryUpdatePolicy<&str> for Longest {
///     fn update(&self, summary: &mut String, value: &str) {
///         if value.len() > summary.len() {
///             *summary = value.to_string();
///         }
///     }
/// }
///
/// let mut words = TupleSketchBuilder::new(Longest).build().unwrap();
/// words.update("ann", "yes");
/// words.update("ann", "perhaps");
/// assert_eq!(words.iter().next().unwrap().summary(), "perhaps");
/// ```
pub struct TupleSketch<P: SummaryPolicy> {
    store: Store<P::Summary>,
    settings: Checked,
    policy: P,
}

enum Store<S> {
    /// The C library's; then the policy has a mode, and S is u64.
    Sums(SumsSketch),
    Own(OwnSketch<S>),
}

impl<P: SummaryPolicy> fmt::Debug for TupleSketch<P> {
    fn fmt(&self, f: &mut fmt::Formatter<'_>) -> fmt::Result {
        f.debug_struct("TupleSketch")
            .field("lg_k", &self.settings.lg_k)
            .field("state", &self.state())
            .finish_non_exhaustive()
    }
}

impl<P: SummaryPolicy> TupleSketch<P> {
    pub(super) fn viewed(&self) -> Viewed<'_, P::Summary> {
        match &self.store {
            Store::Sums(sketch) => Viewed::Sums(sketch),
            Store::Own(sketch) => Viewed::Own(sketch),
        }
    }

    fn state(&self) -> State {
        self.as_view().state()
    }

    /// A view of the sketch, for unions, intersections and differences.
    pub fn as_view(&self) -> TupleSketchView<'_, P::Summary> {
        self.into()
    }

    /// Updates the summary of a key by a value. A new key's summary is made first. If the key's hash isn't below theta,
    /// the policy isn't called.
    ///
    /// # Panics
    ///
    /// If memory is refused, or a sum of the C library would be 2^64 or more, where `datasketches` wraps around or
    /// panics; [`try_update`](Self::try_update) returns that as an error.
    #[inline]
    pub fn update<U>(&mut self, key: impl Hash, value: U)
    where
        P: SummaryUpdatePolicy<U>,
    {
        must(self.try_update(key, value));
    }

    /// Updates the sketch as [`update`](Self::update) does.
    ///
    /// # Errors
    ///
    /// `OutOfMemory`, only for a new hash below theta; `Policy` if a sum of the C library would be 2^64 or more. The
    /// sketch is unchanged then.
    #[inline]
    pub fn try_update<U>(&mut self, key: impl Hash, value: U) -> Result<(), Error>
    where
        P: SummaryUpdatePolicy<U>,
    {
        let key = Gathered::of(key);
        if let (Store::Sums(sketch), Some(number)) = (&mut self.store, P::number(&value)) {
            return sketch.add_bytes(key.bytes(), number);
        }
        self.update_own(border::hash_of_bytes(self.settings.seed, key.bytes()), value)
    }

    /// Updates the summary of a hash of 63 bits of your own, as [`update`](Self::update) does that of a key. A hash that
    /// is 0 or at least theta isn't retained, but the sketch is nonempty afterwards. `datasketches` has no such call.
    ///
    /// # Panics
    ///
    /// As [`update`](Self::update); [`try_update_hash`](Self::try_update_hash) returns that as an error.
    #[inline]
    pub fn update_hash<U>(&mut self, hash: u64, value: U)
    where
        P: SummaryUpdatePolicy<U>,
    {
        must(self.try_update_hash(hash, value));
    }

    /// Updates the sketch as [`update_hash`](Self::update_hash) does.
    ///
    /// # Errors
    ///
    /// As those of [`try_update`](Self::try_update).
    #[inline]
    pub fn try_update_hash<U>(&mut self, hash: u64, value: U) -> Result<(), Error>
    where
        P: SummaryUpdatePolicy<U>,
    {
        if let (Store::Sums(sketch), Some(number)) = (&mut self.store, P::number(&value)) {
            return sketch.add_hash(hash, number);
        }
        self.update_own(hash, value)
    }

    /// Updates a summary in the map.
    fn update_own<U>(&mut self, hash: u64, value: U) -> Result<(), Error>
    where
        P: SummaryUpdatePolicy<U>,
    {
        if matches!(self.store, Store::Sums(_)) {
            self.leave_sums()?;
        }
        match &mut self.store {
            Store::Own(sketch) => sketch.update(&self.policy, hash, value),
            Store::Sums(_) => unreachable!("the sketch has left the sums"),
        }
    }

    /// Goes on with a map, since a value isn't a number of the C library.
    #[cold]
    fn leave_sums(&mut self) -> Result<(), Error> {
        if let Store::Sums(sketch) = &self.store {
            let copies = sketch.entries()?.iter().map(|it| {
                let sum = border::number_as(*it.summary()).expect("the C library has sums of u64 alone");
                TupleEntry::of(it.hash(), sum)
            });
            self.store = Store::Own(OwnSketch::of_entries(self.settings, sketch.state(), copies)?);
        }
        Ok(())
    }

    /// The estimate of how many different keys there were: retained / theta, 0 if the sketch is empty.
    pub fn estimate(&self) -> f64 {
        self.state().estimate()
    }

    /// Theta as a fraction, above 0 and at most 1.
    pub fn theta(&self) -> f64 {
        self.state().fraction()
    }

    /// Theta, from 1 to 2^63 - 1. An empty sketch has 2^63 - 1, also if it begins at another theta.
    pub fn theta64(&self) -> u64 {
        self.state().theta
    }

    /// The hash of the seed, of 16 bits.
    pub fn seed_hash(&self) -> u16 {
        self.settings.seed_hash()
    }

    /// Whether there was no update since the sketch was new or reset.
    pub fn is_empty(&self) -> bool {
        self.state().is_empty()
    }

    /// Whether the sketch is nonempty and its theta is below 2^63 - 1, so that it estimates.
    pub fn is_estimation_mode(&self) -> bool {
        self.state().is_estimation_mode()
    }

    /// How many entries the sketch retains.
    pub fn num_retained(&self) -> usize {
        self.state().retained as usize
    }

    /// The binary logarithm of the nominal entries.
    pub fn lg_k(&self) -> u8 {
        self.settings.lg_k
    }

    /// If the sketch retains more than its k nominal entries, lowers theta to the (k+1)th smallest hash and keeps the
    /// k entries below it.
    ///
    /// # Panics
    ///
    /// If memory is refused; [`try_trim`](Self::try_trim) returns that as an error.
    pub fn trim(&mut self) {
        must(self.try_trim());
    }

    /// Trims the sketch as [`trim`](Self::trim) does.
    ///
    /// # Errors
    ///
    /// `OutOfMemory`; the sketch is unchanged then.
    pub fn try_trim(&mut self) -> Result<(), Error> {
        match &mut self.store {
            Store::Sums(sketch) => sketch.trim(),
            Store::Own(sketch) => sketch.trim(),
        }
    }

    /// Makes the sketch empty again, as when it was new.
    pub fn reset(&mut self) {
        match &mut self.store {
            Store::Sums(sketch) => sketch.reset(),
            Store::Own(sketch) => sketch.reset(),
        }
    }

    /// The retained entries, in no order that is promised. Those of sums are copied at the first call after a change,
    /// and the sketch keeps the copy.
    ///
    /// # Panics
    ///
    /// If memory is refused, which only sums need; [`try_iter`](Self::try_iter) returns that as an error.
    pub fn iter(&self) -> impl Iterator<Item = &TupleEntry<P::Summary>> + '_ {
        must(self.as_view().entries())
    }

    /// The retained entries, or `OutOfMemory`.
    pub fn try_iter(&self) -> Result<impl Iterator<Item = &TupleEntry<P::Summary>> + '_, Error> {
        self.as_view().entries()
    }

    /// A lower bound of how many different keys there were, a whole number (`datasketches` has another interval).
    pub fn lower_bound(&self, num_std_dev: NumStdDev) -> f64 {
        self.state().lower_bound(num_std_dev)
    }

    /// An upper bound of how many different keys there were, a whole number.
    pub fn upper_bound(&self, num_std_dev: NumStdDev) -> f64 {
        self.state().upper_bound(num_std_dev)
    }

    /// About how many bytes of memory the sketch has, without what summaries point to.
    pub fn estimated_size(&self) -> usize {
        size_of::<P>()
            + match &self.store {
                Store::Sums(sketch) => sketch.object().estimated_size(),
                Store::Own(sketch) => sketch.estimated_size(),
            }
    }
}

impl<P: SummaryPolicy> TupleSketch<P>
where
    P::Summary: Clone,
{
    /// The compact form, of the same entries and theta. If it is `ordered`, its hashes ascend; else they are in any
    /// order, which is faster. An empty one, or one of one entry whose theta is 2^63 - 1, is ordered anyway.
    ///
    /// # Panics
    ///
    /// If memory is refused; [`try_compact`](Self::try_compact) returns that as an error.
    pub fn compact(&self, ordered: bool) -> CompactTupleSketch<P::Summary> {
        must(self.try_compact(ordered))
    }

    /// The compact form, or `OutOfMemory`.
    pub fn try_compact(&self, ordered: bool) -> Result<CompactTupleSketch<P::Summary>, Error> {
        match &self.store {
            Store::Sums(sketch) => sketch.object().compact(ordered).map(CompactTupleSketch::of_sums),
            Store::Own(sketch) => {
                let keys = sketch.keys().compact(ordered)?;
                let entries = entries_at(sketch.map(), &keys.hashes()?)?;
                Ok(CompactTupleSketch::of_keys(keys, entries))
            }
        }
    }
}

/// Builds a [`TupleSketch`]. Settings are checked by [`build`](Self::build).
#[derive(Debug)]
pub struct TupleSketchBuilder<P: SummaryPolicy> {
    settings: Settings,
    policy: P,
}

impl<P: SummaryPolicy> TupleSketchBuilder<P> {
    /// A builder of sketches with this policy.
    pub fn new(policy: P) -> Self {
        Self { settings: Settings::default(), policy }
    }

    setters!();

    /// Builds the sketch.
    ///
    /// # Errors
    ///
    /// `InvalidArgument` if a setting is out of range or the hash of the seed is 0; `OutOfMemory`.
    pub fn build(self) -> Result<TupleSketch<P>, Error> {
        let settings = self.settings.checked()?;
        let store = match mode_of::<P, DefaultUpdatePolicy<u64>>() {
            Some(mode) => Store::Sums(SumsSketch::new(settings, mode)?),
            None => Store::Own(OwnSketch::new(settings)?),
        };
        Ok(TupleSketch { store, settings, policy: self.policy })
    }
}
