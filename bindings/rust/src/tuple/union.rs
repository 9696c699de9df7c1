//! The union, and its builder.

use super::own::{entries_at, size_of_map, Map};
use super::policy::{mode_of, DefaultUnionPolicy, SummaryCombinePolicy};
use super::view::Viewed;
use super::{CompactTupleSketch, TupleSketchView};
use crate::border;
use crate::common::ResizeFactor;
use crate::error::{must, Error, ErrorKind};
use crate::settings::{setters, Checked, Settings, Start};
use std::collections::hash_map::Entry;
use std::fmt;
use std::mem::size_of;

/// A union of tuple sketches: the keys of all of them below their least theta, at most k of them, and beside each the
/// summaries of all sketches, combined by the policy in the order of the sketches.
///
/// ```
/// use kaftanclay::tuple::{DefaultUnionPolicy, DefaultUpdatePolicy, TupleSketchBuilder, TupleUnionBuilder};
///
/// let mut monday = TupleSketchBuilder::new(DefaultUpdatePolicy::<u64>::default()).build().unwrap();
/// let mut tuesday = TupleSketchBuilder::new(DefaultUpdatePolicy::<u64>::default()).build().unwrap();
/// monday.update("ann", 2);
/// tuesday.update("ann", 3);
/// let mut both = TupleUnionBuilder::new(DefaultUnionPolicy::<u64>::default()).build().unwrap();
/// both.update(&monday).unwrap();
/// both.update(&tuesday).unwrap();
/// assert_eq!(both.to_sketch(true).iter().next().unwrap().summary(), &5);
/// ```
pub struct TupleUnion<P: SummaryCombinePolicy> {
    store: Store<P::Summary>,
    settings: Checked,
    policy: P,
}

enum Store<S> {
    /// The C library's; then the policy has a mode, and S is u64.
    Sums(border::SumsUnion),
    Own(OwnUnion<S>),
}

struct OwnUnion<S> {
    keys: border::Union,
    /// The summaries of all hashes that the union of the keys retains, and perhaps of others that were below `bound`.
    map: Map<S>,
    /// At least the theta of the union of the keys.
    bound: u64,
    /// Whether the map has all of them: not if a policy stopped in the middle of an update.
    whole: bool,
}

impl<P: SummaryCombinePolicy> fmt::Debug for TupleUnion<P> {
    fn fmt(&self, f: &mut fmt::Formatter<'_>) -> fmt::Result {
        f.debug_struct("TupleUnion").field("lg_k", &self.settings.lg_k).finish_non_exhaustive()
    }
}

impl<P: SummaryCombinePolicy> TupleUnion<P> {
    /// Merges a sketch. An empty one changes nothing.
    ///
    /// # Errors
    ///
    /// `InvalidArgument` for a nonempty sketch of another seed; the union is unchanged then. `OutOfMemory`, and
    /// `Policy` if a sum of the C library would be 2^64 or more; then the union has failed, and returns `Failed` until
    /// it is reset. So it does after a policy of your own has panicked.
    pub fn update<'a>(&mut self, sketch: impl Into<TupleSketchView<'a, P::Summary>>) -> Result<(), Error>
    where
        P::Summary: Clone + 'a,
    {
        let view = sketch.into();
        view.check_seed(self.settings.seed_hash())?;
        match &mut self.store {
            Store::Sums(object) => match view.0 {
                Viewed::Sums(sketch) => object.add(sketch.object())?,
                _ => object.add_form(&*view.sums(self.settings.seed)?)?,
            },
            Store::Own(union) => union.update(&self.policy, &self.settings, view)?,
        }
        Ok(())
    }

    /// The union's value as a compact sketch; `ordered` as in [`TupleSketch::compact`](super::TupleSketch::compact).
    ///
    /// # Panics
    ///
    /// If memory is refused or the union has failed; [`try_to_sketch`](Self::try_to_sketch) returns that as an error.
    pub fn to_sketch(&self, ordered: bool) -> CompactTupleSketch<P::Summary>
    where
        P::Summary: Clone,
    {
        must(self.try_to_sketch(ordered))
    }

    /// The union's value.
    ///
    /// # Errors
    ///
    /// `Failed` if the union has failed; `OutOfMemory`.
    pub fn try_to_sketch(&self, ordered: bool) -> Result<CompactTupleSketch<P::Summary>, Error>
    where
        P::Summary: Clone,
    {
        match &self.store {
            Store::Sums(object) => object.result(ordered).map(CompactTupleSketch::of_sums),
            Store::Own(union) => {
                union.check_whole()?;
                let keys = union.keys.result(ordered)?;
                let entries = entries_at(&union.map, &keys.hashes()?)?;
                Ok(CompactTupleSketch::of_keys(keys, entries))
            }
        }
    }

    /// Makes the union empty again, as when it was new, and ends a failure.
    pub fn reset(&mut self) {
        match &mut self.store {
            Store::Sums(object) => object.reset_union(),
            Store::Own(union) => {
                union.keys.reset_union();
                union.map.clear();
                union.bound = self.settings.start;
                union.whole = true;
            }
        }
    }

    /// How many bytes of memory the slots and the summaries have, without what these point to.
    pub fn estimated_size(&self) -> usize {
        size_of::<P>()
            + match &self.store {
                Store::Sums(object) => object.estimated_size(),
                Store::Own(union) => union.keys.estimated_size() + size_of_map(&union.map),
            }
    }
}

impl<S: Clone> OwnUnion<S> {
    fn update<P>(&mut self, policy: &P, settings: &Checked, view: TupleSketchView<'_, S>) -> Result<(), Error>
    where
        P: SummaryCombinePolicy<Summary = S>,
    {
        self.check_whole()?;
        let state = view.state();
        let entries = view.entries()?;
        self.map.try_reserve(state.retained as usize).map_err(|_| Error::out_of_memory())?;
        match view.0 {
            Viewed::Own(sketch) => self.keys.add(sketch.keys())?,
            _ => self.keys.add_form(&*view.keys(settings.seed)?)?,
        }
        self.whole = false;
        self.bound = self.bound.min(state.theta);
        let ascending = view.is_ordered();
        for entry in entries {
            if entry.hash() >= self.bound {
                if ascending {
                    break;
                }
                continue;
            }
            match self.map.entry(entry.hash()) {
                Entry::Occupied(mut kept) => policy.combine(&mut kept.get_mut().summary, entry.summary()),
                Entry::Vacant(place) => {
                    place.insert(entry.clone());
                }
            }
        }
        self.whole = true;
        // The map may keep k hashes that the union has dropped, and no more.
        if self.map.len() > 2 << settings.lg_k {
            self.bound = self.bound.min(self.keys.result(false)?.state().theta);
            let bound = self.bound;
            self.map.retain(|hash, _| *hash < bound);
        }
        Ok(())
    }
}

impl<S> OwnUnion<S> {
    fn check_whole(&self) -> Result<(), Error> {
        if self.whole {
            Ok(())
        } else {
            Err(Error::new(ErrorKind::Failed, "a policy panicked in an earlier update of the union: reset the union"))
        }
    }
}

/// Builds a [`TupleUnion`]. Settings are checked by [`build`](Self::build).
#[derive(Debug)]
pub struct TupleUnionBuilder<P: SummaryCombinePolicy> {
    settings: Settings,
    policy: P,
}

impl<P: SummaryCombinePolicy> TupleUnionBuilder<P> {
    /// A builder of unions with this policy.
    pub fn new(policy: P) -> Self {
        Self { settings: Settings::default(), policy }
    }

    setters!();

    /// Builds the union.
    ///
    /// # Errors
    ///
    /// `InvalidArgument` if a setting is out of range or the hash of the seed is 0; `OutOfMemory`.
    pub fn build(self) -> Result<TupleUnion<P>, Error> {
        let settings = self.settings.checked()?;
        let Checked { lg_k, factor, start, seed } = settings;
        let store = if let Some(mode) = mode_of::<P, DefaultUnionPolicy<u64>>() {
            let object = border::SumsUnion::by_mode(lg_k, seed, factor, start, mode);
            Store::Sums(object.map_err(|error| settings.refusal(error))?)
        } else {
            let keys = border::Union::union(lg_k, seed, factor, start).map_err(|error| settings.refusal(error))?;
            Store::Own(OwnUnion { keys, map: Map::default(), bound: start, whole: true })
        };
        Ok(TupleUnion { store, settings, policy: self.policy })
    }
}
