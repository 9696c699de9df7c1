//! The intersection.

use super::own::{entries_at, size_of_map, Map};
use super::policy::{mode_of, DefaultUnionPolicy, SummaryCombinePolicy};
use super::view::Viewed;
use super::{CompactTupleSketch, TupleSketchView};
use crate::border;
use crate::error::{must, Error, ErrorKind};
use crate::hash::{seed_hash, DEFAULT_UPDATE_SEED};
use std::fmt;
use std::mem::size_of;

/// An intersection of tuple sketches: the keys that all of them have below their least theta, and beside each the
/// summaries of all sketches, combined by the policy in the order of the sketches. Before its first sketch it has no
/// value.
///
/// ```
/// use kaftanclay::tuple::{DefaultUpdatePolicy, MinPolicy, TupleIntersection, TupleSketchBuilder};
///
/// let mut monday = TupleSketchBuilder::new(DefaultUpdatePolicy::<u64>::default()).build().unwrap();
/// let mut tuesday = TupleSketchBuilder::new(DefaultUpdatePolicy::<u64>::default()).build().unwrap();
/// monday.update("ann", 2);
/// monday.update("bob", 9);
/// tuesday.update("ann", 3);
/// let mut both = TupleIntersection::new(MinPolicy);
/// both.update(&monday).unwrap();
/// both.update(&tuesday).unwrap();
/// let both = both.to_sketch(true).unwrap();
/// assert_eq!(both.iter().map(|it| *it.summary()).collect::<Vec<_>>(), [2]);
/// ```
pub struct TupleIntersection<P: SummaryCombinePolicy> {
    store: Store<P::Summary>,
    seed: u64,
    seed_hash: u16,
    begun: bool,
    policy: P,
}

enum Store<S> {
    /// The C library's; then the policy has a mode, and S is u64.
    Sums(border::SumsIntersection),
    Own {
        keys: border::Intersection,
        /// The summaries of all hashes that the intersection of the keys retains, and perhaps of others.
        map: Map<S>,
    },
}

impl<P: SummaryCombinePolicy> fmt::Debug for TupleIntersection<P> {
    fn fmt(&self, f: &mut fmt::Formatter<'_>) -> fmt::Result {
        f.debug_struct("TupleIntersection").field("has_result", &self.begun).finish_non_exhaustive()
    }
}

impl<P: SummaryCombinePolicy> TupleIntersection<P> {
    /// An intersection under the default seed. It panics if memory is refused, which
    /// [`with_seed`](Self::with_seed) returns as an error.
    pub fn new(policy: P) -> Self {
        must(Self::with_seed(policy, DEFAULT_UPDATE_SEED))
    }

    /// An intersection of sketches of this seed.
    ///
    /// # Errors
    ///
    /// `InvalidArgument` if the hash of the seed is 0; `OutOfMemory`.
    pub fn with_seed(policy: P, seed: u64) -> Result<Self, Error> {
        let seed_hash = seed_hash(seed, ErrorKind::InvalidArgument)?;
        let store = match mode_of::<P, DefaultUnionPolicy<u64>>() {
            Some(mode) => Store::Sums(border::SumsIntersection::by_mode(seed, mode)?),
            None => Store::Own { keys: border::Intersection::intersection(seed)?, map: Map::default() },
        };
        Ok(Self { store, seed, seed_hash, begun: false, policy })
    }

    /// Intersects with a sketch.
    ///
    /// # Errors
    ///
    /// `InvalidArgument` for a nonempty sketch of another seed, unless the intersection is empty already; `Policy` if
    /// a sum of the C library would be 2^64 or more; `OutOfMemory`. The intersection is unchanged then.
    pub fn update<'a>(&mut self, sketch: impl Into<TupleSketchView<'a, P::Summary>>) -> Result<(), Error>
    where
        P::Summary: Clone + 'a,
    {
        let view = sketch.into();
        if view.is_foreign(self.seed_hash) {
            // An empty intersection stays empty, whatever comes.
            return if self.is_empty()? { Ok(()) } else { view.check_seed(self.seed_hash) };
        }
        match &mut self.store {
            Store::Sums(object) => match view.0 {
                Viewed::Sums(sketch) => object.add(sketch.object())?,
                _ => object.add_form(&*view.sums(self.seed)?)?,
            },
            Store::Own { keys, map } => {
                // The summaries first: if the policy panics or memory is refused, nothing has changed.
                let next = met(&self.policy, if self.begun { Some(&*map) } else { None }, view)?;
                match view.0 {
                    Viewed::Own(sketch) => keys.add(sketch.keys())?,
                    _ => keys.add_form(&*view.keys(self.seed)?)?,
                }
                *map = next;
            }
        }
        self.begun = true;
        Ok(())
    }

    /// Whether the intersection has a value, which is empty.
    fn is_empty(&self) -> Result<bool, Error> {
        if !self.begun {
            return Ok(false);
        }
        Ok(match &self.store {
            Store::Sums(object) => object.result(false)?.state().is_empty(),
            Store::Own { keys, .. } => keys.result(false)?.state().is_empty(),
        })
    }

    /// Whether there was a sketch.
    pub fn has_result(&self) -> bool {
        self.begun
    }

    /// How many bytes of memory the hashes and summaries have, without what these point to.
    pub fn estimated_size(&self) -> usize {
        size_of::<P>()
            + match &self.store {
                Store::Sums(object) => object.estimated_size(),
                Store::Own { keys, map } => keys.estimated_size() + size_of_map(map),
            }
    }

    /// The intersection as a compact sketch, or `None` before the first sketch; `ordered` as in
    /// [`TupleSketch::compact`](super::TupleSketch::compact).
    ///
    /// # Panics
    ///
    /// If memory is refused; [`try_to_sketch`](Self::try_to_sketch) returns that as an error.
    pub fn to_sketch(&self, ordered: bool) -> Option<CompactTupleSketch<P::Summary>>
    where
        P::Summary: Clone,
    {
        must(self.try_to_sketch(ordered))
    }

    /// The intersection, or `OutOfMemory`.
    pub fn try_to_sketch(&self, ordered: bool) -> Result<Option<CompactTupleSketch<P::Summary>>, Error>
    where
        P::Summary: Clone,
    {
        if !self.begun {
            return Ok(None);
        }
        Ok(Some(match &self.store {
            Store::Sums(object) => CompactTupleSketch::of_sums(object.result(ordered)?),
            Store::Own { keys, map } => {
                let keys = keys.result(ordered)?;
                let entries = entries_at(map, &keys.hashes()?)?;
                CompactTupleSketch::of_keys(keys, entries)
            }
        }))
    }
}

/// The summaries of the keys that a sketch shares with those before, or of all of its keys if it is the first.
fn met<P>(
    policy: &P,
    before: Option<&Map<P::Summary>>,
    view: TupleSketchView<'_, P::Summary>,
) -> Result<Map<P::Summary>, Error>
where
    P: SummaryCombinePolicy,
    P::Summary: Clone,
{
    let mut next = Map::default();
    let most = before.map_or(usize::MAX, Map::len).min(view.num_retained());
    next.try_reserve(most).map_err(|_| Error::out_of_memory())?;
    for entry in view.entries()? {
        let kept = match before {
            None => entry.clone(),
            Some(map) => match map.get(&entry.hash()) {
                None => continue,
                Some(kept) => {
                    let mut kept = kept.clone();
                    policy.combine(&mut kept.summary, entry.summary());
                    kept
                }
            },
        };
        next.insert(entry.hash(), kept);
    }
    Ok(next)
}
