//! The difference.

use super::own::entries_at;
use super::view::Viewed;
use super::{CompactTupleSketch, TupleEntry, TupleSketchView};
use crate::border::vector;
use crate::error::{must, Error, ErrorKind};
use crate::hash::{seed_hash, DEFAULT_UPDATE_SEED};

/// Differences of tuple sketches: the entries of a whose keys b lacks, below the lesser theta. Their summaries are
/// those of a; those of b may be of another type.
///
/// ```
/// use kaftanclay::tuple::{DefaultUpdatePolicy, TupleANotB, TupleSketchBuilder};
///
/// let mut march = TupleSketchBuilder::new(DefaultUpdatePolicy::<u64>::default()).build().unwrap();
/// let mut april = TupleSketchBuilder::new(DefaultUpdatePolicy::<i32>::default()).build().unwrap();
/// march.update("ann", 2);
/// march.update("bob", 3);
/// april.update("bob", 4);
/// let gone = TupleANotB::default().compute(&march, &april, true).unwrap();
/// assert_eq!(gone.iter().map(|it| *it.summary()).collect::<Vec<_>>(), [2]);
/// ```
#[derive(Debug, Clone, Copy)]
pub struct TupleANotB {
    seed: u64,
    seed_hash: u16,
}

impl Default for TupleANotB {
    fn default() -> Self {
        must(Self::with_seed(DEFAULT_UPDATE_SEED))
    }
}

impl TupleANotB {
    /// Differences of sketches of this seed.
    ///
    /// # Errors
    ///
    /// `InvalidArgument` if the hash of the seed is 0; `OutOfMemory`.
    pub fn with_seed(seed: u64) -> Result<Self, Error> {
        Ok(Self { seed, seed_hash: seed_hash(seed, ErrorKind::InvalidArgument)? })
    }

    /// The difference of a and b. It is ordered if `ordered` or a is, and if it is trivial.
    ///
    /// # Errors
    ///
    /// `InvalidArgument` unless a is empty, if one that isn't empty is of another seed; `OutOfMemory`.
    pub fn compute<'a, 'b, S, T>(
        &self,
        a: impl Into<TupleSketchView<'a, S>>,
        b: impl Into<TupleSketchView<'b, T>>,
        ordered: bool,
    ) -> Result<CompactTupleSketch<S>, Error>
    where
        S: Clone + 'a,
        T: 'b,
    {
        let (a, b) = (a.into(), b.into());
        let promised = ordered || a.is_ordered();
        if a.is_empty() {
            // It may be of another seed, and keeps that; b isn't looked at.
            if a.is_of_sums() {
                let sums = a.sums(self.seed)?;
                return sums.minus(&sums, self.seed, ordered).map(CompactTupleSketch::of_sums);
            }
            let keys = a.keys(self.seed)?;
            return Ok(CompactTupleSketch::of_keys(keys.minus(&keys, self.seed, ordered)?, Vec::new()));
        }
        a.check_seed(self.seed_hash)?;
        b.check_seed(self.seed_hash)?;
        if let (Viewed::Sums(first), Viewed::Sums(second), true) = (a.0, b.0, ordered) {
            return first.object().minus_updated(second.object(), self.seed).map(CompactTupleSketch::of_sums);
        }
        // The form of a sketch of one key is ordered, and the sketch isn't.
        if a.is_of_sums() && b.is_of_sums() {
            let sums = a.sums(self.seed)?.minus(&*b.sums(self.seed)?, self.seed, ordered)?;
            return sums.promising(promised, self.seed).map(CompactTupleSketch::of_sums);
        }
        let keys =
            a.keys(self.seed)?.minus(&*b.keys(self.seed)?, self.seed, ordered)?.promising(promised, self.seed)?;
        let entries = entries_of(a, &keys.hashes()?)?;
        Ok(CompactTupleSketch::of_keys(keys, entries))
    }
}

/// The entries of a sketch at these hashes, in their order; all of them are there.
fn entries_of<S: Clone>(view: TupleSketchView<'_, S>, hashes: &[u64]) -> Result<Vec<TupleEntry<S>>, Error> {
    if let Viewed::Own(sketch) = view.0 {
        return entries_at(sketch.map(), hashes);
    }
    let mut all = vector(view.num_retained())?;
    all.extend(view.entries()?);
    all.sort_unstable_by_key(|it| it.hash());
    let mut entries = vector(hashes.len())?;
    entries.extend(hashes.iter().map(|hash| {
        let at = all.binary_search_by_key(hash, |it| it.hash());
        all[at.expect("a difference has hashes of its first sketch alone")].clone()
    }));
    Ok(entries)
}
