//! The difference.

use super::view::Viewed;
use super::{CompactThetaSketch, ThetaSketchView};
use crate::border;
use crate::error::{must, Error, ErrorKind};
use crate::hash::{seed_hash, DEFAULT_UPDATE_SEED};
use crate::lent::Lent;

/// Differences of theta sketches: the hashes of a that b lacks, below the lesser theta.
///
/// ```
/// use kaftanclay::theta::{ThetaANotB, ThetaSketchBuilder};
///
/// let mut march = ThetaSketchBuilder::default().build().unwrap();
/// let mut april = ThetaSketchBuilder::default().build().unwrap();
/// march.update("ann");
/// march.update("bob");
/// april.update("bob");
/// let gone = ThetaANotB::default().compute(&march, &april, true).unwrap();
/// assert_eq!(gone.num_retained(), 1);
/// ```
#[derive(Debug, Clone, Copy)]
pub struct ThetaANotB {
    seed: u64,
    seed_hash: u16,
}

impl Default for ThetaANotB {
    fn default() -> Self {
        must(Self::with_seed(DEFAULT_UPDATE_SEED))
    }
}

fn form(view: ThetaSketchView<'_>) -> Result<Lent<'_, border::Compact>, Error> {
    match view.0 {
        Viewed::Sketch(sketch) => sketch.object().compact(false).map(Lent::Made),
        Viewed::Form(form) => Ok(Lent::Given(form.object())),
    }
}

impl ThetaANotB {
    /// Differences of sketches of this seed.
    ///
    /// # Errors
    ///
    /// `InvalidArgument` if the hash of the seed is 0; `OutOfMemory`.
    pub fn with_seed(seed: u64) -> Result<Self, Error> {
        Ok(Self { seed, seed_hash: seed_hash(seed, ErrorKind::InvalidArgument)? })
    }

    /// The difference of a and b. It is ordered if `ordered` or a is, and if it is trivial.
    ///
    /// # Errors
    ///
    /// `InvalidArgument` unless a is empty, if one that isn't empty is of another seed; `OutOfMemory`.
    pub fn compute<'a, 'b>(
        &self,
        a: impl Into<ThetaSketchView<'a>>,
        b: impl Into<ThetaSketchView<'b>>,
        ordered: bool,
    ) -> Result<CompactThetaSketch, Error> {
        let (a, b) = (a.into(), b.into());
        let made = match (a.0, b.0) {
            (Viewed::Sketch(first), Viewed::Sketch(second)) if ordered => {
                first.object().minus_updated(second.object(), self.seed)
            }
            _ => form(a)?.minus(&*form(b)?, self.seed, ordered),
        };
        let made = made.map_err(|error| a.refusal(b.refusal(error, self.seed_hash), self.seed_hash))?;
        // The form of a sketch of one hash is ordered, and the sketch isn't.
        made.promising(ordered || a.is_ordered(), self.seed).map(CompactThetaSketch::of)
    }
}
