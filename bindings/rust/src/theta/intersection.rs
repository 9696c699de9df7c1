//! The intersection.

use super::view::Viewed;
use super::{CompactThetaSketch, ThetaSketchView};
use crate::border;
use crate::error::{must, Error, ErrorKind};
use crate::hash::{seed_hash, DEFAULT_UPDATE_SEED};
use std::fmt;

/// An intersection of theta sketches: the hashes that all of them have below their least theta. Before its first sketch
/// it has no value.
pub struct ThetaIntersection {
    object: border::Intersection,
    seed_hash: u16,
    begun: bool,
}

impl fmt::Debug for ThetaIntersection {
    fn fmt(&self, f: &mut fmt::Formatter<'_>) -> fmt::Result {
        f.debug_struct("ThetaIntersection").field("has_result", &self.begun).finish_non_exhaustive()
    }
}

impl Default for ThetaIntersection {
    /// An intersection under the default seed. It panics if memory is refused, which
    /// [`with_seed`](ThetaIntersection::with_seed) returns as an error.
    fn default() -> Self {
        must(Self::with_seed(DEFAULT_UPDATE_SEED))
    }
}

impl ThetaIntersection {
    /// An intersection of sketches of this seed.
    ///
    /// # Errors
    ///
    /// `InvalidArgument` if the hash of the seed is 0; `OutOfMemory`.
    pub fn with_seed(seed: u64) -> Result<Self, Error> {
        let seed_hash = seed_hash(seed, ErrorKind::InvalidArgument)?;
        Ok(Self { object: border::Intersection::intersection(seed)?, seed_hash, begun: false })
    }

    /// Intersects with a sketch.
    ///
    /// # Errors
    ///
    /// `InvalidArgument` for a nonempty sketch of another seed, unless the intersection is empty already;
    /// `OutOfMemory`. The intersection is unchanged then.
    pub fn update<'a>(&mut self, sketch: impl Into<ThetaSketchView<'a>>) -> Result<(), Error> {
        let view = sketch.into();
        let added = match view.0 {
            Viewed::Sketch(sketch) => self.object.add(sketch.object()),
            Viewed::Form(form) => self.object.add_form(form.object()),
        };
        added.map_err(|error| view.refusal(error, self.seed_hash))?;
        self.begun = true;
        Ok(())
    }

    /// Whether there was a sketch.
    pub fn has_result(&self) -> bool {
        self.begun
    }

    /// How many bytes of memory the hashes have.
    pub fn estimated_size(&self) -> usize {
        self.object.estimated_size()
    }

    /// The intersection as a compact sketch, or `None` before the first sketch; `ordered` as in
    /// [`ThetaSketch::compact`](super::ThetaSketch::compact).
    ///
    /// # Panics
    ///
    /// If memory is refused; [`try_to_sketch`](Self::try_to_sketch) returns that as an error.
    pub fn to_sketch(&self, ordered: bool) -> Option<CompactThetaSketch> {
        must(self.try_to_sketch(ordered))
    }

    /// The intersection, or `OutOfMemory`.
    pub fn try_to_sketch(&self, ordered: bool) -> Result<Option<CompactThetaSketch>, Error> {
        if !self.begun {
            return Ok(None);
        }
        self.object.result(ordered).map(|it| Some(CompactThetaSketch::of(it)))
    }
}
