//! The union, and its builder.

use super::view::Viewed;
use super::{CompactThetaSketch, ThetaSketchView};
use crate::border;
use crate::common::ResizeFactor;
use crate::error::{must, Error};
use crate::settings::{setters, Checked, Settings, Start};
use std::fmt;

/// A union of theta sketches: the hashes of all of them below their least theta, at most k of them.
pub struct ThetaUnion {
    object: border::Union,
    settings: Checked,
}

impl fmt::Debug for ThetaUnion {
    fn fmt(&self, f: &mut fmt::Formatter<'_>) -> fmt::Result {
        f.debug_struct("ThetaUnion").field("lg_k", &self.settings.lg_k).finish_non_exhaustive()
    }
}

impl ThetaUnion {
    /// Merges a sketch. An empty one changes nothing.
    ///
    /// # Errors
    ///
    /// `InvalidArgument` for a nonempty sketch of another seed; the union is unchanged then. `OutOfMemory`; then the
    /// union has failed, and returns `Failed` until it is reset.
    pub fn update<'a>(&mut self, sketch: impl Into<ThetaSketchView<'a>>) -> Result<(), Error> {
        let view = sketch.into();
        let added = match view.0 {
            Viewed::Sketch(sketch) => self.object.add(sketch.object()),
            Viewed::Form(form) => self.object.add_form(form.object()),
        };
        added.map_err(|error| view.refusal(error, self.settings.seed_hash()))
    }

    /// The union's value as a compact sketch; `ordered` as in [`ThetaSketch::compact`](super::ThetaSketch::compact).
    ///
    /// # Panics
    ///
    /// If memory is refused or the union has failed; [`try_to_sketch`](Self::try_to_sketch) returns that as an error.
    pub fn to_sketch(&self, ordered: bool) -> CompactThetaSketch {
        must(self.try_to_sketch(ordered))
    }

    /// The union's value.
    ///
    /// # Errors
    ///
    /// `Failed` if the union has failed; `OutOfMemory`.
    pub fn try_to_sketch(&self, ordered: bool) -> Result<CompactThetaSketch, Error> {
        self.object.result(ordered).map(CompactThetaSketch::of)
    }

    /// Makes the union empty again, as when it was new, and ends a failure.
    pub fn reset(&mut self) {
        self.object.reset_union();
    }

    /// How many bytes of memory the slots have.
    pub fn estimated_size(&self) -> usize {
        self.object.estimated_size()
    }
}

/// Builds a [`ThetaUnion`]. Settings are checked by [`build`](Self::build).
#[derive(Debug, Clone, Default)]
pub struct ThetaUnionBuilder {
    settings: Settings,
}

impl ThetaUnionBuilder {
    setters!();

    /// Builds the union.
    ///
    /// ```
    /// use kaftanclay::theta::ThetaUnionBuilder;
    ///
    /// let union = ThetaUnionBuilder::default().lg_k(10).sampling_probability(0.5).seed(7).build().unwrap();
    /// assert!(union.to_sketch(true).is_empty());
    /// ```
    ///
    /// # Errors
    ///
    /// `InvalidArgument` if a setting is out of range or the hash of the seed is 0; `OutOfMemory`.
    pub fn build(self) -> Result<ThetaUnion, Error> {
        let settings = self.settings.checked()?;
        let object = border::Union::union(settings.lg_k, settings.seed, settings.factor, settings.start)
            .map_err(|error| settings.refusal(error))?;
        Ok(ThetaUnion { object, settings })
    }
}
