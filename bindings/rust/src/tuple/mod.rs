//! Tuple sketches: theta sketches that keep a summary beside each hash.
//!
//! **What is proved.** Sketches of sums, which are those of [`DefaultUpdatePolicy<u64>`] with updates by `u64`, are the
//! C library's from the first update to the image, as are unions and intersections under [`DefaultUnionPolicy<u64>`]:
//! hashes, theta and every sum are computed by proved functions, and a sum of 2^64 or more is refused. So are sketches
//! of least and greatest values, and unions and intersections that keep these ([`MinPolicy`], [`MaxPolicy`]). Of any other
//! policy the library decides which hashes are retained, and theta, so estimates, differences and what unions and
//! intersections retain are proved as those of theta sketches are. The summaries beside these hashes are in a map of
//! this crate, which calls your policy: that each is what your policy made of the values of its key is tested, not
//! proved, and so is how they follow their hashes in an image. Preambles of all images are written and read by proved
//! functions, which also decide whether the hashes of an image are those of a sketch.
//!
//! ```
//! use kaftanclay::tuple::{DefaultUpdatePolicy, TupleSketchBuilder};
//!
//! let mut visits = TupleSketchBuilder::new(DefaultUpdatePolicy::<u64>::default()).build().unwrap();
//! visits.update("ann", 2);
//! visits.update("ann", 3);
//! assert_eq!(visits.iter().next().unwrap().summary(), &5);
//! ```
//!
//! A policy of your own implements [`SummaryPolicy`], and [`SummaryUpdatePolicy`] or [`SummaryCombinePolicy`].
//! Intersections have no default, since what a shared key's summaries become depends on the application.

mod a_not_b;
mod compact;
mod entry;
mod image;
mod intersection;
mod own;
mod places;
mod policy;
mod sketch;
mod sums;
mod union;
mod value;
mod view;

pub use self::a_not_b::TupleANotB;
pub use self::compact::CompactTupleSketch;
pub use self::entry::TupleEntry;
pub use self::intersection::TupleIntersection;
pub use self::policy::{
    DefaultUnionPolicy, DefaultUpdatePolicy, MaxPolicy, MinPolicy, SummaryCombinePolicy, SummaryPolicy,
    SummaryUpdatePolicy,
};
pub use self::sketch::{TupleSketch, TupleSketchBuilder};
pub use self::union::{TupleUnion, TupleUnionBuilder};
pub use self::value::TupleSummaryValue;
pub use self::view::TupleSketchView;
