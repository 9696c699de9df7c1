//! Theta sketches: how many different keys a stream has.
//!
//! A [`ThetaSketch`] takes updates; a [`CompactThetaSketch`] never changes, and has an image. [`ThetaUnion`],
//! [`ThetaIntersection`] and [`ThetaANotB`] take sketches of both kinds.
//!
//! ```
//! use kaftanclay::theta::{ThetaSketchBuilder, ThetaUnionBuilder};
//!
//! let mut monday = ThetaSketchBuilder::default().lg_k(14).build().unwrap();
//! let mut tuesday = ThetaSketchBuilder::default().lg_k(14).build().unwrap();
//! monday.update("ann");
//! monday.update("bob");
//! tuesday.update("bob");
//! let mut both = ThetaUnionBuilder::default().lg_k(14).build().unwrap();
//! both.update(&monday).unwrap();
//! both.update(&tuesday).unwrap();
//! assert_eq!(both.to_sketch(true).estimate(), 2.0);
//! ```

mod a_not_b;
mod compact;
mod intersection;
mod sketch;
mod union;
mod view;

pub use self::a_not_b::ThetaANotB;
pub use self::compact::CompactThetaSketch;
pub use self::intersection::ThetaIntersection;
pub use self::sketch::{ThetaSketch, ThetaSketchBuilder};
pub use self::union::{ThetaUnion, ThetaUnionBuilder};
pub use self::view::{ThetaEntry, ThetaSketchView};
