//! Theta and tuple sketches over the C library kaftanclay, with the names of the crate `datasketches`.
//!
//! A program that has `datasketches` changes one line:
//!
//! ```toml
//! [dependencies]
//! datasketches = { package = "kaftanclay", path = "../kaftanclay/bindings/rust", features = ["theta", "tuple"] }
//! ```
//!
//! Which hashes a sketch retains, its theta, the results of unions, intersections and differences, sums, and images are
//! computed by a library whose every function is proved against its contract. The code of this crate isn't proved: it
//! gathers the bytes of keys, calls the library, and keeps the summaries of policies other than sums (see
//! [`mod@tuple`]). `docs/use/RUST.md` of the sources says what differs from `datasketches`.
//!
//! A call that can't fail in `datasketches` panics if memory or a sum is refused, and has a call beside it whose name
//! begins with `try_` and returns an [`Error`](error::Error).

#![warn(missing_docs)]
#![deny(unsafe_code)]
// With one family alone, some of what both share has no use.
#![cfg_attr(not(all(feature = "theta", feature = "tuple")), allow(dead_code, unused_macros, unused_imports))]

#[allow(unsafe_code)]
mod border;
pub mod codec;
pub mod common;
pub mod error;
pub mod hash;
mod lent;
mod settings;
mod state;
#[cfg(feature = "theta")]
pub mod theta;
#[cfg(feature = "tuple")]
pub mod tuple;
mod watched;
