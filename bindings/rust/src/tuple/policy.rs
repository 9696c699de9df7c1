//! What becomes of summaries.

use crate::border::{is_same, number_of, Mode};
use std::marker::PhantomData;
use std::ops::AddAssign;

/// Makes summaries.
pub trait SummaryPolicy {
    /// What is kept beside each hash.
    type Summary;

    /// The summary of a key before its first value.
    fn create(&self) -> Self::Summary;
}

/// Updates summaries by values of type `U`. A policy may do so for several types.
pub trait SummaryUpdatePolicy<U>: SummaryPolicy {
    /// Updates a summary by a value.
    fn update(&self, summary: &mut Self::Summary, value: U);

    /// The number for the C library, if that has the sketches of this policy and the value is a number of 64 bits.
    #[doc(hidden)]
    fn number(_value: &U) -> Option<u64> {
        None
    }
}

/// Combines the summaries that a key has in two sketches, for unions and intersections.
pub trait SummaryCombinePolicy: SummaryPolicy {
    /// Updates `summary`, of the sketches before, by that of the next sketch.
    fn combine(&self, summary: &mut Self::Summary, other: &Self::Summary);
}

/// Adds each value to a summary that begins at its default. Of `u64` the sums are the C library's, and proved.
#[derive(Debug, Default, Clone, Copy)]
pub struct DefaultUpdatePolicy<S> {
    summary: PhantomData<fn() -> S>,
}

impl<S: Default> SummaryPolicy for DefaultUpdatePolicy<S> {
    type Summary = S;

    fn create(&self) -> S {
        S::default()
    }
}

impl<S: Default + AddAssign<U>, U> SummaryUpdatePolicy<U> for DefaultUpdatePolicy<S> {
    fn update(&self, summary: &mut S, value: U) {
        *summary += value;
    }

    #[inline]
    fn number(value: &U) -> Option<u64> {
        if is_same::<S, u64>() {
            number_of(value)
        } else {
            None
        }
    }
}

/// Adds the summaries of a shared key. Of `u64` the sums are the C library's, and proved.
#[derive(Debug, Default, Clone, Copy)]
pub struct DefaultUnionPolicy<S> {
    summary: PhantomData<fn() -> S>,
}

impl<S: Default> SummaryPolicy for DefaultUnionPolicy<S> {
    type Summary = S;

    fn create(&self) -> S {
        S::default()
    }
}

impl<S: Default + for<'a> AddAssign<&'a S>> SummaryCombinePolicy for DefaultUnionPolicy<S> {
    fn combine(&self, summary: &mut S, other: &S) {
        *summary += other;
    }
}

macro_rules! extremes {
    ($($(#[$text:meta])* $name:ident: $first:expr, $kept:ident;)*) => {$(
        $(#[$text])*
        #[derive(Debug, Default, Clone, Copy)]
        pub struct $name;

        impl SummaryPolicy for $name {
            type Summary = u64;

            fn create(&self) -> u64 {
                $first
            }
        }

        impl SummaryUpdatePolicy<u64> for $name {
            fn update(&self, summary: &mut u64, value: u64) {
                *summary = value.$kept(*summary);
            }

            #[inline]
            fn number(value: &u64) -> Option<u64> {
                Some(*value)
            }
        }

        impl SummaryCombinePolicy for $name {
            fn combine(&self, summary: &mut u64, other: &u64) {
                *summary = (*other).$kept(*summary);
            }
        }
    )*};
}
extremes! {
    /// Keeps the least value of a key, and combines summaries to the least. The sketches are the C library's, and proved.
    /// `datasketches` has no such policy.
    MinPolicy: u64::MAX, min;
    /// Keeps the greatest value of a key, likewise.
    MaxPolicy: 0, max;
}

/// The mode of a policy whose sketches the C library has; `A` is the one that adds.
pub(super) fn mode_of<P: SummaryPolicy, A: 'static>() -> Option<Mode> {
    if is_same::<P, A>() {
        Some(Mode::Sum)
    } else if is_same::<P, MinPolicy>() {
        Some(Mode::Min)
    } else if is_same::<P, MaxPolicy>() {
        Some(Mode::Max)
    } else {
        None
    }
}
