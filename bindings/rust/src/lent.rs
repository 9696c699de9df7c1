//! What a call reads: a caller's, or made for the call.

use std::ops::Deref;

pub(crate) enum Lent<'a, T> {
    Made(T),
    Given(&'a T),
}

impl<T> Deref for Lent<'_, T> {
    type Target = T;

    fn deref(&self) -> &T {
        match self {
            Self::Made(it) => it,
            Self::Given(it) => it,
        }
    }
}
