//! What follows from the state of a sketch.

use crate::border::{self, State};
use crate::common::NumStdDev;

/// The theta of a sketch that has sampled nothing, 2^63 - 1.
pub(crate) const MAX_THETA: u64 = i64::MAX as u64;

impl State {
    /// The state of the empty sketch.
    pub(crate) const EMPTY: Self = Self { retained: 0, theta: MAX_THETA, empty: 1 };

    pub(crate) fn is_empty(self) -> bool {
        self.empty != 0
    }

    pub(crate) fn is_estimation_mode(self) -> bool {
        !self.is_empty() && self.theta < MAX_THETA
    }

    /// Theta as a fraction of its greatest value.
    pub(crate) fn fraction(self) -> f64 {
        self.theta as f64 / MAX_THETA as f64
    }

    /// The estimate, by the formula of `datasketches` and with its bits. An empty sketch retains nothing.
    #[inline]
    pub(crate) fn estimate(self) -> f64 {
        self.retained as f64 / self.fraction()
    }

    pub(crate) fn lower_bound(self, deviations: NumStdDev) -> f64 {
        if self.is_estimation_mode() {
            border::bounds(self, deviations as u32).0 as f64
        } else {
            self.retained as f64
        }
    }

    pub(crate) fn upper_bound(self, deviations: NumStdDev) -> f64 {
        if self.is_estimation_mode() {
            border::bounds(self, deviations as u32).1 as f64
        } else {
            self.retained as f64
        }
    }
}
