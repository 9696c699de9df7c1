//! What the families share.

/// By which factor the slots of a sketch grow. No hash, theta or image depends on it.
#[derive(Debug, Clone, Copy, PartialEq, Eq)]
pub enum ResizeFactor {
    /// All slots from the start.
    X1,
    /// Twice as many at each growth.
    X2,
    /// Four times as many.
    X4,
    /// Eight times as many, the default.
    X8,
}

impl ResizeFactor {
    /// The binary logarithm of the factor, from 0 to 3.
    pub fn lg_value(self) -> u8 {
        self as u8
    }

    /// The factor: 1, 2, 4 or 8.
    pub fn value(self) -> usize {
        1 << self.lg_value()
    }
}

/// How many standard deviations a bound is away from the estimate.
#[derive(Debug, Clone, Copy, PartialEq, Eq)]
pub enum NumStdDev {
    /// One: the true count is within both bounds in about 68 of 100 sketches, if hashes are random.
    One = 1,
    /// Two: in about 95 of 100.
    Two = 2,
    /// Three: in about 99.7 of 100.
    Three = 3,
}
