//! What the four builders share: the settings of a sketch or a union.

use crate::border;
use crate::common::ResizeFactor;
use crate::error::{Error, ErrorKind};
use crate::hash::{seed_hash, DEFAULT_UPDATE_SEED};
use crate::state::MAX_THETA;

/// The theta that a sketch begins at.
#[derive(Debug, Clone, Copy)]
pub(crate) enum Start {
    Probability(f32),
    Theta(u64),
}

#[derive(Debug, Clone, Copy)]
pub(crate) struct Settings {
    pub(crate) lg_k: u8,
    pub(crate) resize_factor: ResizeFactor,
    pub(crate) start: Start,
    pub(crate) seed: u64,
}

/// Settings that were checked.
#[derive(Debug, Clone, Copy)]
pub(crate) struct Checked {
    pub(crate) lg_k: u8,
    pub(crate) factor: u32,
    pub(crate) start: u64,
    pub(crate) seed: u64,
}

impl Default for Settings {
    fn default() -> Self {
        Self { lg_k: 12, resize_factor: ResizeFactor::X8, start: Start::Probability(1.0), seed: DEFAULT_UPDATE_SEED }
    }
}

impl Settings {
    #[inline]
    pub(crate) fn checked(&self) -> Result<Checked, Error> {
        if !(4..=26).contains(&self.lg_k) {
            return Err(Error::argument(format!("lg_k is {}, and must be from 4 to 26", self.lg_k)));
        }
        Ok(Checked {
            lg_k: self.lg_k,
            factor: self.resize_factor.value() as u32,
            start: self.start.theta()?,
            seed: self.seed,
        })
    }
}

impl Checked {
    /// The hash of the seed, of an object that was made.
    pub(crate) fn seed_hash(&self) -> u16 {
        border::seed_hash(self.seed).expect("the C library refuses seeds of the hash 0")
    }

    /// Why the C library refused to make an object of these settings.
    #[cold]
    pub(crate) fn refusal(&self, refused: Error) -> Error {
        match refused.kind() {
            ErrorKind::InvalidArgument => seed_hash(self.seed, ErrorKind::InvalidArgument).err().unwrap_or(refused),
            _ => refused,
        }
    }
}

impl Start {
    #[inline]
    fn theta(self) -> Result<u64, Error> {
        let theta = match self {
            Self::Theta(theta) => theta,
            Self::Probability(1.0) => MAX_THETA,
            Self::Probability(p) if p > 0.0 && p < 1.0 => (MAX_THETA as f64 * f64::from(p)) as u64,
            Self::Probability(p) => {
                return Err(Error::argument(format!("the sampling probability is {p}, and must be above 0, at most 1")))
            }
        };
        if (1..=MAX_THETA).contains(&theta) {
            return Ok(theta);
        }
        let given = match self {
            Self::Theta(theta) => format!("the starting theta is {theta}"),
            Self::Probability(p) => format!("the sampling probability is {p}"),
        };
        Err(Error::argument(format!("{given}, and theta must be from 1 to 2^63 - 1")))
    }
}

/// The setters of a builder with a field `settings`.
macro_rules! setters {
    () => {
        /// The binary logarithm of the nominal entries k, from 4 to 26 (default 12). Up to k different keys are
        /// counted exactly.
        pub fn lg_k(mut self, lg_k: u8) -> Self {
            self.settings.lg_k = lg_k;
            self
        }

        /// By which factor slots grow. No answer depends on it.
        pub fn resize_factor(mut self, factor: ResizeFactor) -> Self {
            self.settings.resize_factor = factor;
            self
        }

        /// Which part of the hashes is sampled from the start, above 0 and at most 1 (default 1). It becomes a theta,
        /// a whole number from 1 to 2^63 - 1, so a probability below 2^-63 is refused.
        pub fn sampling_probability(mut self, probability: f32) -> Self {
            self.settings.start = Start::Probability(probability);
            self
        }

        /// The theta to begin at, from 1 to 2^63 - 1, instead of a probability. `datasketches` has no such call.
        pub fn starting_theta(mut self, theta: u64) -> Self {
            self.settings.start = Start::Theta(theta);
            self
        }

        /// The seed of the hashes (default 9001). Sketches are merged only if their seeds have one seed hash.
        pub fn seed(mut self, seed: u64) -> Self {
            self.settings.seed = seed;
            self
        }
    };
}
pub(crate) use setters;
