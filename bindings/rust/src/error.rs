//! Errors, and their kinds.

use std::borrow::Cow;
use std::fmt;

/// Why a call was refused.
#[derive(Debug, Clone, Copy, PartialEq, Eq, Hash)]
#[non_exhaustive]
pub enum ErrorKind {
    /// An argument is out of range, or a sketch is of another seed.
    InvalidArgument,
    /// Bytes are not the image of a sketch of this seed.
    InvalidData,
    /// Memory was refused. `datasketches` aborts here.
    OutOfMemory,
    /// A sum would be 2^64 or more. `datasketches` wraps around or panics here.
    Policy,
    /// An earlier update of the union failed; `reset` ends that.
    Failed,
}

impl ErrorKind {
    fn text(self) -> &'static str {
        match self {
            Self::InvalidArgument => "an argument is out of range, or a sketch is of another seed",
            Self::InvalidData => "the bytes begin with no sketch of this seed",
            Self::OutOfMemory => "memory was refused",
            Self::Policy => "a sum would be 2^64 or more",
            Self::Failed => "an earlier update of the union failed: reset the union",
        }
    }
}

impl fmt::Display for ErrorKind {
    fn fmt(&self, f: &mut fmt::Formatter<'_>) -> fmt::Result {
        f.write_str(self.text())
    }
}

/// What a call that was refused returns: a kind, and a sentence that names the reason.
#[derive(Debug, Clone)]
pub struct Error {
    kind: ErrorKind,
    text: Cow<'static, str>,
}

impl Error {
    /// An error of a kind with a text, for your own
    /// [`TupleSummaryValue::deserialize_value`](crate::tuple::TupleSummaryValue::deserialize_value).
    pub fn new(kind: ErrorKind, text: impl Into<String>) -> Self {
        Self { kind, text: Cow::Owned(text.into()) }
    }

    /// The kind of the error.
    pub fn kind(&self) -> ErrorKind {
        self.kind
    }

    /// The reason, as a text.
    pub fn message(&self) -> &str {
        &self.text
    }

    pub(crate) fn of(kind: ErrorKind) -> Self {
        Self { kind, text: Cow::Borrowed(kind.text()) }
    }

    /// The same with a reason behind its text.
    pub(crate) fn because(self, reason: &str) -> Self {
        Self { text: Cow::Owned(format!("{}: {reason}", self.text)), ..self }
    }

    pub(crate) fn out_of_memory() -> Self {
        Self::of(ErrorKind::OutOfMemory)
    }

    pub(crate) fn argument(text: String) -> Self {
        Self { kind: ErrorKind::InvalidArgument, text: Cow::Owned(text) }
    }

    /// A sketch whose seed has another hash than that of what reads it.
    pub(crate) fn other_seed(found: u16, wanted: u16) -> Self {
        Self::argument(format!(
            "the sketch's seed has the hash {found:#06x}, and {wanted:#06x} is needed: build both with one seed"
        ))
    }
}

impl fmt::Display for Error {
    fn fmt(&self, f: &mut fmt::Formatter<'_>) -> fmt::Result {
        write!(f, "{:?}: {}", self.kind, self.text)
    }
}

impl std::error::Error for Error {}

/// The result of a call of the C library.
#[inline]
pub(crate) fn check(status: u32) -> Result<(), Error> {
    if status == 0 {
        Ok(())
    } else {
        Err(refused(status))
    }
}

#[cold]
fn refused(status: u32) -> Error {
    Error::of(match status {
        2 => ErrorKind::InvalidData,
        3 => ErrorKind::OutOfMemory,
        4 => ErrorKind::Policy,
        5 => ErrorKind::Failed,
        _ => ErrorKind::InvalidArgument,
    })
}

/// The value of a call that `datasketches` has without an error.
#[inline]
#[track_caller]
pub(crate) fn must<T>(result: Result<T, Error>) -> T {
    match result {
        Ok(value) => value,
        Err(error) => stop(&error),
    }
}

#[cold]
#[track_caller]
fn stop(error: &Error) -> ! {
    panic!("kaftanclay: {}; a call whose name begins with try_ returns this as an error", error.text)
}
