//! Summaries in images.

use crate::codec::{SketchBytes, SketchSlice};
use crate::error::{Error, ErrorKind};

/// A summary that images have, behind each hash. Its bytes are yours to choose, and may be of any number.
pub trait TupleSummaryValue: Sized {
    /// How many bytes [`serialize_value`](Self::serialize_value) writes.
    fn serialize_size(&self) -> usize;

    /// Appends the summary's bytes.
    fn serialize_value(&self, bytes: &mut SketchBytes);

    /// Reads a summary, and leaves the cursor behind its bytes.
    ///
    /// # Errors
    ///
    /// Yours, as `InvalidData` if there are too few bytes.
    fn deserialize_value(cursor: &mut SketchSlice<'_>) -> Result<Self, Error>;
}

macro_rules! values {
    ($($number:ty: $write:ident, $read:ident;)*) => {$(
        impl TupleSummaryValue for $number {
            fn serialize_size(&self) -> usize {
                std::mem::size_of::<Self>()
            }

            fn serialize_value(&self, bytes: &mut SketchBytes) {
                bytes.$write(*self);
            }

            fn deserialize_value(cursor: &mut SketchSlice<'_>) -> Result<Self, Error> {
                cursor.$read().map_err(|_| Error::new(ErrorKind::InvalidData, "the image ends within a summary"))
            }
        }
    )*};
}
values! {
    u32: write_u32_le, read_u32_le;
    u64: write_u64_le, read_u64_le;
    i32: write_i32_le, read_i32_le;
    i64: write_i64_le, read_i64_le;
    f32: write_f32_le, read_f32_le;
    f64: write_f64_le, read_f64_le;
}
