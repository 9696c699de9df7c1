//! Cursors over bytes, for summaries that you write to images yourself
//! ([`TupleSummaryValue`](crate::tuple::TupleSummaryValue)).

use std::io;

/// Bytes that are written one after another.
#[derive(Debug, Default)]
pub struct SketchBytes {
    bytes: Vec<u8>,
}

impl SketchBytes {
    /// No bytes, with room for `capacity` of them.
    pub fn with_capacity(capacity: usize) -> Self {
        Self { bytes: Vec::with_capacity(capacity) }
    }

    pub(crate) fn of(bytes: Vec<u8>) -> Self {
        Self { bytes }
    }

    /// The bytes.
    pub fn into_bytes(self) -> Vec<u8> {
        self.bytes
    }

    /// Appends bytes.
    pub fn write(&mut self, bytes: &[u8]) {
        self.bytes.extend_from_slice(bytes);
    }
}

/// Bytes that are read one after another.
#[derive(Debug)]
pub struct SketchSlice<'a> {
    rest: &'a [u8],
}

impl<'a> SketchSlice<'a> {
    /// A cursor at the first of these bytes.
    pub fn new(bytes: &'a [u8]) -> Self {
        Self { rest: bytes }
    }

    /// The bytes that are not read yet.
    pub fn remaining(&self) -> &'a [u8] {
        self.rest
    }

    fn take<const N: usize>(&mut self) -> io::Result<[u8; N]> {
        let (taken, rest) = self.rest.split_first_chunk::<N>().ok_or(io::ErrorKind::UnexpectedEof)?;
        self.rest = rest;
        Ok(*taken)
    }

    /// Fills a slice with the next bytes.
    ///
    /// # Errors
    ///
    /// `UnexpectedEof` if there are fewer; none is read then.
    pub fn read_exact(&mut self, out: &mut [u8]) -> io::Result<()> {
        if self.rest.len() < out.len() {
            return Err(io::ErrorKind::UnexpectedEof.into());
        }
        let (taken, rest) = self.rest.split_at(out.len());
        out.copy_from_slice(taken);
        self.rest = rest;
        Ok(())
    }
}

macro_rules! numbers {
    ($($number:ty: $write:ident, $read:ident;)*) => {
        impl SketchBytes {
            $(
                /// Appends the bytes of a number, the lowest first.
                pub fn $write(&mut self, value: $number) {
                    self.write(&value.to_le_bytes());
                }
            )*
        }

        impl SketchSlice<'_> {
            $(
                /// Reads a number, the lowest byte first.
                ///
                /// # Errors
                ///
                /// `UnexpectedEof` if there are too few bytes; none is read then.
                pub fn $read(&mut self) -> io::Result<$number> {
                    self.take().map(<$number>::from_le_bytes)
                }
            )*
        }
    };
}
numbers! {
    u8: write_u8, read_u8;
    u16: write_u16_le, read_u16_le;
    u32: write_u32_le, read_u32_le;
    u64: write_u64_le, read_u64_le;
    i32: write_i32_le, read_i32_le;
    i64: write_i64_le, read_i64_le;
    f32: write_f32_le, read_f32_le;
    f64: write_f64_le, read_f64_le;
}
