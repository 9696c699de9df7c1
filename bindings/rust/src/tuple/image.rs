//! Images of tuple sketches whose summaries the C library doesn't have. It writes and reads their preambles, and decides
//! which hashes a sketch may have. This module alone knows what an entry is: its hash, the lowest byte first, and behind
//! it the bytes of its summary.

use crate::border::{self, vector};
use crate::codec::{SketchBytes, SketchSlice};
use crate::error::{Error, ErrorKind};

/// The image of the sketch with these keys, whose entries are in the order of the keys; `room` is that of all summaries.
pub(super) fn written<'a, S: 'a>(
    keys: &border::Compact,
    entries: impl ExactSizeIterator<Item = (u64, &'a S)>,
    room: usize,
    mut write: impl FnMut(&S, &mut SketchBytes),
) -> Result<Vec<u8>, Error> {
    let mut image = SketchBytes::of(keys.tuple_preamble(8 * entries.len() + room)?);
    for (hash, summary) in entries {
        image.write_u64_le(hash);
        write(summary, &mut image);
    }
    Ok(image.into_bytes())
}

/// The keys of the sketch that the bytes begin with, and what `read` makes of each hash, which isn't 0, and of the
/// summary behind it.
pub(super) fn read<T>(
    bytes: &[u8],
    seed: u64,
    mut read: impl FnMut(u64, &mut SketchSlice<'_>) -> Result<T, Error>,
) -> Result<(border::Compact, Vec<T>), Error> {
    let head = border::tuple_head(bytes, seed)?;
    // The bytes have at least eight for each entry.
    let count = head.state.retained as usize;
    let (mut hashes, mut entries) = (vector(count)?, vector(count)?);
    let mut rest = SketchSlice::new(&bytes[head.start..]);
    for _ in 0..count {
        let hash = rest.read_u64_le().ok().filter(|it| *it != 0).ok_or_else(|| Error::of(ErrorKind::InvalidData))?;
        hashes.push(hash);
        entries.push(read(hash, &mut rest)?);
    }
    Ok((border::Compact::of_hashes(head.state, head.ordered, &hashes, seed)?, entries))
}
