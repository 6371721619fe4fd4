use std::ops::Range;
use std::sync::{Mutex, PoisonError};

use crate::calls::*;
use crate::error::Result;
use crate::held::Held;

/// Bytes that were checked once as a value of a type: each part is found without a look at the others. It has a copy of the bytes
/// and shares the schema, which may go first. Threads may share one: calls wait for one another.
///
/// ```
/// # fn main() -> ssz::Result<()> {
/// let schema = ssz::Schema::read(br#"{"ssz":1,"types":[["P",{"container":[["a","uint64"],["b","boolean"]]}]]}"#)?;
/// let data = [7, 0, 0, 0, 0, 0, 0, 0, 1];
/// let opened = schema.find("P")?.open(&data)?;
/// assert_eq!(opened.part("/a")?, 7u64.to_le_bytes());
/// assert_eq!(data[opened.place("/b")?], [1]);
/// # Ok(())
/// # }
/// ```
pub struct Slice {
    held: Mutex<Held>,
}

impl Slice {
    pub(crate) fn of(held: Held) -> Slice {
        Slice { held: Mutex::new(held) }
    }

    /// The encoding of the part at a path. A bit is one byte, a length (`/list/#len`) eight.
    pub fn part(&self, path: &str) -> Result<Vec<u8>> {
        let mut held = self.held.lock().unwrap_or_else(PoisonError::into_inner);
        held.filled(|handle, room, room_len, len, fault| unsafe {
            ssz_slice_part(handle, path.as_ptr(), path.len(), room, room_len, len, fault)
        })
    }

    /// Where the encoding of the part at a path stands in the bytes. [`Error::NoPlace`](crate::Error::NoPlace) of a bit and of a
    /// length.
    pub fn place(&self, path: &str) -> Result<Range<usize>> {
        let mut place = Stretch::default();
        let mut held = self.held.lock().unwrap_or_else(PoisonError::into_inner);
        held.call(|handle, fault| unsafe { ssz_slice_place(handle, path.as_ptr(), path.len(), &mut place, fault) })?;
        Ok(place.range())
    }
}
