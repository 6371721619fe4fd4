use crate::calls::{Fault, Handle};
use crate::error::{ended, Error, Result, NO_ROOM};

/// Room on the stack for an answer: nearly all fit in it, so that one call does.
const ROOM: usize = 512;

/// What a handle holds; boxed, so that it does not move.
pub(crate) struct Held {
    handle: Box<Handle>,
    end: unsafe extern "C" fn(*mut Handle) -> u32,
}

// A handle is used by one thread at a time, and may be by any: ssz.h.
unsafe impl Send for Held {}

impl Held {
    pub fn begun(begin: impl FnOnce(*mut Handle, *mut Fault) -> u32, end: unsafe extern "C" fn(*mut Handle) -> u32) -> Result<Held> {
        let mut held = Held { handle: Handle::none(), end };
        held.call(begin)?;
        Ok(held)
    }

    pub fn call(&mut self, call: impl FnOnce(*mut Handle, *mut Fault) -> u32) -> Result<()> {
        let mut fault = Fault::default();
        let status = call(&mut *self.handle, &mut fault);
        ended(status, &fault)
    }

    /// Makes a call for which room may be too little; whether it was enough.
    pub fn fits(&mut self, call: impl FnOnce(*mut Handle, *mut Fault) -> u32) -> Result<bool> {
        let mut fault = Fault::default();
        match call(&mut *self.handle, &mut fault) {
            NO_ROOM => Ok(false),
            status => ended(status, &fault).map(|()| true),
        }
    }

    /// The bytes that a call copies to room, in a vector of their size. Nobody changes them between its two calls: `self` is borrowed.
    pub fn filled(&mut self, call: impl Fn(*mut Handle, *mut u8, usize, *mut u64, *mut Fault) -> u32) -> Result<Vec<u8>> {
        let (mut room, mut len) = ([0; ROOM], 0);
        if self.fits(|handle, fault| call(handle, room.as_mut_ptr(), ROOM, &mut len, fault))? {
            return copied(room.get(..size(len)).unwrap_or_default());
        }
        self.filled_to(len, call)
    }

    /// The bytes, so many, that a call copies to room.
    pub fn filled_to(&mut self, len: u64, call: impl Fn(*mut Handle, *mut u8, usize, *mut u64, *mut Fault) -> u32) -> Result<Vec<u8>> {
        let (mut room, mut len) = (room_of(size(len))?, len);
        self.call(|handle, fault| call(handle, room.as_mut_ptr(), room.capacity(), &mut len, fault))?;
        // SAFETY: a call that is done has written so many bytes, and never more than the room has.
        unsafe { room.set_len(size(len).min(room.capacity())) };
        Ok(room)
    }

    pub fn as_lent(&mut self) -> *mut Handle {
        &mut *self.handle
    }
}

impl Drop for Held {
    fn drop(&mut self) {
        unsafe { (self.end)(&mut *self.handle) };
    }
}

/// An empty vector with room for so many items and no more.
pub(crate) fn room_of<T>(len: usize) -> Result<Vec<T>> {
    let mut room = Vec::new();
    room.try_reserve_exact(len).map_err(|_| Error::NoMemory)?;
    Ok(room)
}

/// A copy of bytes, of their size.
pub(crate) fn copied(bytes: &[u8]) -> Result<Vec<u8>> {
    let mut copy = room_of(bytes.len())?;
    copy.extend_from_slice(bytes);
    Ok(copy)
}

/// A text of the library, which is ASCII.
pub(crate) fn text_of(bytes: Vec<u8>) -> String {
    String::from_utf8(bytes).unwrap_or_else(|error| String::from_utf8_lossy(error.as_bytes()).into_owned())
}

/// A number of bytes or items as Rust has it.
pub(crate) fn size(len: u64) -> usize {
    usize::try_from(len).unwrap_or(usize::MAX)
}
