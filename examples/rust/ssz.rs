//! SimpleSerialize from Rust, over the static library of crates/ssz_c.

// A program makes some of the calls.
#![allow(dead_code)]

use std::cell::RefCell;

/// Why a call did not do what it was asked.
#[derive(Clone, Copy, Debug, PartialEq, Eq)]
pub struct Error {
    pub status: Status,
    /// Of `Invalid` 1 to 11 for F1 to F11, of `BadSchema` 1 to 15 for S1 to S15, else 0.
    pub code: u32,
    /// The byte, the number of the definition, or that of a session's line.
    pub position: u64,
}

/// The statuses of ssz.h, without `SSZ_OK`.
#[derive(Clone, Copy, Debug, PartialEq, Eq)]
pub enum Status {
    NoHandle,
    NoType,
    TooLong,
    Invalid,
    BadSchema,
    Syntax,
    BadPath,
    Absent,
    BadProof,
    Unlike,
    NoMemory,
    NoRoom,
    Refused,
    NoRead,
    NoWrite,
    Null,
    NoPlace,
    BadJson,
}

const STATUSES: [Status; 18] = [
    Status::NoHandle,
    Status::NoType,
    Status::TooLong,
    Status::Invalid,
    Status::BadSchema,
    Status::Syntax,
    Status::BadPath,
    Status::Absent,
    Status::BadProof,
    Status::Unlike,
    Status::NoMemory,
    Status::NoRoom,
    Status::Refused,
    Status::NoRead,
    Status::NoWrite,
    Status::Null,
    Status::NoPlace,
    Status::BadJson,
];

const NO_ROOM: u32 = 12;

#[repr(C)]
#[derive(Default)]
struct Fault {
    status: u32,
    code: u32,
    position: u64,
}

#[repr(C)]
struct Handle {
    live: u64,
    held: *mut u8,
}

#[repr(C)]
#[derive(Default)]
struct Index {
    low: u64,
    high: u64,
}

unsafe extern "C" {
    fn ssz_schema_read(schema: *mut Handle, at: *const u8, len: usize, fault: *mut Fault) -> u32;
    fn ssz_schema_free(schema: *mut Handle) -> u32;
    fn ssz_type(
        schema: *mut Handle,
        name: *const u8,
        len: usize,
        number: *mut u64,
        fault: *mut Fault,
    ) -> u32;
    fn ssz_check(
        schema: *mut Handle,
        number: u64,
        at: *const u8,
        len: usize,
        fault: *mut Fault,
    ) -> u32;
    fn ssz_root(
        schema: *mut Handle,
        number: u64,
        at: *const u8,
        len: usize,
        root: *mut [u8; 32],
        fault: *mut Fault,
    ) -> u32;
    fn ssz_gindex(
        schema: *mut Handle,
        number: u64,
        path: *const u8,
        len: usize,
        index: *mut Index,
        fault: *mut Fault,
    ) -> u32;
    fn ssz_part(
        schema: *mut Handle,
        number: u64,
        at: *const u8,
        len: usize,
        path: *const u8,
        path_len: usize,
        room: *mut u8,
        room_len: usize,
        part_len: *mut u64,
        fault: *mut Fault,
    ) -> u32;
    fn ssz_names(
        schema: *mut Handle,
        room: *mut u8,
        room_len: usize,
        len: *mut u64,
        fault: *mut Fault,
    ) -> u32;
    fn ssz_slice_open(
        slice: *mut Handle,
        schema: *mut Handle,
        number: u64,
        at: *const u8,
        len: usize,
        fault: *mut Fault,
    ) -> u32;
    fn ssz_slice_part(
        slice: *mut Handle,
        path: *const u8,
        path_len: usize,
        room: *mut u8,
        room_len: usize,
        part_len: *mut u64,
        fault: *mut Fault,
    ) -> u32;
    fn ssz_slice_close(slice: *mut Handle) -> u32;
    fn ssz_verify(root: *const [u8; 32], proof: *const u8, len: usize) -> u32;
    fn ssz_session_start(
        session: *mut Handle,
        schema: *const u8,
        len: usize,
        fault: *mut Fault,
    ) -> u32;
    fn ssz_session_start_on(session: *mut Handle, schema: *mut Handle, fault: *mut Fault) -> u32;
    fn ssz_session_run(
        session: *mut Handle,
        line: *const u8,
        len: usize,
        reply_len: *mut u64,
        fault: *mut Fault,
    ) -> u32;
    fn ssz_session_reply(
        session: *mut Handle,
        room: *mut u8,
        room_len: usize,
        reply_len: *mut u64,
        fault: *mut Fault,
    ) -> u32;
    fn ssz_session_end(session: *mut Handle) -> u32;
}

fn error(status: u32, fault: &Fault) -> Result<(), Error> {
    if status == 0 {
        return Ok(());
    }
    Err(Error {
        status: STATUSES[status as usize - 1],
        code: fault.code,
        position: fault.position,
    })
}

// The bytes that a call copies, with more room where they need more.
fn filled(call: impl Fn(*mut u8, usize, *mut u64, *mut Fault) -> u32) -> Result<Vec<u8>, Error> {
    let (mut room, mut len, mut fault) = (vec![0; 64], 0, Fault::default());
    let mut status = call(room.as_mut_ptr(), room.len(), &mut len, &mut fault);
    if status == NO_ROOM {
        room = vec![0; len as usize];
        status = call(room.as_mut_ptr(), room.len(), &mut len, &mut fault);
    }
    error(status, &fault)?;
    room.truncate(len as usize);
    Ok(room)
}

fn no_handle() -> Box<Handle> {
    Box::new(Handle {
        live: 0,
        held: std::ptr::null_mut(),
    })
}

/// A schema, which is freed with it. The handle is boxed, so that it does not move.
pub struct Schema {
    handle: RefCell<Box<Handle>>,
}

impl Schema {
    /// The schema that the bytes of a schema file define.
    pub fn read(text: &[u8]) -> Result<Schema, Error> {
        let mut handle = no_handle();
        let mut fault = Fault::default();
        let status =
            unsafe { ssz_schema_read(&mut *handle, text.as_ptr(), text.len(), &mut fault) };
        error(status, &fault)?;
        Ok(Schema {
            handle: RefCell::new(handle),
        })
    }

    /// The type of this name.
    pub fn find(&self, name: &str) -> Result<Type<'_>, Error> {
        let mut number = 0;
        self.call(|handle, fault| unsafe {
            ssz_type(handle, name.as_ptr(), name.len(), &mut number, fault)
        })?;
        Ok(Type {
            schema: self,
            number,
        })
    }

    /// The names of all types, the built-in ones too, in byte order and each with a line feed behind
    /// it.
    pub fn names(&self) -> Result<Vec<u8>, Error> {
        filled(|room, room_len, len, fault| unsafe {
            ssz_names(&mut **self.handle.borrow_mut(), room, room_len, len, fault)
        })
    }

    fn call(&self, call: impl FnOnce(*mut Handle, *mut Fault) -> u32) -> Result<(), Error> {
        let mut fault = Fault::default();
        let status = call(&mut **self.handle.borrow_mut(), &mut fault);
        error(status, &fault)
    }
}

impl Drop for Schema {
    fn drop(&mut self) {
        unsafe { ssz_schema_free(&mut **self.handle.borrow_mut()) };
    }
}

/// A type of a schema.
#[derive(Clone, Copy)]
pub struct Type<'s> {
    schema: &'s Schema,
    number: u64,
}

impl Type<'_> {
    /// The first fault of bytes that encode no value of the type, as an error.
    pub fn check(&self, bytes: &[u8]) -> Result<(), Error> {
        self.schema.call(|handle, fault| unsafe {
            ssz_check(handle, self.number, bytes.as_ptr(), bytes.len(), fault)
        })
    }

    /// The hash_tree_root of the value that the bytes encode.
    pub fn root(&self, bytes: &[u8]) -> Result<[u8; 32], Error> {
        let mut root = [0; 32];
        self.schema.call(|handle, fault| unsafe {
            ssz_root(
                handle,
                self.number,
                bytes.as_ptr(),
                bytes.len(),
                &mut root,
                fault,
            )
        })?;
        Ok(root)
    }

    /// The generalized index of the part at a path.
    pub fn gindex(&self, path: &str) -> Result<u128, Error> {
        let mut index = Index::default();
        self.schema.call(|handle, fault| unsafe {
            ssz_gindex(
                handle,
                self.number,
                path.as_ptr(),
                path.len(),
                &mut index,
                fault,
            )
        })?;
        Ok(u128::from(index.high) << 64 | u128::from(index.low))
    }

    /// The bytes, checked once, to ask for many parts.
    pub fn open(&self, bytes: &[u8]) -> Result<Slice, Error> {
        let mut handle = no_handle();
        self.schema.call(|schema, fault| unsafe {
            ssz_slice_open(
                &mut *handle,
                schema,
                self.number,
                bytes.as_ptr(),
                bytes.len(),
                fault,
            )
        })?;
        Ok(Slice {
            handle: RefCell::new(handle),
        })
    }

    /// The encoding of the part at a path of the value that the bytes encode.
    pub fn part(&self, bytes: &[u8], path: &str) -> Result<Vec<u8>, Error> {
        // Room for a slice of the whole, a bit or a length; too little would be NO_ROOM.
        let mut room = vec![0; bytes.len().max(8)];
        let mut len = 0;
        self.schema.call(|handle, fault| unsafe {
            ssz_part(
                handle,
                self.number,
                bytes.as_ptr(),
                bytes.len(),
                path.as_ptr(),
                path.len(),
                room.as_mut_ptr(),
                room.len(),
                &mut len,
                fault,
            )
        })?;
        room.truncate(len as usize);
        Ok(room)
    }
}

/// Bytes that were checked once as a value of a type: a copy of them that shares the schema; freed
/// with it. The handle is boxed, so that it does not move.
pub struct Slice {
    handle: RefCell<Box<Handle>>,
}

impl Slice {
    /// The encoding of the part at a path.
    pub fn part(&self, path: &str) -> Result<Vec<u8>, Error> {
        filled(|room, room_len, len, fault| unsafe {
            let handle = &mut **self.handle.borrow_mut();
            ssz_slice_part(handle, path.as_ptr(), path.len(), room, room_len, len, fault)
        })
    }
}

impl Drop for Slice {
    fn drop(&mut self) {
        unsafe { ssz_slice_close(&mut **self.handle.borrow_mut()) };
    }
}

/// Whether the multiproof that a text says leads to the root.
pub fn verify(root: &[u8; 32], proof: &[u8]) -> Result<bool, Error> {
    let status = unsafe { ssz_verify(root, proof.as_ptr(), proof.len()) };
    match error(status, &Fault::default()) {
        Ok(()) => Ok(true),
        Err(Error {
            status: Status::Unlike,
            ..
        }) => Ok(false),
        Err(why) => Err(why),
    }
}

/// Versions of values under names, edited by statements, one line at a time; freed with it. The
/// handle is boxed, so that it does not move.
pub struct Session {
    handle: Box<Handle>,
    reply_len: u64,
}

impl Session {
    /// A session over the schema that the bytes of a schema file define, with no version.
    pub fn start(schema: &[u8]) -> Result<Session, Error> {
        let mut handle = no_handle();
        let mut fault = Fault::default();
        let status =
            unsafe { ssz_session_start(&mut *handle, schema.as_ptr(), schema.len(), &mut fault) };
        error(status, &fault)?;
        Ok(Session {
            handle,
            reply_len: 0,
        })
    }

    /// A session over a schema, of which it has a copy.
    pub fn start_on(schema: &Schema) -> Result<Session, Error> {
        let mut handle = no_handle();
        schema.call(|schema, fault| unsafe { ssz_session_start_on(&mut *handle, schema, fault) })?;
        Ok(Session {
            handle,
            reply_len: 0,
        })
    }

    /// Does the statement that a line says, without its line feed. `Refused` is a refusal, and
    /// `NoRead` and `NoWrite` that it comes to read or to write a file, which a session does not
    /// have: then no version has changed, and the position is the line's number.
    pub fn run(&mut self, line: &[u8]) -> Result<(), Error> {
        let mut fault = Fault::default();
        let status = unsafe {
            ssz_session_run(
                &mut *self.handle,
                line.as_ptr(),
                line.len(),
                &mut self.reply_len,
                &mut fault,
            )
        };
        error(status, &fault)
    }

    /// The reply to the last line, with its line feed: the line that `ssz run` prints, a refusal
    /// too; or nothing.
    pub fn reply(&mut self) -> Result<Vec<u8>, Error> {
        let mut room = vec![0; self.reply_len as usize];
        let mut fault = Fault::default();
        let status = unsafe {
            ssz_session_reply(
                &mut *self.handle,
                room.as_mut_ptr(),
                room.len(),
                &mut self.reply_len,
                &mut fault,
            )
        };
        error(status, &fault)?;
        Ok(room)
    }
}

impl Drop for Session {
    fn drop(&mut self) {
        unsafe { ssz_session_end(&mut *self.handle) };
    }
}
