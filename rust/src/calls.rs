//! The calls of include/ssz.h. A slice's or a text's pointer is never null, not even of an empty one.

use std::ops::Range;

use crate::held::size;

#[repr(C)]
#[derive(Default)]
pub struct Fault {
    pub status: u32,
    pub code: u32,
    pub position: u64,
}

#[repr(C)]
pub struct Handle {
    live: u64,
    held: *mut u8,
}

impl Handle {
    pub fn none() -> Box<Handle> {
        Box::new(Handle { live: 0, held: std::ptr::null_mut() })
    }
}

#[repr(C)]
#[derive(Clone, Copy, Default)]
pub struct Index {
    pub low: u64,
    pub high: u64,
}

impl Index {
    pub fn of(number: u128) -> Index {
        Index { low: number as u64, high: (number >> 64) as u64 }
    }

    pub fn number(self) -> u128 {
        u128::from(self.high) << 64 | u128::from(self.low)
    }
}

/// A chunk of a proof, and its generalized index.
#[repr(C)]
#[derive(Clone, Copy, Default)]
pub struct Entry {
    pub index: Index,
    pub chunk: [u8; 32],
}

/// Where the encoding of a part stands in that of the whole.
#[repr(C)]
#[derive(Default)]
pub struct Stretch {
    pub start: u64,
    pub len: u64,
}

impl Stretch {
    pub fn range(&self) -> Range<usize> {
        size(self.start)..size(self.start.saturating_add(self.len))
    }
}

type Bytes = *const u8;
type Room = *mut u8;

extern "C" {
    pub fn ssz_schema_read(schema: *mut Handle, text: Bytes, len: usize, fault: *mut Fault) -> u32;
    pub fn ssz_schema_share(schema: *mut Handle, other: *mut Handle, fault: *mut Fault) -> u32;
    pub fn ssz_schema_free(schema: *mut Handle) -> u32;
    pub fn ssz_type(schema: *mut Handle, name: Bytes, len: usize, number: *mut u64, fault: *mut Fault) -> u32;
    pub fn ssz_check(schema: *mut Handle, number: u64, data: Bytes, len: usize, fault: *mut Fault) -> u32;
    pub fn ssz_root(schema: *mut Handle, number: u64, data: Bytes, len: usize, root: *mut [u8; 32], fault: *mut Fault) -> u32;
    pub fn ssz_gindex(schema: *mut Handle, number: u64, path: Bytes, len: usize, index: *mut Index, fault: *mut Fault) -> u32;
    pub fn ssz_part(
        schema: *mut Handle, number: u64, data: Bytes, len: usize, path: Bytes, path_len: usize, room: Room, room_len: usize,
        part_len: *mut u64, fault: *mut Fault,
    ) -> u32;
    pub fn ssz_place(
        schema: *mut Handle, number: u64, data: Bytes, len: usize, path: Bytes, path_len: usize, place: *mut Stretch, fault: *mut Fault,
    ) -> u32;
    pub fn ssz_size(schema: *mut Handle, number: u64, size: *mut u64, fault: *mut Fault) -> u32;
    pub fn ssz_fields(schema: *mut Handle, number: u64, count: *mut u64, fault: *mut Fault) -> u32;
    pub fn ssz_field(schema: *mut Handle, number: u64, place: u64, room: Room, room_len: usize, len: *mut u64, fault: *mut Fault) -> u32;
    pub fn ssz_form(schema: *mut Handle, number: u64, form: *mut u32, fault: *mut Fault) -> u32;
    pub fn ssz_limit(schema: *mut Handle, number: u64, limit: *mut u64, fault: *mut Fault) -> u32;
    pub fn ssz_parts(schema: *mut Handle, number: u64, count: *mut u64, fault: *mut Fault) -> u32;
    pub fn ssz_part_type(schema: *mut Handle, number: u64, place: u64, part: *mut u64, fault: *mut Fault) -> u32;
    pub fn ssz_names(schema: *mut Handle, room: Room, room_len: usize, len: *mut u64, fault: *mut Fault) -> u32;
    pub fn ssz_type_name(schema: *mut Handle, number: u64, room: Room, room_len: usize, len: *mut u64, fault: *mut Fault) -> u32;
    pub fn ssz_types(schema: *mut Handle, count: *mut u64, fault: *mut Fault) -> u32;
    pub fn ssz_slice_open(slice: *mut Handle, schema: *mut Handle, number: u64, data: Bytes, len: usize, fault: *mut Fault) -> u32;
    pub fn ssz_slice_part(
        slice: *mut Handle, path: Bytes, len: usize, room: Room, room_len: usize, part_len: *mut u64, fault: *mut Fault,
    ) -> u32;
    pub fn ssz_slice_place(slice: *mut Handle, path: Bytes, len: usize, place: *mut Stretch, fault: *mut Fault) -> u32;
    pub fn ssz_slice_close(slice: *mut Handle) -> u32;
    pub fn ssz_verify(root: *const [u8; 32], line: Bytes, len: usize) -> u32;
    pub fn ssz_verify_all(root: *const [u8; 32], leaves: *const Entry, leaves_len: usize, nodes: *const Entry, nodes_len: usize) -> u32;
    pub fn ssz_session_start_on(session: *mut Handle, schema: *mut Handle, fault: *mut Fault) -> u32;
    pub fn ssz_session_end(session: *mut Handle) -> u32;
    pub fn ssz_session_run(session: *mut Handle, line: Bytes, len: usize, reply_len: *mut u64, fault: *mut Fault) -> u32;
    pub fn ssz_session_reply(session: *mut Handle, room: Room, room_len: usize, reply_len: *mut u64, fault: *mut Fault) -> u32;
    pub fn ssz_session_new(session: *mut Handle, name: Bytes, len: usize, kind: Bytes, kind_len: usize, fault: *mut Fault) -> u32;
    pub fn ssz_session_load(
        session: *mut Handle, name: Bytes, len: usize, kind: Bytes, kind_len: usize, data: Bytes, data_len: usize, fault: *mut Fault,
    ) -> u32;
    pub fn ssz_session_bytes(
        session: *mut Handle, name: Bytes, len: usize, path: Bytes, path_len: usize, room: Room, room_len: usize, part_len: *mut u64,
        fault: *mut Fault,
    ) -> u32;
    pub fn ssz_session_len(
        session: *mut Handle, name: Bytes, len: usize, path: Bytes, path_len: usize, count: *mut u64, fault: *mut Fault,
    ) -> u32;
    pub fn ssz_session_set(
        session: *mut Handle, name: Bytes, len: usize, path: Bytes, path_len: usize, data: Bytes, data_len: usize, fault: *mut Fault,
    ) -> u32;
    pub fn ssz_session_append(
        session: *mut Handle, name: Bytes, len: usize, path: Bytes, path_len: usize, data: Bytes, data_len: usize, fault: *mut Fault,
    ) -> u32;
    pub fn ssz_session_pop(session: *mut Handle, name: Bytes, len: usize, path: Bytes, path_len: usize, fault: *mut Fault) -> u32;
    pub fn ssz_session_choose(
        session: *mut Handle, name: Bytes, len: usize, path: Bytes, path_len: usize, selector: u8, data: Bytes, data_len: usize,
        fault: *mut Fault,
    ) -> u32;
    pub fn ssz_session_fork(session: *mut Handle, name: Bytes, len: usize, other: Bytes, other_len: usize, fault: *mut Fault) -> u32;
    pub fn ssz_session_upgrade(
        session: *mut Handle, name: Bytes, len: usize, other: Bytes, other_len: usize, kind: Bytes, kind_len: usize, fault: *mut Fault,
    ) -> u32;
    pub fn ssz_session_drop(session: *mut Handle, name: Bytes, len: usize, fault: *mut Fault) -> u32;
    pub fn ssz_session_root(session: *mut Handle, name: Bytes, len: usize, root: *mut [u8; 32], fault: *mut Fault) -> u32;
    pub fn ssz_session_gindex(
        session: *mut Handle, kind: Bytes, kind_len: usize, path: Bytes, path_len: usize, index: *mut Index, fault: *mut Fault,
    ) -> u32;
    pub fn ssz_session_prove_all(
        session: *mut Handle, name: Bytes, len: usize, indices: *const Index, indices_len: usize, room: *mut Entry, room_len: usize,
        leaves: *mut u64, proof_len: *mut u64, fault: *mut Fault,
    ) -> u32;
    pub fn ssz_session_compact(session: *mut Handle, fault: *mut Fault) -> u32;
    pub fn ssz_session_nodes(session: *mut Handle, count: *mut u64, fault: *mut Fault) -> u32;
}
