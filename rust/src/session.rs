use std::collections::BTreeMap;

use crate::calls::*;
use crate::error::{Error, Result};
use crate::held::{room_of, size, text_of, Held};
use crate::proof::Proof;
use crate::schema::Schema;

/// Entries for which a first proof has room for each index that is asked for, and for all of them.
const ENTRIES_EACH: usize = 64;
const ENTRIES: usize = 1024;

/// Versions of values under names, which are edited in place and share what is equal.
///
/// A name has letters, digits and `_`, and no digit first. A path leads to a part: `/` is the whole, `/validators/7/slashed` a
/// field of an element. What is refused is an error, and no version has changed.
///
/// ```
/// # fn main() -> ssz::Result<()> {
/// let schema = ssz::Schema::read(br#"{"ssz":1,"types":[["P",{"container":[["a","uint64"],["b","boolean"]]}]]}"#)?;
/// let mut session = ssz::Session::start(&schema)?;
/// session.load("V", "P", &[7, 0, 0, 0, 0, 0, 0, 0, 1])?;
/// session.fork("V", "W")?;
/// session.set("W", "/a", &9u64.to_le_bytes())?;
/// assert_eq!(session.get("V", "/a")?, 7u64.to_le_bytes());
/// let root = session.root("W")?;
/// assert!(session.prove("W", &["/a"])?.verify(&root)?);
/// # Ok(())
/// # }
/// ```
pub struct Session {
    held: Held,
    /// The name of each version's type.
    kinds: BTreeMap<String, String>,
}

impl Session {
    /// A session over a schema, with no version. It has a copy of the schema.
    pub fn start(schema: &Schema) -> Result<Session> {
        let start = |handle, schema, fault| unsafe { ssz_session_start_on(handle, schema, fault) };
        Ok(Session { held: schema.begin(start, ssz_session_end)?, kinds: BTreeMap::new() })
    }

    /// Makes a version: the default of a type.
    pub fn new_default(&mut self, name: &str, kind: &str) -> Result<()> {
        self.held.call(|handle, fault| unsafe { ssz_session_new(handle, name.as_ptr(), name.len(), kind.as_ptr(), kind.len(), fault) })?;
        self.has_kind(name, kind);
        Ok(())
    }

    /// Makes a version of a type: the value that the bytes encode.
    pub fn load(&mut self, name: &str, kind: &str, data: &[u8]) -> Result<()> {
        self.held.call(|handle, fault| unsafe {
            ssz_session_load(handle, name.as_ptr(), name.len(), kind.as_ptr(), kind.len(), data.as_ptr(), data.len(), fault)
        })?;
        self.has_kind(name, kind);
        Ok(())
    }

    /// The encoding of the part at a path.
    pub fn get(&mut self, name: &str, path: &str) -> Result<Vec<u8>> {
        self.held.filled(|handle, room, room_len, len, fault| unsafe {
            ssz_session_bytes(handle, name.as_ptr(), name.len(), path.as_ptr(), path.len(), room, room_len, len, fault)
        })
    }

    /// Makes the part at a path the value that the bytes encode; also a whole list, which is far cheaper than element by element
    /// where many change.
    pub fn set(&mut self, name: &str, path: &str, data: &[u8]) -> Result<()> {
        self.held.call(|handle, fault| unsafe {
            ssz_session_set(handle, name.as_ptr(), name.len(), path.as_ptr(), path.len(), data.as_ptr(), data.len(), fault)
        })
    }

    /// Puts an element after the last one of the list at a path.
    pub fn append(&mut self, name: &str, path: &str, data: &[u8]) -> Result<()> {
        self.held.call(|handle, fault| unsafe {
            ssz_session_append(handle, name.as_ptr(), name.len(), path.as_ptr(), path.len(), data.as_ptr(), data.len(), fault)
        })
    }

    /// Takes the last element of the list at a path away.
    pub fn pop(&mut self, name: &str, path: &str) -> Result<()> {
        self.held.call(|handle, fault| unsafe { ssz_session_pop(handle, name.as_ptr(), name.len(), path.as_ptr(), path.len(), fault) })
    }

    /// Gives the union at a path the option of this selector, with the value that the bytes encode.
    pub fn choose(&mut self, name: &str, path: &str, selector: u8, data: &[u8]) -> Result<()> {
        self.held.call(|handle, fault| unsafe {
            ssz_session_choose(handle, name.as_ptr(), name.len(), path.as_ptr(), path.len(), selector, data.as_ptr(), data.len(), fault)
        })
    }

    /// Gives another name the value of a version: the same nodes, at no cost.
    pub fn fork(&mut self, name: &str, other: &str) -> Result<()> {
        self.held.call(|handle, fault| unsafe {
            ssz_session_fork(handle, name.as_ptr(), name.len(), other.as_ptr(), other.len(), fault)
        })?;
        self.has_kind_of(other, name);
        Ok(())
    }

    /// Gives another name a value of a container type, with the fields that a version has too and the defaults of the others.
    pub fn upgrade(&mut self, name: &str, other: &str, kind: &str) -> Result<()> {
        self.held.call(|handle, fault| unsafe {
            ssz_session_upgrade(handle, name.as_ptr(), name.len(), other.as_ptr(), other.len(), kind.as_ptr(), kind.len(), fault)
        })?;
        self.has_kind(other, kind);
        Ok(())
    }

    /// Gives a version up. Its nodes stay until [`compact`](Session::compact).
    pub fn forget(&mut self, name: &str) -> Result<()> {
        self.held.call(|handle, fault| unsafe { ssz_session_drop(handle, name.as_ptr(), name.len(), fault) })?;
        self.kinds.remove(name);
        Ok(())
    }

    /// Gives up the nodes that no version needs.
    pub fn compact(&mut self) -> Result<()> {
        self.held.call(|handle, fault| unsafe { ssz_session_compact(handle, fault) })
    }

    /// How many nodes there are, with those that no version needs any more: a measure of when to compact.
    pub fn nodes(&mut self) -> Result<u64> {
        let mut count = 0;
        self.held.call(|handle, fault| unsafe { ssz_session_nodes(handle, &mut count, fault) })?;
        Ok(count)
    }

    /// The hash_tree_root of a version. What is hashed is kept.
    pub fn root(&mut self, name: &str) -> Result<[u8; 32]> {
        let mut root = [0; 32];
        self.held.call(|handle, fault| unsafe { ssz_session_root(handle, name.as_ptr(), name.len(), &mut root, fault) })?;
        Ok(root)
    }

    /// How many elements or bits the part at a path has.
    pub fn len(&mut self, name: &str, path: &str) -> Result<u64> {
        let mut count = 0;
        self.held.call(|handle, fault| unsafe {
            ssz_session_len(handle, name.as_ptr(), name.len(), path.as_ptr(), path.len(), &mut count, fault)
        })?;
        Ok(count)
    }

    /// The multiproof of the parts at paths, or at generalized indices as decimal numbers. Each word is one path or one number; what is
    /// neither is [`Error::Syntax`].
    pub fn prove(&mut self, name: &str, paths: &[&str]) -> Result<Proof> {
        let indices: Result<Vec<u128>> = paths.iter().map(|path| self.index_of(name, path)).collect();
        self.prove_at(name, &indices?)
    }

    /// The generalized index that a word says: a path or a number.
    fn index_of(&mut self, name: &str, word: &str) -> Result<u128> {
        match number(word) {
            Some(index) => Ok(index),
            None => self.gindex_of(name, word),
        }
    }

    /// The generalized index of a path in a version.
    fn gindex_of(&mut self, name: &str, path: &str) -> Result<u128> {
        let kind = match self.kinds.get(name) {
            Some(kind) => kind,
            // no such version, or no name: the library says which
            None => return self.prove_at(name, &[1]).and(Err(Error::NoType)),
        };
        let mut index = Index::default();
        self.held.call(|handle, fault| unsafe {
            ssz_session_gindex(handle, kind.as_ptr(), kind.len(), path.as_ptr(), path.len(), &mut index, fault)
        })?;
        Ok(index.number())
    }

    /// The multiproof of the nodes at generalized indices.
    pub fn prove_at(&mut self, name: &str, indices: &[u128]) -> Result<Proof> {
        let indices: Vec<Index> = indices.iter().copied().map(Index::of).collect();
        let (mut leaves, mut len) = (0, 0);
        let mut room: Vec<Entry> = room_of(indices.len().saturating_mul(ENTRIES_EACH).min(ENTRIES))?;
        let mut prove = |room: &mut Vec<Entry>, len: &mut u64| {
            self.held.fits(|handle, fault| unsafe {
                ssz_session_prove_all(
                    handle, name.as_ptr(), name.len(), indices.as_ptr(), indices.len(), room.as_mut_ptr(), room.capacity(), &mut leaves,
                    len, fault,
                )
            })
        };
        while !prove(&mut room, &mut len)? {
            room = room_of(size(len))?;
        }
        // SAFETY: a call that is done has written so many entries, and never more than the room has.
        unsafe { room.set_len(size(len).min(room.capacity())) };
        let (leaves, nodes) = room.split_at(size(leaves).min(room.len()));
        Ok(Proof::of_entries(leaves, nodes))
    }

    /// Does the statement that a line says (docs/formats.md), and returns the reply that `ssz run` prints, with its line feed. A
    /// refusal is an error.
    pub fn run(&mut self, line: &str) -> Result<String> {
        let mut len = 0;
        let ended = self.held.call(|handle, fault| unsafe { ssz_session_run(handle, line.as_ptr(), line.len(), &mut len, fault) });
        match ended {
            Err(Error::Refused { .. }) => Err(refusal(&self.reply(len)?)),
            Err(why) => Err(why),
            Ok(()) => {
                self.follow(line);
                self.reply(len)
            }
        }
    }

    fn reply(&mut self, len: u64) -> Result<String> {
        let reply = self.held.filled_to(len, |handle, room, room_len, len, fault| unsafe {
            ssz_session_reply(handle, room, room_len, len, fault)
        });
        reply.map(text_of)
    }

    /// Keeps the types of versions after a line that was done.
    fn follow(&mut self, line: &str) {
        let words: Vec<&str> = line.split_ascii_whitespace().take(4).collect();
        match *words.as_slice() {
            ["new" | "lit", name, kind, ..] => self.has_kind(name, kind),
            ["fork", name, other] => self.has_kind_of(other, name),
            ["upgrade", _, other, kind] => self.has_kind(other, kind),
            ["drop", name] => drop(self.kinds.remove(name)),
            _ => (),
        }
    }

    fn has_kind(&mut self, name: &str, kind: &str) {
        self.kinds.insert(name.to_owned(), kind.to_owned());
    }

    fn has_kind_of(&mut self, name: &str, other: &str) {
        if let Some(kind) = self.kinds.get(other).cloned() {
            self.kinds.insert(name.to_owned(), kind);
        }
    }
}

/// The number that decimal digits without leading zeros say.
fn number(word: &str) -> Option<u128> {
    let is_number = word.bytes().all(|byte| byte.is_ascii_digit()) && (word == "0" || !word.starts_with('0'));
    word.parse().ok().filter(|_| is_number)
}

/// The error that a refusal says: `refused LINE CODE NAME`, of bytes with their first fault.
fn refusal(reply: &str) -> Error {
    let words: Vec<&str> = reply.split_whitespace().collect();
    let number = |word: usize| words.get(word).and_then(|word| word.trim_start_matches('F').parse().ok());
    match (number(4), number(5)) {
        (Some(code), Some(position)) if words.get(3) == Some(&"BadLiteral") => Error::Invalid { code: code as u32, position },
        _ => Error::Refused { code: number(2).unwrap_or(0) as u32 },
    }
}
