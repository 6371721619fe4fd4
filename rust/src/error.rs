use std::fmt;

use crate::calls::Fault;

/// Why a call did not do what it was asked. Nothing has changed then.
#[derive(Clone, Copy, Debug, PartialEq, Eq)]
#[non_exhaustive]
pub enum Error {
    /// The schema has no type of this name.
    NoType,
    /// A value of 2^32 bytes or more, or a path or a proof of more than 2^26.
    TooLong,
    /// The bytes encode no value of the type: the first fault, and the byte where it lies.
    Invalid {
        /// 1 to 11 for F1 to F11 of docs/formats.md.
        code: u32,
        /// The byte, counted from 0.
        position: u64,
    },
    /// The text is no schema.
    BadSchema {
        /// 1 to 15 for S1 to S15 of docs/formats.md.
        code: u32,
        /// The number of the definition, counted from 0.
        definition: u64,
    },
    /// The text spells no path and no index, or the name is none.
    Syntax,
    /// The path does not fit the type.
    BadPath,
    /// The path fits the type, and the value has no such part.
    Absent,
    /// The part is a bit or a length, which has no bytes of its own.
    NoPlace,
    /// The text, or the leaves and nodes, are no multiproof.
    BadProof,
    /// The proof has more leaves than one, and a branch has one.
    NoBranch,
    /// Out of memory.
    NoMemory,
    /// A session refused the call.
    Refused {
        /// 1 to 18, as in docs/formats.md.
        code: u32,
    },
    /// The statement reads or writes a file, and a session has none.
    NoFile,
    /// An answer that this version of the crate does not know.
    Other {
        /// The number of ssz.h.
        status: u32,
    },
}

/// What a call returns.
pub type Result<T> = std::result::Result<T, Error>;

impl Error {
    /// The name of the fault or the refusal in docs/formats.md, as `Short` or `NoVersion`; empty where it has none.
    pub fn name(&self) -> &'static str {
        match self {
            Error::Invalid { code, .. } => entry(FAULTS, *code).0,
            Error::Refused { code } => entry(REFUSALS, *code).0,
            _ => "",
        }
    }
}

pub(crate) const UNLIKE: u32 = 10;
pub(crate) const NO_ROOM: u32 = 12;
const REFUSED: u32 = 13;

/// Whether a call with this status did what it was asked, or why not.
pub(crate) fn ended(status: u32, fault: &Fault) -> Result<()> {
    Err(match status {
        0 => return Ok(()),
        2 => Error::NoType,
        3 => Error::TooLong,
        4 => Error::Invalid { code: fault.code, position: fault.position },
        5 => Error::BadSchema { code: fault.code, definition: fault.position },
        6 => Error::Syntax,
        7 => Error::BadPath,
        8 => Error::Absent,
        9 => Error::BadProof,
        11 => Error::NoMemory,
        REFUSED => Error::Refused { code: fault.code },
        14 | 15 => Error::NoFile,
        17 => Error::NoPlace,
        status => Error::Other { status },
    })
}

const FAULTS: &[(&str, &str)] = &[
    ("Short", "the bytes end too soon; they may be cut off, or of a shorter type"),
    ("Extra", "bytes follow the end of the value; they may be of a longer type"),
    ("BadBool", "a boolean is one byte, 00 or 01, and here stands another one"),
    ("FirstOffset", "the first offset does not lead to where the variable parts begin; compare the fields with the type"),
    ("OffsetRange", "an offset leads past the end of the bytes, which may be cut off"),
    ("OffsetOrder", "an offset is below the one before it"),
    ("Ragged", "a list's bytes are no whole number of elements"),
    ("TooMany", "a list has more elements or bits than its limit, which may be another preset's"),
    ("PaddingBits", "a bit after the last one of a bitvector is 1"),
    ("NoDelimiter", "a bitlist lacks the 1 that marks its end"),
    ("BadSelector", "a union's first byte is no option's number"),
];

const REFUSALS: &[(&str, &str)] = &[
    ("Syntax", "the line is no statement"),
    ("NoType", "the schema has no type of this name; case counts"),
    ("NoVersion", "the session has no version of this name"),
    ("NameTaken", "the session has a version of this name; take another one, or drop it first"),
    ("BadPath", "the path does not fit the type; fields have names, and elements numbers from 0"),
    ("Absent", "the value has no such part; ask for the length first"),
    ("NotThat", "the part is of another kind than this call is for"),
    ("Full", "the list has as many elements as its limit"),
    ("Empty", "the list is empty"),
    ("BadSelector", "the union has no option of this number"),
    ("BadLiteral", "the bytes encode no value of the type"),
    ("TooLong", "the encoding has 2^32 bytes or more"),
    ("NoNode", "the tree has no node at this index"),
    ("Nested", "one of the two parts is in the other; prove the outer one alone"),
    ("NotHere", "the statement has no place here"),
    ("NotContainer", "the version or the type is no container"),
    ("Blind", "the proof does not know this node"),
    ("BadJson", "the text is not the JSON of a value"),
];

fn entry(table: &'static [(&'static str, &'static str)], code: u32) -> (&'static str, &'static str) {
    let place = (code as usize).wrapping_sub(1);
    table.get(place).copied().unwrap_or(("", "of a kind that this version of the crate does not know"))
}

impl fmt::Display for Error {
    fn fmt(&self, to: &mut fmt::Formatter<'_>) -> fmt::Result {
        match self {
            Error::NoType => write!(to, "the schema has no type of this name; case counts"),
            Error::TooLong => write!(to, "this is too long: a value has less than 2^32 bytes, a path or a proof at most 2^26"),
            Error::Invalid { code, position } => {
                let (name, what) = entry(FAULTS, *code);
                write!(to, "no value of the type (F{code} {name}, at byte {position}): {what}")
            }
            Error::BadSchema { code, definition } => write!(to, "no schema (S{code}, definition {definition} counted from 0)"),
            Error::Syntax => write!(to, "no path or no name: a path begins with /, as /validators/7/slashed"),
            Error::BadPath => write!(to, "the path does not fit the type"),
            Error::Absent => write!(to, "the value has no such part: ask for the length first"),
            Error::NoPlace => write!(to, "the part is a bit or a length, which has no bytes of its own"),
            Error::BadProof => write!(to, "this is no multiproof: one line, with exactly the nodes that the leaves need"),
            Error::NoBranch => write!(to, "the proof has more leaves than one, and a branch has one"),
            Error::NoMemory => write!(to, "out of memory"),
            Error::Refused { code } => {
                let (name, what) = entry(REFUSALS, *code);
                write!(to, "refused ({code} {name}): {what}")
            }
            Error::NoFile => write!(to, "a session reads and writes no files"),
            Error::Other { status } => write!(to, "status {status} of ssz.h"),
        }
    }
}

impl std::error::Error for Error {}
