//! SimpleSerialize (SSZ), the encoding and the hash tree of Ethereum's consensus layer, over a library each function of which is
//! proved.
//!
//! - [`Schema`] reads the types of a schema file, and [`Type`] tells what it is ([`Form`]), and what holds of bytes: `check`, `root`,
//!   `gindex`, `part`.
//! - [`Slice`] is bytes that were checked once, of which many parts are asked.
//! - [`Session`] edits values in place, keeps versions that share what is equal, and hashes what no root before did.
//! - [`Proof`] is a multiproof, to and from a branch as light clients have it.
//!
//! ```
//! # fn main() -> ssz::Result<()> {
//! let schema = ssz::Schema::read(br#"{"ssz":1,"types":[["P",{"container":[["a","uint64"],["b","uint64"]]}]]}"#)?;
//! let pair = schema.find("P")?;
//! let root = pair.root(&[0; 16])?;
//! assert_eq!(root[..4], [0xf5, 0xa5, 0xfd, 0x42]);
//! let error = pair.check(&[0; 15]).unwrap_err();
//! assert_eq!(error, ssz::Error::Invalid { code: 1, position: 0 });
//! # Ok(())
//! # }
//! ```

#![warn(missing_docs)]
// Nothing that a peer sends may end the process.
#![deny(clippy::unwrap_used, clippy::expect_used, clippy::panic, clippy::unreachable, clippy::todo, clippy::unimplemented)]
#![deny(clippy::indexing_slicing, clippy::string_slice, clippy::arithmetic_side_effects)]

#[allow(missing_docs)]
mod calls;
mod error;
mod held;
mod proof;
mod schema;
mod session;
mod slice;

pub use error::{Error, Result};
pub use proof::Proof;
pub use schema::{Form, Schema, Type};
pub use session::Session;
pub use slice::Slice;
