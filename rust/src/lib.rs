//! Fluent text (FTL), read and written with proof: a safe wrapper of the static library of crate exports.
//!
//! A [`Reader`] owns the memory that a reading needs and keeps it for the next one. A [`Reading`] borrows the reader and the source,
//! and shows what was read as [`Mark`]s, as [`Node`]s and as [`Error`]s. [`Entries`] reads entry by entry. A [`Writer`] gives the normal
//! text. What is refused is a [`Refusal`].
//!
//! ```
//! use bevelumber::{Kind, Reader, Writer};
//!
//! let mut reader = Reader::new();
//! let reading = reader.read(b"hello = Hello, { $name }!\nbroken\n").unwrap();
//!
//! let message = reading.nodes().next().unwrap();
//! assert_eq!(message.kind(), Kind::Message);
//! let identifier = message.children().next().unwrap();
//! assert_eq!(identifier.text(), Some("hello"));
//!
//! let error = reading.errors().next().unwrap();
//! assert_eq!(error.to_string(), "Expected a token starting with \"=\"");
//! assert_eq!(&reading.source()[error.junk()], "broken\n");
//!
//! assert_eq!(Writer::new().write(reading.tree(), false), "hello = Hello, { $name }!\n");
//! ```
//!
//! Words of the project's docs/CALLS.md: an offset is in bytes from 0, L is the source's length, a mark opens or closes a node.
#![warn(missing_docs)]

mod entries;
mod errors;
mod ffi;
mod marks;
mod reader;
mod refusal;
mod writer;

pub use entries::Entries;
pub use errors::{Error, ErrorKind};
pub use marks::{Kind, Mark, Node, Nodes, Tree};
pub use reader::{Reader, Reading};
pub use refusal::Refusal;
pub use writer::Writer;

/// The longest source, in bytes.
pub const MAX_LENGTH: usize = 1_000_000;

/// How many '{' and '(' may be open at one time.
pub const MAX_OPEN: usize = 64;
