//! An ordered map from byte strings to byte strings that lives in fixed buffers
//! and allocates nothing to keep its pairs. The calls are those of the archive
//! `libexports.a`, written in Rattle and proved: on any buffers they end, and
//! refuse or give the answers of an ordered map.
//!
//! ```
//! use olybzhan::{Error, Index};
//!
//! // At most 3 - 1 pairs a leaf, 4 leaves, 64 bytes.
//! let mut index = Index::new(3, 4, 64)?;
//! assert_eq!(index.insert(b"a", b"1")?, None);
//! assert_eq!(index.insert(b"b", b"2")?, None);
//! assert_eq!(index.insert(b"b", b"3")?, Some(b"2".to_vec()));
//! assert_eq!(index.get(b"b")?, Some(&b"3"[..]));
//! assert_eq!(index.len()?, 2);
//!
//! let pairs: Result<Vec<_>, _> = index.range(&b"a"[..]..&b"b"[..]).collect();
//! assert_eq!(pairs?, [(b"a".to_vec(), &b"1"[..])]);
//! # Ok::<(), Error>(())
//! ```
//!
//! # Sizes
//!
//! An index has as many leaves and bytes as it was made with, and refuses an
//! insert that needs more. Where no insert has a key over K bytes, a value over V
//! or leaves more than P pairs, P + 1 leaves and P × (2K + V) bytes are enough: no
//! such insert is refused as [`Error::NoLeaf`] or [`Error::NoRoom`].
//!
//! # Errors
//!
//! Every call gives a `Result`, since every call tests the buffers first and
//! refuses damaged ones. This test reads the whole index: a call takes a time that
//! grows with the number of pairs.
//!
//! # Linking
//!
//! The archive is for x86-64. `tools/build archive` writes it to
//! `target/staticlib` of the repository, where this package looks for it;
//! `OLYBZHAN_ARCHIVE` names another folder.

#![no_std]
#![deny(missing_docs, unsafe_code)]

extern crate alloc;

mod buffers;
#[allow(unsafe_code)]
mod calls;
mod error;
// The three functions that are lent the header only the oracle and the benchmark call.
#[allow(dead_code, unsafe_code)]
mod ffi;
mod index;
mod range;

pub use buffers::{Buffers, Header, Lent, Owned};
pub use error::Error;
pub use index::{Index, Leaf, Pair};
pub use range::Range;

/// The longest key, prefix or bound key.
pub const KEY_LIMIT: usize = 512;
/// The longest value.
pub const VALUE_LIMIT: usize = 65_535;
/// The fanouts that an index may have. A leaf holds at most one pair less.
pub const FANOUTS: core::ops::RangeInclusive<usize> = 3..=64;
/// The numbers of leaves that an index may have.
pub const POOLS: core::ops::RangeInclusive<usize> = 1..=4_096;
/// The longest arena: the bytes of all pairs.
pub const ARENA_LIMIT: usize = 1_048_576;
