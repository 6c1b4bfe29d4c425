//! One call of document 01 with what is lent to it.

use crate::words::hex;
use reference::range::Range;
use std::fmt;
use std::ops::Deref;

/// A byte string, shown as the script writes it.
#[derive(Clone)]
pub struct Bytes(pub Vec<u8>);

impl Deref for Bytes {
    type Target = [u8];

    fn deref(&self) -> &[u8] {
        &self.0
    }
}

impl fmt::Debug for Bytes {
    fn fmt(&self, out: &mut fmt::Formatter<'_>) -> fmt::Result {
        out.write_str(&hex(self))
    }
}

/// Pool, slots and arena are the lengths of the buffers.
#[derive(Clone, Debug)]
pub struct Shape {
    pub fanout: usize,
    pub pool: usize,
    pub slots: usize,
    pub arena: usize,
}

/// A range and the keys lent beside it.
#[derive(Clone, Debug)]
pub struct Span {
    pub range: Range,
    pub start: Bytes,
    pub end: Bytes,
}

/// Where a call has an output, `room` is its length.
#[derive(Clone, Debug)]
#[rustfmt::skip]
pub enum Call {
    Create(Shape),
    Insert { key: Bytes, value: Bytes, room: usize },
    Remove { key: Bytes, room: usize },
    Get { key: Bytes },
    ContainsKey { key: Bytes },
    Len,
    Clear,
    First { room: usize },
    GetGt { key: Bytes, room: usize },
    FirstInRange { span: Span, room: usize },
    /// The pairs of a range, one call each.
    WalkRange { span: Span },
    ScanPrefix { prefix: Bytes, room: usize },
    /// The pairs of the range that `scan_prefix` makes.
    WalkPrefix { prefix: Bytes },
    /// Low key, upper key, prefix length and pairs of each leaf.
    Leaves,
    /// Pool numbers, charge and stored bytes.
    Layout,
}

impl Call {
    /// Whether sled has this call, or one that says the same.
    pub fn sled_has_it(&self) -> bool {
        !matches!(self, Call::ScanPrefix { .. } | Call::Layout)
    }
}
