//! The calls that change one pair.

use crate::exports::OldReply;
use crate::reads::short;
use reference::buffers::{Buffers, Header};
use std::fmt;

#[derive(Clone, Copy, PartialEq, Eq)]
pub enum Write<'a> {
    /// A key and its value.
    Insert(&'a [u8], &'a [u8]),
    Remove(&'a [u8]),
}

/// Answers a changing call, and leaves the buffers and the output as the call
/// leaves them.
pub trait Writer {
    fn write(&self, write: Write, header: Header, lent: &mut Buffers, out: &mut [u8]) -> OldReply;
}

/// Bytes in document 01's form, long ones cut: the seed gives them whole.
impl fmt::Debug for Write<'_> {
    fn fmt(&self, to: &mut fmt::Formatter) -> fmt::Result {
        match self {
            Write::Insert(key, value) => write!(to, "insert {} {}", short(key), short(value)),
            Write::Remove(key) => write!(to, "remove {}", short(key)),
        }
    }
}

impl Write<'_> {
    /// Whether an accepted call that answers so leaves all as it was.
    pub fn leaves_all(self, reply: &OldReply) -> bool {
        matches!(self, Write::Remove(_)) && reply.found == 0
    }

    /// For the tally, with the number of leaves before.
    pub fn outcome(self, reply: &OldReply, leaves: usize) -> &'static str {
        match reply.refusal {
            0 if reply.header.leaves > leaves => "split",
            0 if reply.header.leaves < leaves => "merge",
            0 => match (self, reply.found) {
                (Write::Insert(..), 0) => "new",
                (Write::Insert(..), _) => "old",
                (Write::Remove(_), 0) => "absent",
                (Write::Remove(_), _) => "gone",
            },
            2 => "refused 2",
            3 => "refused 3",
            4 => "refused 4",
            5 => "refused 5",
            7 => "refused 7",
            8 => "refused 8",
            _ => "refused",
        }
    }
}
