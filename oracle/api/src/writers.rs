//! The two sides of a changing call.

use crate::exports::OldReply;
use crate::readers::needed;
use crate::sides::{Archive, Reference, archive, number};
use crate::writes::{Write, Writer};
use reference::buffers::{Buffers, Header};
use reference::index::Index;
use reference::layout;
use reference::leaves::Leaves;
use reference::random::Random;
use reference::refusal::Refusal;

impl Writer for Archive {
    fn write(&self, write: Write, header: Header, lent: &mut Buffers, out: &mut [u8]) -> OldReply {
        archive::write(write, header, lent, out)
    }
}

impl Writer for Reference {
    fn write(&self, write: Write, header: Header, lent: &mut Buffers, out: &mut [u8]) -> OldReply {
        let mut index = open(&header, lent);
        let reply = right(&mut index, header, write, out);
        if let (0, false, Ok(index)) = (reply.refusal, write.leaves_all(&reply), index) {
            lay(index.leaves(), lent);
        }
        reply
    }
}

/// The index in the buffers, or refusal 2.
pub fn open(header: &Header, lent: &Buffers) -> Result<Index, Refusal> {
    let Buffers { dir, slots, arena } = lent;
    let leaves = layout::read(header, dir, slots, arena).ok_or(Refusal::Damaged)?;
    Ok(Index::holding(leaves, dir.len(), arena.len()))
}

/// The list in the same buffers, laid out anew.
pub fn lay(leaves: &Leaves, lent: &mut Buffers) {
    let mut random = Random::new(leaves.charge() as u64);
    let (_, laid) = layout::write(leaves, lent.dir.len(), lent.arena.len(), &mut random);
    *lent = laid;
}

/// The header of a list.
pub fn counts(leaves: &Leaves) -> Header {
    Header {
        fanout: leaves.fanout,
        leaves: leaves.list.len(),
        pairs: leaves.pair_count(),
        charge: leaves.charge(),
    }
}

/// The reference's answer on an index that was opened, or was refused. The
/// index is then as the call leaves it.
pub fn right(
    index: &mut Result<Index, Refusal>,
    header: Header,
    write: Write,
    out: &mut [u8],
) -> OldReply {
    let answer = match index {
        Err(refusal) => Err(*refusal),
        Ok(index) => by(index, write, out).map(|old| (old, counts(index.leaves()))),
    };
    match answer {
        Ok((old, header)) => OldReply {
            refusal: 0,
            length: old.unwrap_or(0),
            found: usize::from(old.is_some()),
            header,
        },
        Err(refusal) => OldReply {
            refusal: number(refusal),
            length: needed(refusal),
            found: 0,
            header,
        },
    }
}

fn by(index: &mut Index, write: Write, out: &mut [u8]) -> Result<Option<usize>, Refusal> {
    match write {
        Write::Insert(key, value) => index.insert(key, value, out),
        Write::Remove(key) => index.remove(key, out),
    }
}
