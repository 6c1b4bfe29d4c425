//! The two sides of a comparison.

use crate::exports::{Reply, Told};
use reference::buffers::{Buffers, Header};
use reference::index::Index;
use reference::layout::read;
use reference::refusal::Refusal;
use reference::w::holds_index;

#[cfg(feature = "fenced")]
pub(crate) use crate::fenced as archive;
#[cfg(not(feature = "fenced"))]
pub(crate) use crate::near as archive;

#[derive(Clone, Copy, Debug)]
pub enum Call {
    HoldsIndex(Header),
    Create(usize),
    Clear(Header),
    Len(Header),
}

#[derive(Clone, Copy, Debug, PartialEq, Eq)]
pub enum Answer {
    Verdict(bool),
    Changed(Reply),
    Counted(Told),
}

impl Answer {
    /// For the tally.
    pub fn outcome(&self) -> &'static str {
        match self {
            Answer::Verdict(true) => "W",
            Answer::Verdict(false) => "not W",
            Answer::Changed(Reply { refusal: 0, .. })
            | Answer::Counted(Told { refusal: 0, .. }) => "accepted",
            Answer::Changed(Reply { refusal: 2, .. })
            | Answer::Counted(Told { refusal: 2, .. }) => "refused 2",
            Answer::Changed(_) | Answer::Counted(_) => "refused 1",
        }
    }
}

/// Answers a call, and leaves the buffers as the call leaves them.
pub trait Side {
    fn answer(&self, call: Call, lent: &mut Buffers) -> Answer;
}

/// The functions themselves.
pub struct Archive;

impl Side for Archive {
    fn answer(&self, call: Call, lent: &mut Buffers) -> Answer {
        match call {
            Call::HoldsIndex(header) => Answer::Verdict(archive::holds_index(header, lent)),
            Call::Create(fanout) => Answer::Changed(archive::create(fanout, lent)),
            Call::Clear(header) => Answer::Changed(archive::clear(header, lent)),
            Call::Len(header) => Answer::Counted(archive::len(header, lent)),
        }
    }
}

/// What document 01 and docs/LAYOUT.md say.
pub struct Reference;

impl Side for Reference {
    fn answer(&self, call: Call, lent: &mut Buffers) -> Answer {
        let Buffers { dir, slots, arena } = &lent;
        match call {
            Call::HoldsIndex(header) => Answer::Verdict(holds_index(&header, dir, slots, arena)),
            Call::Create(fanout) => {
                match Index::create(fanout, dir.len(), slots.len(), arena.len()) {
                    Ok(_) => make_fresh(fanout, lent),
                    Err(refusal) => refused(refusal, counts(0, 0)),
                }
            }
            Call::Clear(header) => {
                if holds_index(&header, dir, slots, arena) {
                    make_fresh(header.fanout, lent)
                } else {
                    refused(Refusal::Damaged, header)
                }
            }
            Call::Len(header) => match read(&header, dir, slots, arena) {
                Some(leaves) => counted(0, leaves.pair_count()),
                None => counted(number(Refusal::Damaged), 0),
            },
        }
    }
}

/// L8: leaf 0 with no pairs is the first directory word; its low key, with no
/// bytes at offset 0, is its last slot word. Nothing else changes.
fn make_fresh(fanout: usize, lent: &mut Buffers) -> Answer {
    lent.dir[0] = 0;
    lent.slots[fanout - 1] = 0;
    Answer::Changed(Reply {
        refusal: 0,
        length: 0,
        header: counts(fanout, 1),
    })
}

fn refused(refusal: Refusal, header: Header) -> Answer {
    Answer::Changed(Reply {
        refusal: number(refusal),
        length: 0,
        header,
    })
}

fn counted(refusal: usize, length: usize) -> Answer {
    Answer::Counted(Told { refusal, length })
}

pub(crate) fn number(refusal: Refusal) -> usize {
    refusal.number() as usize
}

fn counts(fanout: usize, leaves: usize) -> Header {
    Header {
        fanout,
        leaves,
        pairs: 0,
        charge: 0,
    }
}
