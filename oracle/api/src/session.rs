//! An index that is lent to one reading call after another.

use crate::compare::{first_other, sizes, verdict};
use crate::outputs::Output;
use crate::readers::right;
use crate::reads::{Read, Reader, Reading};
use crate::tally::Tally;
use reference::buffers::{Buffers, Header};
use reference::leaves::Leaves;
use reference::opened::Opened;
use reference::refusal::Refusal;
use std::panic::{AssertUnwindSafe, catch_unwind};

/// Room for any key.
pub const WHOLE: usize = 512;

pub struct Session<'a> {
    reader: &'a dyn Reader,
    header: Header,
    lent: Buffers,
    /// No call may change them.
    before: Buffers,
    opened: Result<Opened, Refusal>,
    tally: Tally,
}

impl Session<'_> {
    pub fn new(reader: &dyn Reader, (header, lent): (Header, Buffers)) -> Session<'_> {
        Session {
            reader,
            opened: Opened::open(&header, &lent),
            header,
            before: lent.clone(),
            lent,
            tally: Tally::default(),
        }
    }

    /// Gives the answer and the output where both are the reference's, every
    /// byte, and the buffers are as they were. Else, and where the reader
    /// panics, a report.
    pub fn ask(&mut self, read: Read, room: usize) -> Result<(Reading, Vec<u8>), String> {
        let mut output = Output::new(room, self.tally.calls());
        let right = right(&self.opened, read, output.expected());
        let (reader, header, lent) = (self.reader, self.header, &mut self.lent);
        let answer = catch_unwind(AssertUnwindSafe(|| {
            reader.read(read, header, lent, output.lent())
        }));
        let difference = match answer {
            Err(_) => Some("no answer".to_string()),
            Ok(answer) if answer != right => Some(format!("{answer:?}, not {right:?}")),
            Ok(_) if self.lent != self.before => Some(first_other(&self.lent, &self.before)),
            Ok(_) => output.difference(),
        };
        let Some(difference) = difference else {
            self.tally.add(right.outcome());
            return Ok((right, output.lent().to_vec()));
        };
        let (sizes, verdict) = (sizes(&self.before), verdict(&self.header, &self.before));
        Err(format!(
            "{read:?} with room {room} on {sizes}{verdict}: {difference}\n"
        ))
    }

    /// The leaf list. Presumes that the buffers hold an index.
    pub fn leaves(&self) -> &Leaves {
        self.opened.as_ref().expect("an index").index().leaves()
    }

    pub fn arena(&self) -> &[u8] {
        &self.before.arena
    }

    pub fn tally(&self) -> &Tally {
        &self.tally
    }
}
