//! An index that one changing call after another is made on.

use crate::compare::{compare, first_other, sizes, verdict};
use crate::exports::OldReply;
use crate::outputs::Output;
use crate::sides::{Answer, Call, Side};
use crate::tally::Tally;
use crate::writers::{open, right};
use crate::writes::{Write, Writer};
use reference::buffers::{Buffers, Header};
use reference::index::Index;
use reference::layout::read;
use reference::leaves::Leaves;
use reference::refusal::Refusal;
use std::panic::{AssertUnwindSafe, catch_unwind};

pub struct History<'a> {
    writer: &'a dyn Writer,
    header: Header,
    lent: Buffers,
    /// What the buffers hold by the reference.
    index: Result<Index, Refusal>,
    tally: Tally,
}

impl History<'_> {
    pub fn new(writer: &dyn Writer, (header, lent): (Header, Buffers)) -> History<'_> {
        History {
            writer,
            index: open(&header, &lent),
            header,
            lent,
            tally: Tally::default(),
        }
    }

    /// Gives the answer and the output where both are the reference's, every
    /// byte, and so is what is left: after a refusal, or a remove of no pair,
    /// every word and byte as it was, else the reference's leaf list with its
    /// pool numbers. Else, and where the writer panics, a report.
    pub fn ask(&mut self, write: Write, room: usize) -> Result<(OldReply, Vec<u8>), String> {
        let before = (self.header, self.lent.clone());
        let mut output = Output::new(room, self.tally.calls());
        let right = right(&mut self.index, self.header, write, output.expected());
        let (writer, header, lent) = (self.writer, self.header, &mut self.lent);
        let answer = catch_unwind(AssertUnwindSafe(|| {
            writer.write(write, header, lent, output.lent())
        }));
        let difference = match answer {
            Err(_) => Some("no answer".to_string()),
            Ok(answer) if answer != right => Some(format!("{answer:?}, not {right:?}")),
            Ok(_) => {
                let same = right.refusal != 0 || write.leaves_all(&right);
                let left = || self.left(same, &right.header, &before.1);
                output.difference().or_else(left)
            }
        };
        let Some(difference) = difference else {
            let outcome = write.outcome(&right, self.header.leaves);
            self.tally.add(outcome);
            self.header = right.header;
            return Ok((right, output.lent().to_vec()));
        };
        let (sizes, verdict) = (sizes(&before.1), verdict(&before.0, &before.1));
        Err(format!(
            "{write:?} with room {room} on {sizes}{verdict}: {difference}\n"
        ))
    }

    /// A call that changes no single pair, compared on the same buffers.
    pub fn call(&mut self, side: &dyn Side, call: fn(Header) -> Call) -> Result<(), String> {
        let answer = compare(side, call(self.header), &mut self.lent)?;
        if let Answer::Changed(reply) = answer {
            self.header = reply.header;
            self.index = open(&self.header, &self.lent);
        }
        self.tally.add(answer.outcome());
        Ok(())
    }

    /// What is wrong in the buffers, which the call may have to leave the same.
    fn left(&self, same: bool, header: &Header, before: &Buffers) -> Option<String> {
        if same {
            return (self.lent != *before).then(|| first_other(&self.lent, before));
        }
        let Buffers { dir, slots, arena } = &self.lent;
        let [now, then] = [&self.lent, before].map(sizes);
        if now != then {
            return Some(format!("{now} are left"));
        }
        match read(header, dir, slots, arena) {
            None => Some(format!("buffers left{}", verdict(header, &self.lent))),
            Some(list) if list != *self.leaves() => Some(other_leaf(&list, self.leaves())),
            Some(_) => None,
        }
    }

    /// The leaf list. Presumes that the buffers hold an index.
    pub fn leaves(&self) -> &Leaves {
        self.index.as_ref().expect("an index").leaves()
    }

    pub fn held(&self) -> (Header, Buffers) {
        (self.header, self.lent.clone())
    }

    pub fn header(&self) -> Header {
        self.header
    }

    pub fn arena_len(&self) -> usize {
        self.lent.arena.len()
    }

    pub fn tally(&self) -> &Tally {
        &self.tally
    }

    /// With the calls that something else made on the same buffers.
    pub fn join(&mut self, tally: &Tally) {
        self.tally.join(tally);
    }
}

fn other_leaf(list: &Leaves, right: &Leaves) -> String {
    let mut both = list.list.iter().zip(&right.list);
    let at = both.position(|(one, other)| one != other);
    let at = at.unwrap_or(list.list.len().min(right.list.len()));
    let (one, other) = (list.list.get(at), right.list.get(at));
    format!("leaf {at} is left as {one:?}, not {other:?}")
}
