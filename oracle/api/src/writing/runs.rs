//! Runs of random inserts, on fresh indexes and on any that meet W.

use super::{draws, read_back, start};
use crate::history::History;
use crate::reads::Reader;
use crate::tally::Tally;
use crate::writes::{Write, Writer};
use reference::random::Random;

/// After so many refusals for want of a leaf or of room a run ends.
const REFUSALS: usize = 16;
/// What is left is read back after so many calls, and at the end.
const READ_BACK: usize = 16;

/// At least so many calls.
pub fn run(
    writer: &dyn Writer,
    reader: &dyn Reader,
    seed: u64,
    calls: usize,
) -> Result<Tally, String> {
    let mut random = Random::new(seed);
    let mut tally = Tally::default();
    let (mut number, mut made) = (0, 0);
    while made < calls {
        let mut history = History::new(writer, start(&mut random));
        let most = 20 + random.below(100) + 2 * history.header().fanout;
        made += one(&mut history, reader, most, &mut random)
            .map_err(|report| format!("seed {seed}, run {number}: {report}"))?;
        tally.join(history.tally());
        number += 1;
    }
    Ok(tally)
}

/// Gives the number of calls.
fn one(
    history: &mut History,
    reader: &dyn Reader,
    most: usize,
    random: &mut Random,
) -> Result<usize, String> {
    let (mut call, mut refusals) = (0, 0);
    while call < most && refusals < REFUSALS {
        let leaves = history.leaves();
        let key = draws::key(leaves, random);
        let value = draws::value(leaves, &key, history.arena_len(), random);
        let room = draws::room(leaves, &key, random);
        let (reply, _) = history
            .ask(Write::Insert(&key, &value), room)
            .map_err(|report| format!("call {call}: {report}"))?;
        refusals += usize::from(reply.refusal >= 7);
        call += 1;
        if call % READ_BACK == 0 {
            read_back(reader, history, &[&key])?;
        }
    }
    read_back(reader, history, &[])?;
    Ok(call)
}
