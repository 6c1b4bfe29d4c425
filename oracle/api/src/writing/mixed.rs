//! Random calls of every kind on the same index, one after another.

use super::{draws, read_back, start};
use crate::exports::{EXCLUDED, INCLUDED, OPEN};
use crate::history::History;
use crate::reads::{Read, Reader};
use crate::session::{Session, WHOLE};
use crate::sides::{Call, Side};
use crate::tally::Tally;
use crate::writes::{Write, Writer};
use reference::random::Random;

/// The same index gets so many calls at least.
const LEAST: usize = 40;
/// After so many calls inserts and removes get another share.
const STRETCH: usize = 32;
/// Once in so many calls the index is cleared.
const CLEARED: usize = 400;

struct Sides<'a> {
    writer: &'a dyn Writer,
    reader: &'a dyn Reader,
    side: &'a dyn Side,
}

/// At least so many calls.
pub fn run(
    writer: &dyn Writer,
    reader: &dyn Reader,
    side: &dyn Side,
    seed: u64,
    calls: usize,
) -> Result<Tally, String> {
    let sides = Sides {
        writer,
        reader,
        side,
    };
    let mut random = Random::new(seed);
    let mut tally = Tally::default();
    let mut number = 0;
    while tally.calls() < calls {
        let history = sides
            .one(&mut random)
            .map_err(|report| format!("seed {seed}, run {number}: {report}"))?;
        tally.join(&history);
        number += 1;
    }
    Ok(tally)
}

impl Sides<'_> {
    fn one(&self, random: &mut Random) -> Result<Tally, String> {
        let mut history = History::new(self.writer, start(random));
        let most = LEAST + random.below(160) + 2 * history.header().fanout;
        let mut removes = 2;
        for call in 0..most {
            if call % STRETCH == 0 {
                removes = random.pick(&[0, 1, 1, 2, 3]);
            }
            self.call(&mut history, removes, random)
                .map_err(|report| format!("call {call}: {report}"))?;
        }
        read_back(self.reader, &mut history, &[])?;
        Ok(history.tally().clone())
    }

    /// So many of four changes are removes.
    fn call(
        &self,
        history: &mut History,
        removes: usize,
        random: &mut Random,
    ) -> Result<(), String> {
        if random.one_in(CLEARED) {
            return history.call(self.side, Call::Clear);
        }
        match random.below(16) {
            0..=9 if random.below(4) < removes => remove(history, random),
            0..=9 => insert(history, random),
            10 => history.call(self.side, random.pick(&[Call::Len, Call::HoldsIndex])),
            _ => self.read(history, random),
        }
    }

    fn read(&self, history: &mut History, random: &mut Random) -> Result<(), String> {
        let leaves = history.leaves();
        let mut two = [draws::key(leaves, random), draws::key(leaves, random)];
        if !random.one_in(4) {
            two.sort_unstable();
        }
        let [start, end] = &two;
        let read = match random.below(8) {
            0 | 1 => Read::Get(start),
            2 => Read::ContainsKey(start),
            3 | 4 => {
                let kinds = [INCLUDED, EXCLUDED, OPEN];
                Read::FirstInRange([random.pick(&kinds), random.pick(&kinds)], start, end)
            }
            5 => Read::GetGt(start),
            6 => random.pick(&[Read::First, Read::ScanPrefix(start)]),
            _ => Read::LeafAt(random.below(leaves.list.len() + 2)),
        };
        let mut session = Session::new(self.reader, history.held());
        session.ask(read, random.pick(&[0, 1, WHOLE, WHOLE, WHOLE]))?;
        history.join(session.tally());
        Ok(())
    }
}

fn insert(history: &mut History, random: &mut Random) -> Result<(), String> {
    let leaves = history.leaves();
    let key = draws::key(leaves, random);
    let value = draws::value(leaves, &key, history.arena_len(), random);
    let room = draws::room(leaves, &key, random);
    history.ask(Write::Insert(&key, &value), room).map(drop)
}

fn remove(history: &mut History, random: &mut Random) -> Result<(), String> {
    let leaves = history.leaves();
    let key = draws::gone(leaves, random);
    let room = draws::room(leaves, &key, random);
    history.ask(Write::Remove(&key), room).map(drop)
}
