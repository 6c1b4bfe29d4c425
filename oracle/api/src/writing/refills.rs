//! An arena without a spare byte, filled, emptied and filled again many times.

use super::{fresh, read_back};
use crate::history::History;
use crate::reads::Reader;
use crate::tally::Tally;
use crate::times::ORDERS;
use crate::writes::{Write, Writer};
use reference::leaves::{Leaves, Pair};
use reference::random::Random;
use std::collections::BTreeMap;

const FANOUTS: [usize; 4] = [3, 4, 5, 16];
const PAIRS: usize = 24;
const LETTERS: [u8; 4] = [0x00, 0x61, 0x62, 0xff];
/// After so many rounds what is left is read back.
const READ_BACK: usize = 10;

/// So many rounds for each order in which keys come and go.
pub fn run(
    writer: &dyn Writer,
    reader: &dyn Reader,
    seed: u64,
    rounds: usize,
) -> Result<Tally, String> {
    let mut random = Random::new(seed);
    let mut tally = Tally::default();
    for order in ORDERS {
        let refilled = Refill::draw(order, rounds, &mut random).ask(writer, reader, &mut random);
        tally.join(&refilled.map_err(|report| format!("seed {seed}, {order}: {report}"))?);
    }
    Ok(tally)
}

struct Refill {
    fanout: usize,
    /// In the order in which they come, and in which they go.
    rounds: Vec<[Vec<Pair>; 2]>,
    /// Leaves and bytes that the largest round needs.
    pool: usize,
    arena: usize,
}

impl Refill {
    fn draw(order: &str, rounds: usize, random: &mut Random) -> Refill {
        let fanout = random.pick(&FANOUTS);
        let pairs = pairs(random);
        let mut in_order = || {
            let mut pairs = pairs.clone();
            match order {
                "falling" => pairs.reverse(),
                "random" => random.shuffle(&mut pairs),
                _ => {}
            }
            pairs
        };
        let rounds: Vec<[Vec<Pair>; 2]> = (0..rounds).map(|_| [in_order(), in_order()]).collect();
        let (mut pool, mut arena) = (0, 0);
        for [coming, _] in &rounds {
            let mut leaves = Leaves::fresh(fanout);
            for (key, value) in coming {
                leaves.insert(key, value);
            }
            pool = pool.max(leaves.list.len());
            arena = arena.max(leaves.charge());
        }
        Refill {
            fanout,
            rounds,
            pool,
            arena,
        }
    }

    fn ask(
        &self,
        writer: &dyn Writer,
        reader: &dyn Reader,
        random: &mut Random,
    ) -> Result<Tally, String> {
        let held = fresh(self.fanout, self.pool, self.arena, random);
        let mut history = History::new(writer, held);
        for (number, [coming, going]) in self.rounds.iter().enumerate() {
            fill(&mut history, coming).map_err(|report| format!("round {number}: {report}"))?;
            if number % READ_BACK == 0 {
                read_back(reader, &mut history, &[])?;
            }
            empty(&mut history, going).map_err(|report| format!("round {number}: {report}"))?;
        }
        read_back(reader, &mut history, &[])?;
        Ok(history.tally().clone())
    }
}

/// Up to the last byte, by a longer value for the last key. One byte more is
/// refused.
fn fill(history: &mut History, coming: &[Pair]) -> Result<(), String> {
    for (key, value) in coming {
        let (reply, _) = history.ask(Write::Insert(key, value), 0)?;
        assert_eq!(reply.refusal, 0, "the reference's answer");
    }
    let (key, value) = coming.last().expect("a pair");
    let spare = history.arena_len() - history.header().charge;
    for (length, refusal) in [(spare, 0), (spare + 1, 8)] {
        let longer = [&value[..], &vec![0x2b; length]].concat();
        let (reply, _) = history.ask(Write::Insert(key, &longer), longer.len())?;
        assert_eq!(reply.refusal, refusal, "the reference's answer");
    }
    assert_eq!(history.header().charge, history.arena_len(), "a full arena");
    Ok(())
}

fn empty(history: &mut History, going: &[Pair]) -> Result<(), String> {
    for (key, _) in going {
        let room = history.leaves().get(key).expect("held").len();
        history.ask(Write::Remove(key), room)?;
    }
    let (header, empty) = (history.header(), (1, 0, 0));
    assert_eq!((header.leaves, header.pairs, header.charge), empty);
    Ok(())
}

/// In key order. Many keys begin alike, so that leaves have prefixes.
fn pairs(random: &mut Random) -> Vec<Pair> {
    let mut pairs = BTreeMap::new();
    while pairs.len() < PAIRS {
        let stem = random.pick(&[&b"\x61\x61\x61"[..], b"\x61\x61\x61\x62\x62", b"\x61", b""]);
        let more = (0..random.below(4)).map(|_| random.pick(&LETTERS));
        let key = stem.iter().copied().chain(more).collect();
        pairs.insert(key, vec![0x2a; random.below(5)]);
    }
    pairs.into_iter().collect()
}
