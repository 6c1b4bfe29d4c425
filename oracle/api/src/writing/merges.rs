//! Removes that take a leaf's last pair: at every place of the list, with the
//! taker's prefix shorter by no byte, by some and by all, in arenas without a
//! spare byte and in larger ones, wherever the free bytes lie.

use super::read_back;
use crate::history::History;
use crate::parts::gaps;
use crate::reads::Reader;
use crate::tally::Tally;
use crate::writes::{Write, Writer};
use reference::layout::write;
use reference::leaves::{Leaf, Leaves, Pair};
use reference::random::Random;

const FANOUTS: [usize; 5] = [3, 4, 5, 8, 64];
/// How many leaves stand before the one that is emptied, and behind the one
/// that it takes: it is the first, one in the middle, or the last but one.
const BESIDE: [[usize; 2]; 6] = [[0, 0], [0, 1], [0, 2], [1, 0], [1, 1], [3, 2]];
const BEFORE: [&[u8]; 3] = [b"", b"\x10", b"\x20"];
const BEHIND: [&[u8]; 2] = [b"\xa0", b"\xb0"];
/// What the slots of the leaf that is taken leave out, and those of the taker
/// don't.
const LOSSES: [Loss; 3] = [Loss::Nothing, Loss::Some, Loss::All];
/// Each list is laid out so often, each time otherwise.
const LAYOUTS: usize = 4;

#[derive(Clone, Copy, Debug, PartialEq, Eq)]
enum Loss {
    Nothing,
    Some,
    All,
}

pub fn run(writer: &dyn Writer, reader: &dyn Reader, seed: u64) -> Result<Tally, String> {
    let mut random = Random::new(seed);
    let mut tally = Tally::default();
    let mut scattered = 0;
    for fanout in FANOUTS {
        for beside in BESIDE {
            for loss in LOSSES {
                for taken in [0, 1, 2, fanout - 1] {
                    let case = Case::draw(fanout, beside, loss, taken, &mut random);
                    let Some(mut case) = case else { continue };
                    let all = case.ask(writer, reader, &mut random).map_err(|report| {
                        let case = format!("{beside:?} beside, {loss:?} lost, {taken} pairs");
                        format!("seed {seed}, fanout {fanout}, {case}: {report}")
                    })?;
                    tally.join(&all);
                    scattered += case.scattered;
                }
            }
        }
    }
    assert!(scattered > 100, "free bytes lie in several places");
    Ok(tally)
}

struct Case {
    leaves: Leaves,
    /// The place of the leaf that is emptied.
    at: usize,
    /// Bytes that the suffixes regain.
    regained: usize,
    /// How often no gap was as long as that, in an arena without a spare byte.
    scattered: usize,
}

impl Case {
    /// None where such a list can't be.
    fn draw(
        fanout: usize,
        [before, behind]: [usize; 2],
        loss: Loss,
        taken: usize,
        random: &mut Random,
    ) -> Option<Case> {
        let (shared, lost) = match loss {
            // The first leaf's low key shares nothing with any other.
            Loss::Nothing => (random.pick(&[0, 1, 5, 500]), 0),
            Loss::Some => (random.pick(&[1, 5, 500]), random.pick(&[1, 2, 7])),
            Loss::All => (0, random.pick(&[1, 2, 7, 500])),
        };
        let shared = if before == 0 && loss == Loss::Nothing {
            0
        } else {
            shared
        };
        let possible = match loss {
            Loss::Nothing => taken > 0 || behind == 0,
            Loss::Some => taken > 0 && before > 0 && behind > 0,
            Loss::All => taken > 0 && behind > 0,
        };
        if !possible {
            return None;
        }
        let stem = vec![0x61; shared];
        let low = match before {
            0 => Vec::new(),
            _ => [&stem[..], &[0x30]].concat(),
        };
        let inner = [&stem[..], &vec![0x70; lost]].concat();
        let next = [&inner[..], &[0x80]].concat();
        let mut list: Vec<Leaf> = BEFORE[..before]
            .iter()
            .map(|low| one(low, random))
            .collect();
        list.push(match before == 0 && loss == Loss::All {
            true => leaf(&low, vec![(Vec::new(), Vec::new())]),
            false => emptied(&low, random),
        });
        list.push(leaf(&next, pairs(&next, taken, random)));
        if behind > 0 {
            let upper = [&inner[..], &[0x90]].concat();
            list.push(one(&upper, random));
            list.extend(BEHIND[..behind - 1].iter().map(|low| one(low, random)));
        }
        let leaves = Leaves { fanout, list };
        let regained = regained(&leaves, before, loss);
        Some(Case {
            leaves,
            at: before,
            regained: regained * taken,
            scattered: 0,
        })
    }

    fn ask(
        &mut self,
        writer: &dyn Writer,
        reader: &dyn Reader,
        random: &mut Random,
    ) -> Result<Tally, String> {
        let (charge, count) = (self.leaves.charge(), self.leaves.list.len());
        let (key, value) = self.leaves.list[self.at].pairs[0].clone();
        if self.at == 0 && self.regained > 0 {
            self.check_tight(charge);
        }
        let mut tally = Tally::default();
        for more in [0, 0, 1, 40] {
            for _ in 0..LAYOUTS {
                let pool = count + random.pick(&[0, 3]);
                self.number_leaves(pool, random);
                let held = write(&self.leaves, pool, charge + more, random);
                let most = gaps(&held.0, &held.1).into_iter().max();
                self.scattered += usize::from(more == 0 && most < Some(self.regained));
                let mut history = History::new(writer, held);
                history.ask(Write::Remove(&key), value.len() + random.below(2))?;
                assert_eq!(history.header().leaves, count - 1, "a merge");
                self.go_on(&mut history, reader, &key)?;
                tally.join(history.tally());
            }
        }
        Ok(tally)
    }

    /// In an arena as long as the charge no byte is spare while the suffixes
    /// grow, if the low key that goes stays until then.
    fn check_tight(&self, charge: usize) {
        let mut after = self.leaves.clone();
        after.remove(&[]);
        assert_eq!(after.stored() + self.leaves.list[1].low.len(), charge);
    }

    /// The buffers are an index still, and all free bytes can be used: by a
    /// value that is exactly as long.
    fn go_on(&self, history: &mut History, reader: &dyn Reader, key: &[u8]) -> Result<(), String> {
        let taken = &self.leaves.list[self.at + 1];
        let some: Vec<&[u8]> = taken.keys().map(Vec::as_slice).take(2).collect();
        read_back(reader, history, &some)?;
        history.ask(Write::Remove(key), 0)?;
        let (header, arena) = (history.header(), history.arena_len());
        let splits = history.leaves().list[self.at].pairs.len() + 1 == header.fanout;
        if let (false, Some(spare)) = (splits, (arena - header.charge).checked_sub(key.len())) {
            history.ask(Write::Insert(key, &vec![0x2c; spare]), 0)?;
            assert_eq!(history.header().charge, arena, "a full arena");
            history.ask(Write::Remove(key), spare)?;
        }
        for key in some {
            let room = history.leaves().get(key).map_or(0, <[u8]>::len);
            history.ask(Write::Remove(key), room)?;
        }
        read_back(reader, history, &[])
    }

    /// Any numbers of the pool.
    fn number_leaves(&mut self, pool: usize, random: &mut Random) {
        let mut numbers: Vec<usize> = (0..pool).collect();
        random.shuffle(&mut numbers);
        for (leaf, number) in self.leaves.list.iter_mut().zip(numbers) {
            leaf.number = number;
        }
    }
}

/// Bytes that each suffix of the leaf behind regains.
fn regained(leaves: &Leaves, at: usize, loss: Loss) -> usize {
    let before = leaves.prefix_length(at + 1);
    let mut after = leaves.clone();
    after.remove(&leaves.list[at].pairs[0].0);
    let now = after.prefix_length(at);
    let as_drawn = match loss {
        Loss::Nothing => now == before,
        Loss::Some => 0 < now && now < before,
        Loss::All => now == 0 && 0 < before,
    };
    assert!(as_drawn, "{loss:?}: {before} and {now}");
    before - now
}

fn leaf(low: &[u8], pairs: Vec<Pair>) -> Leaf {
    Leaf {
        number: 0,
        low: low.to_vec(),
        pairs,
    }
}

fn one(low: &[u8], random: &mut Random) -> Leaf {
    leaf(low, pairs(low, 1, random))
}

/// Its only pair often has no bytes of its own, or those of the low key.
fn emptied(low: &[u8], random: &mut Random) -> Leaf {
    let more = random.pick(&[&b""[..], b"", b"\x00", b"\x05\x05"]);
    let value = vec![0x2a; random.pick(&[0, 0, 1, 3])];
    leaf(low, vec![([low, more].concat(), value)])
}

/// Keys that begin with the low key; the first may be the low key itself.
fn pairs(low: &[u8], count: usize, random: &mut Random) -> Vec<Pair> {
    let itself = random.one_in(2);
    let pair = |at: usize| {
        let own = [2 * at as u8 + 1, 0x00, 0x00];
        let more = match at {
            0 if itself => &[],
            _ => &own[..1 + random.below(3)],
        };
        ([low, more].concat(), vec![0x2a; random.below(4)])
    };
    (0..count).map(pair).collect()
}
