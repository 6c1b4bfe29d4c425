//! A new key in every gap of a full leaf, whatever leaves stand beside it, with
//! the arena exactly large enough, one byte short, and no leaf free.

use crate::history::History;
use crate::reads::Reader;
use crate::tally::Tally;
use crate::writes::{Write, Writer};
use reference::layout::write;
use reference::leaves::{Leaf, Leaves, Pair};
use reference::random::Random;

const FANOUTS: [usize; 6] = [3, 4, 5, 8, 63, 64];
/// Whether a leaf stands before the full one, and whether one stands behind it.
const BESIDE: [[bool; 2]; 4] = [[false, false], [false, true], [true, true], [true, false]];

pub fn run(writer: &dyn Writer, reader: &dyn Reader, seed: u64) -> Result<Tally, String> {
    let mut random = Random::new(seed);
    let mut tally = Tally::default();
    for fanout in FANOUTS {
        for [before, behind] in BESIDE {
            for gap in 0..fanout {
                let case = Case::draw(fanout, before, behind, gap, &mut random);
                let all = case.ask(writer, reader, &mut random).map_err(|report| {
                    let beside = format!("before {before}, behind {behind}");
                    format!("seed {seed}, fanout {fanout}, {beside}, gap {gap}: {report}")
                })?;
                tally.join(&all);
            }
        }
    }
    Ok(tally)
}

struct Case {
    leaves: Leaves,
    new: Pair,
    /// Charge after the insert, which splits.
    charge: usize,
}

impl Case {
    /// Stored keys end in odd bytes, so that a new one can stand in each gap.
    fn draw(fanout: usize, before: bool, behind: bool, gap: usize, random: &mut Random) -> Case {
        let stem = vec![0x61; random.pick(&[1, 1, 2, 5, 508])];
        let stored = |at: usize| [&stem[..], &[2 * at as u8 + 1], &tail(at)].concat();
        let any_value = |random: &mut Random| vec![0x2a; random.below(4)];
        let mut list = Vec::new();
        if before {
            list.push(leaf(&[], vec![(Vec::new(), any_value(random))]));
        }
        let low = match before {
            true => low(&stem, random),
            false => Vec::new(),
        };
        let pairs = (0..fanout - 1).map(|at| (stored(at), any_value(random)));
        list.push(leaf(&low, pairs.collect()));
        if behind {
            let upper = match random.below(3) {
                0 => vec![0x62],
                1 => [&stem[..], &[0xff]].concat(),
                _ => [&stem[..], &[2 * fanout as u8 + 1]].concat(),
            };
            list.push(leaf(&upper, vec![(upper.clone(), any_value(random))]));
        }
        let key = new_key(&stem, gap, fanout, random);
        let new = (key, any_value(random));
        let leaves = Leaves { fanout, list };
        let mut after = leaves.clone();
        after.insert(&new.0, &new.1);
        assert_eq!(after.list.len(), leaves.list.len() + 1, "a split");
        Case {
            charge: after.charge(),
            leaves,
            new,
        }
    }

    fn ask(
        mut self,
        writer: &dyn Writer,
        reader: &dyn Reader,
        random: &mut Random,
    ) -> Result<Tally, String> {
        let (charge, leaves) = (self.charge, self.leaves.list.len());
        let mut tally = Tally::default();
        for (pool, arena) in [
            (leaves + 1, charge),
            (leaves + 1, charge - 1),
            (leaves, charge),
            (leaves, charge - 1),
            (leaves + 4, charge + 30),
        ] {
            if self.leaves.charge() > arena {
                continue;
            }
            self.number_leaves(pool, random);
            let held = write(&self.leaves, pool, arena, random);
            let mut history = History::new(writer, held);
            let (key, value) = &self.new;
            let (reply, _) = history.ask(Write::Insert(key, value), random.below(2))?;
            let expected = match (pool > leaves, arena < charge) {
                (false, _) => 7,
                (true, true) => 8,
                (true, false) => 0,
            };
            assert_eq!(reply.refusal, expected, "the reference's answer");
            super::read_back(reader, &mut history, &[key])?;
            tally.join(history.tally());
        }
        Ok(tally)
    }

    /// Any numbers of the pool.
    fn number_leaves(&mut self, pool: usize, random: &mut Random) {
        let mut numbers: Vec<usize> = (0..pool).collect();
        random.shuffle(&mut numbers);
        for (leaf, number) in self.leaves.list.iter_mut().zip(numbers) {
            leaf.number = number;
        }
    }
}

fn leaf(low: &[u8], pairs: Vec<Pair>) -> Leaf {
    Leaf {
        number: 0,
        low: low.to_vec(),
        pairs,
    }
}

/// Of every third key.
fn tail(at: usize) -> Vec<u8> {
    vec![0x00; if at % 3 == 1 { 2 } else { 0 }]
}

/// Not above any key that begins with the stem, and not empty.
fn low(stem: &[u8], random: &mut Random) -> Vec<u8> {
    match random.below(3) {
        0 => stem.to_vec(),
        1 => [stem, &[0x00]].concat(),
        _ => stem[..1 + random.below(stem.len())].to_vec(),
    }
}

/// In front of the stored key with this number: by its own last byte, or right
/// behind the one before, of which it is a longer form.
fn new_key(stem: &[u8], gap: usize, fanout: usize, random: &mut Random) -> Vec<u8> {
    let even = [stem, &[2 * gap as u8]].concat();
    match random.below(4) {
        0 if gap > 0 => [stem, &[2 * gap as u8 - 1], &tail(gap - 1), &[0x00]].concat(),
        1 if gap > 0 => [stem, &[2 * gap as u8 - 1, 0xff]].concat(),
        2 if gap < fanout - 1 && !tail(gap).is_empty() => {
            [stem, &[2 * gap as u8 + 1], &tail(gap)[1..]].concat()
        }
        3 => [&even[..], &[0x00]].concat(),
        _ => even,
    }
}
