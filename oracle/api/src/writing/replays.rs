//! Inserts made again from the start, in an arena that the last of them fills
//! exactly, and in one that is a byte too small for it.

use super::{draws, fresh, read_back};
use crate::history::History;
use crate::reads::Reader;
use crate::tally::Tally;
use crate::writes::{Write, Writer};
use reference::index::KEY_LIMIT;
use reference::leaves::{Leaves, Pair};
use reference::random::Random;

const FANOUTS: [usize; 6] = [3, 4, 5, 8, 63, 64];
/// So many leaves, or so many calls, are enough.
const MOST_LEAVES: usize = 9;
const MOST_CALLS: usize = 300;
/// So many of the inserts that split are made the last, and as many others.
const LAST_ONES: usize = 4;

pub fn run(
    writer: &dyn Writer,
    reader: &dyn Reader,
    seed: u64,
    runs: usize,
) -> Result<Tally, String> {
    let mut random = Random::new(seed);
    let mut tally = Tally::default();
    for number in 0..runs {
        let fanout = random.pick(&FANOUTS);
        let (puts, charges, splits) = grow(fanout, &mut random);
        for last in last_ones(&splits, &mut random) {
            let all = replay(
                writer,
                reader,
                fanout,
                &puts[..=last],
                charges[last],
                &mut random,
            )
            .map_err(|report| format!("seed {seed}, run {number}, last {last}: {report}"))?;
            tally.join(&all);
        }
    }
    Ok(tally)
}

/// New pairs, the charge after each, and whether it made a split.
fn grow(fanout: usize, random: &mut Random) -> (Vec<Pair>, Vec<usize>, Vec<bool>) {
    let mut leaves = Leaves::fresh(fanout);
    let (mut puts, mut charges, mut splits) = (Vec::new(), Vec::new(), Vec::new());
    for _ in 0..MOST_CALLS {
        let key = draws::key(&leaves, random);
        if leaves.get(&key).is_some() || key.len() > KEY_LIMIT {
            continue;
        }
        let value = vec![0x2a; random.below(4)];
        let before = leaves.list.len();
        leaves.insert(&key, &value);
        puts.push((key, value));
        charges.push(leaves.charge());
        splits.push(leaves.list.len() > before);
        if leaves.list.len() == MOST_LEAVES {
            break;
        }
    }
    (puts, charges, splits)
}

fn last_ones(splits: &[bool], random: &mut Random) -> Vec<usize> {
    let mut chosen = Vec::new();
    for kind in [true, false] {
        let places = (0..splits.len()).filter(|at| splits[*at] == kind);
        let mut places: Vec<usize> = places.collect();
        random.shuffle(&mut places);
        chosen.extend(places.into_iter().take(LAST_ONES));
    }
    chosen
}

fn replay(
    writer: &dyn Writer,
    reader: &dyn Reader,
    fanout: usize,
    puts: &[Pair],
    charge: usize,
    random: &mut Random,
) -> Result<Tally, String> {
    let mut tally = Tally::default();
    let (last, others) = puts.split_last().expect("a last one");
    for (arena, expected) in [(Some(charge), 0), (charge.checked_sub(1), 8)] {
        // The empty pair needs no byte, and can't be refused so.
        let Some(arena) = arena.filter(|_| expected == 0 || last_needs_bytes(last)) else {
            continue;
        };
        let mut history = History::new(writer, fresh(fanout, MOST_LEAVES, arena, random));
        for (key, value) in others {
            let (reply, _) = history.ask(Write::Insert(key, value), 0)?;
            assert_eq!(reply.refusal, 0, "the reference's answer");
        }
        let (reply, _) = history.ask(Write::Insert(&last.0, &last.1), 0)?;
        assert_eq!(reply.refusal, expected, "the reference's answer");
        read_back(reader, &mut history, &[&last.0])?;
        tally.join(history.tally());
    }
    Ok(tally)
}

fn last_needs_bytes(last: &Pair) -> bool {
    last.0.len() + last.1.len() > 0
}
