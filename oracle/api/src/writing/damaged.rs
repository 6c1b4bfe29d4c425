//! Inserts and removes in damaged buffers. Each is one that would be refused
//! otherwise, or accepted, if only the buffers held an index.

use super::draws;
use crate::damages::any_index;
use crate::history::History;
use crate::tally::Tally;
use crate::writes::{Write, Writer};
use reference::buffers::{Buffers, Header};
use reference::cases::cases;
use reference::damage::damage;
use reference::index::{KEY_LIMIT, VALUE_LIMIT};
use reference::layout::read;
use reference::leaves::{Leaves, Pair};
use reference::random::Random;

const PAIRS_OF_ONE: usize = 4;

/// Random damages, after which the buffers may meet W still.
pub fn run(writer: &dyn Writer, seed: u64, damages: usize) -> Result<Tally, String> {
    let mut random = Random::new(seed);
    let mut tally = Tally::default();
    for number in 0..damages {
        let (mut header, mut lent) = any_index(&mut random);
        let pairs = pairs(&header, &lent, &mut random);
        damage(random.word(), &mut header, &mut lent);
        let asked = ask(writer, (header, lent), &pairs, &mut random)
            .map_err(|report| format!("seed {seed}, damage {number}: {report}"))?;
        tally.join(&asked);
    }
    Ok(tally)
}

/// Each clause of W broken, and its correct twin.
pub fn run_cases(writer: &dyn Writer, seed: u64) -> Result<Tally, String> {
    let mut random = Random::new(seed);
    let mut tally = Tally::default();
    for case in cases(seed) {
        let pairs = pairs(&case.good.0, &case.good.1, &mut random);
        for (twin, held) in [("twin of ", case.good), ("", case.damaged)] {
            let asked = ask(writer, held, &pairs, &mut random)
                .map_err(|report| format!("seed {seed}, {twin}{}: {report}", case.name))?;
            tally.join(&asked);
        }
    }
    Ok(tally)
}

/// Pairs for the index before it is damaged; the last two are too long.
fn pairs(header: &Header, lent: &Buffers, random: &mut Random) -> Vec<Pair> {
    let leaves: Leaves = read(header, &lent.dir, &lent.slots, &lent.arena).expect("an index");
    let mut pair = || {
        let key = draws::key(&leaves, random);
        let value = draws::value(&leaves, &key, lent.arena.len(), random);
        (key, value)
    };
    let mut pairs: Vec<Pair> = (0..PAIRS_OF_ONE).map(|_| pair()).collect();
    pairs.push((vec![0x61; KEY_LIMIT + 1], Vec::new()));
    pairs.push((vec![0x61], vec![0x2a; VALUE_LIMIT + 1]));
    pairs
}

fn ask(
    writer: &dyn Writer,
    held: (Header, Buffers),
    pairs: &[Pair],
    random: &mut Random,
) -> Result<Tally, String> {
    let mut history = History::new(writer, held);
    for (key, value) in pairs {
        for write in [Write::Insert(key, value), Write::Remove(key)] {
            let room = random.pick(&[0, 3, 300]);
            history.ask(write, room)?;
        }
    }
    Ok(history.tally().clone())
}
