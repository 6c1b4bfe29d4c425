//! `first_in_range` with all pairs of bound kinds, `get_gt` and `first`.

use super::keys::{held, random_one, too_long, worth_asking};
use super::on_indexes;
use crate::exports::{EXCLUDED, INCLUDED, OPEN};
use crate::reads::{Read, Reader};
use crate::session::WHOLE;
use crate::tally::Tally;
use reference::leaves::Leaves;
use reference::random::Random;

const KINDS: [usize; 3] = [INCLUDED, EXCLUDED, OPEN];
/// Open as well, though cut to fewer bits some are not.
const OTHER_NUMBERS: [usize; 5] = [3, 1 << 8, (1 << 16) + 1, 1 << 32, usize::MAX];
const KEYS_OF_ONE: usize = 6;

type Bounds = [Vec<u8>; 2];

pub fn run(reader: &dyn Reader, seed: u64, indexes: usize) -> Result<Tally, String> {
    on_indexes(reader, seed, indexes, |session, random| {
        let leaves = session.leaves();
        let keys = worth_asking(leaves, random);
        let mut all_bounds = bounds(leaves, &keys, random);
        all_bounds.push(with_a_long_key(&keys, random));
        for [start, end] in &all_bounds {
            for start_kind in KINDS {
                for end_kind in KINDS {
                    let read = Read::FirstInRange([start_kind, end_kind], start, end);
                    session.ask(read, room(random))?;
                }
            }
        }
        for [start, end] in &all_bounds {
            let mut kinds = [random.pick(&KINDS), random.pick(&KINDS)];
            kinds[random.below(2)] = random.pick(&OTHER_NUMBERS);
            session.ask(Read::FirstInRange(kinds, start, end), room(random))?;
        }
        for key in keys.iter().take(KEYS_OF_ONE) {
            session.ask(Read::GetGt(key), room(random))?;
        }
        session.ask(Read::GetGt(&too_long(&keys, random)), room(random))?;
        session.ask(Read::First, room(random))?;
        Ok(())
    })
}

/// Equal keys, rising ones, inverted ones, and neighbours.
fn bounds(leaves: &Leaves, keys: &[Vec<u8>], random: &mut Random) -> Vec<Bounds> {
    let equal = random_one(keys, random);
    let mut rising = [random_one(keys, random), random_one(keys, random)];
    rising.sort_unstable();
    let mut inverted = [random_one(keys, random), random_one(keys, random)];
    inverted.sort_unstable();
    inverted.reverse();
    let mut all = vec![[equal.clone(), equal], rising, inverted];
    let held = held(leaves);
    if held.len() > 1 {
        let at = random.below(held.len() - 1);
        all.push([held[at].to_vec(), held[at + 1].to_vec()]);
    }
    all
}

fn with_a_long_key(keys: &[Vec<u8>], random: &mut Random) -> Bounds {
    let mut bounds = [random_one(keys, random), random_one(keys, random)];
    for _ in 0..2 {
        bounds[random.below(2)] = too_long(keys, random);
    }
    bounds
}

/// Mostly enough.
fn room(random: &mut Random) -> usize {
    random.pick(&[WHOLE, WHOLE, WHOLE, 600, 2, 0])
}
