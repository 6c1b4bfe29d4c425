//! Creation at every limit and beside it, in buffers with any contents.

use crate::compare::compare;
use crate::sides::{Call, Side};
use crate::tally::Tally;
use reference::buffers::Buffers;
use reference::random::Random;

/// The last ones times some pools leave 64 bits, and what is left is small.
const FANOUTS: [usize; 12] = [
    0,
    1,
    2,
    3,
    4,
    63,
    64,
    65,
    1 << 52,
    (1 << 52) + 64,
    (1 << 63) + 3,
    usize::MAX,
];
const POOLS: [usize; 6] = [0, 1, 2, 4_095, 4_096, 4_097];
const ARENAS: [usize; 4] = [0, 1, 1_048_576, 1_048_577];
/// F x pool, and one more, of the largest ones above.
const MOST_SLOTS: usize = 65 * 4_097 + 1;

pub fn run(side: &dyn Side, seed: u64) -> Result<Tally, String> {
    let mut random = Random::new(seed);
    let mut tally = Tally::default();
    for fanout in FANOUTS {
        for pool in POOLS {
            for slots in slot_counts(fanout, pool) {
                let longest = ARENAS[ARENAS.len() - 1];
                let lent = any_contents(pool, slots, longest, &mut random);
                for arena in ARENAS {
                    let mut lent = lent.clone();
                    lent.arena.truncate(arena);
                    let answer = compare(side, Call::Create(fanout), &mut lent)
                        .map_err(|report| format!("seed {seed}: {report}"))?;
                    tally.add(answer.outcome());
                }
            }
        }
    }
    Ok(tally)
}

/// As many as there should be, and one fewer and one more, where that is a
/// number of words that can be lent.
fn slot_counts(fanout: usize, pool: usize) -> Vec<usize> {
    let exact = fanout.wrapping_mul(pool);
    let mut counts = vec![exact.wrapping_sub(1), exact, exact.wrapping_add(1), pool];
    counts.retain(|count| *count <= MOST_SLOTS);
    counts.sort_unstable();
    counts.dedup();
    counts
}

fn any_contents(pool: usize, slots: usize, arena: usize, random: &mut Random) -> Buffers {
    let mut lent = Buffers::any(1, pool.max(slots), arena, random);
    lent.dir.truncate(pool);
    lent.slots.truncate(slots);
    lent
}
