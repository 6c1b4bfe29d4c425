//! `leaf_at` for every leaf, behind the last one, and far behind it.

use super::on_indexes;
use crate::reads::{Read, Reader};
use crate::tally::Tally;

/// Times 4, 8 or the fanout some leave 64 bits; others are small when cut.
const FAR: [usize; 8] = [
    1 << 12,
    1 << 20,
    1 << 32,
    (1 << 32) + 1,
    1 << 61,
    1 << 62,
    1 << 63,
    usize::MAX,
];
/// Of a longer list only some leaves are asked for.
const MOST_LEAVES: usize = 40;

pub fn run(reader: &dyn Reader, seed: u64, indexes: usize) -> Result<Tally, String> {
    on_indexes(reader, seed, indexes, |session, random| {
        let leaves = session.leaves();
        let count = leaves.list.len();
        let steps = count.div_ceil(MOST_LEAVES);
        for at in (0..count).step_by(steps) {
            session.ask(Read::LeafAt(at), 0)?;
        }
        for at in [count - 1, count, count + 1, random.pick(&FAR)] {
            session.ask(Read::LeafAt(at), 0)?;
        }
        Ok(())
    })
}
