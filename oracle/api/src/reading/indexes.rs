//! Random indexes: some that calls lead to, and some that none need lead to.

use crate::damages::any_index;
use reference::buffers::{Buffers, Header};
use reference::index::{Index, KEY_LIMIT};
use reference::layout::write;
use reference::leaves::Leaves;
use reference::random::Random;

const FANOUTS: [usize; 6] = [3, 3, 4, 5, 8, 64];
const POOL: usize = 40;
const ARENA: usize = 20_000;
const MOST_CALLS: usize = 80;
const LETTERS: [u8; 4] = [0x00, 0x61, 0x62, 0xff];

pub fn any(random: &mut Random) -> (Header, Buffers) {
    let mut leaves = match random.below(4) {
        0 | 1 => return any_index(random),
        _ => by_calls(random),
    };
    if random.one_in(2) {
        move_low_keys(&mut leaves, random);
    }
    let arena = ARENA.max(leaves.charge());
    write(&leaves, POOL, arena, random)
}

/// Inserts and removes; some may be refused.
fn by_calls(random: &mut Random) -> Leaves {
    let fanout = random.pick(&FANOUTS);
    let index = Index::create(fanout, POOL, fanout * POOL, ARENA);
    let mut index = index.expect("sizes within limits");
    // What all keys begin with; a long one leaves room for few letters.
    let stem = vec![0x61; random.pick(&[0, 0, 0, 2, KEY_LIMIT - 3])];
    for call in 0..random.below(MOST_CALLS + 1) {
        let key = [&stem[..], &letters(3, random)].concat();
        let value = letters(2, random);
        let mut old = [0; 2];
        let _ = match call % 4 {
            3 => index.remove(&key, &mut old),
            _ => index.insert(&key, &value, &mut old),
        };
    }
    index.leaves().clone()
}

fn letters(most: usize, random: &mut Random) -> Vec<u8> {
    let length = random.below(most + 1);
    (0..length).map(|_| random.pick(&LETTERS)).collect()
}

/// Low keys that still part the same keys, but are no separators: the largest
/// key on the left with zeros behind it.
fn move_low_keys(leaves: &mut Leaves, random: &mut Random) {
    for at in 1..leaves.list.len() {
        let left = leaves.list[at - 1].keys().last();
        let mut low = left.expect("only the last leaf may be empty").clone();
        low.resize(low.len() + 1 + random.below(KEY_LIMIT), 0x00);
        let parts = leaves.list[at].keys().all(|key| low <= *key);
        if parts && low.len() <= KEY_LIMIT {
            leaves.list[at].low = low;
        }
    }
}
