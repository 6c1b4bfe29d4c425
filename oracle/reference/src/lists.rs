//! Random leaf lists that meet W. No calls need lead to them: pool numbers are
//! scattered, low keys part no keys, leaves hold as few pairs as they may.

use crate::index::{ARENA_LIMIT, KEY_LIMIT, POOLS, VALUE_LIMIT};
use crate::leaves::{Leaf, Leaves, Pair};
use crate::random::Random;
use std::collections::BTreeSet;

const LETTERS: [u8; 4] = [0x00, 0x61, 0x80, 0xff];

/// A leaf list, and sizes of buffers that it fits in.
#[derive(Clone, Debug)]
pub struct Drawn {
    pub leaves: Leaves,
    pub pool: usize,
    pub arena_len: usize,
}

#[derive(Clone, Copy)]
enum Filling {
    One,
    Full,
    Any,
}

/// What the leaves of one list have in common.
struct Plan {
    fanout: usize,
    pool: usize,
    filling: Filling,
    key_limit: usize,
    value_limit: usize,
    /// Many keys begin with it, so that leaves have long prefixes.
    stem: Vec<u8>,
}

pub fn draw(random: &mut Random) -> Drawn {
    loop {
        let plan = Plan::draw(random);
        let leaves = plan.leaves(random);
        let charge = leaves.charge();
        if charge <= ARENA_LIMIT {
            let slack = match random.below(32) {
                0 => ARENA_LIMIT,
                1..=15 => 0,
                16..=23 => random.below(9),
                _ => random.below(charge + 50),
            };
            return Drawn {
                leaves,
                pool: plan.pool,
                arena_len: ARENA_LIMIT.min(charge + slack),
            };
        }
    }
}

impl Plan {
    fn draw(random: &mut Random) -> Plan {
        let any_fanout = 3 + random.below(62);
        let some_pool = 1 + random.below(40);
        let whole_pool = random.one_in(100);
        let long_values = !whole_pool && random.one_in(50);
        let key_limit = random.pick(&[0, 1, 2, 3, 4, 6, 20, KEY_LIMIT]);
        let value_limit = random.pick(&[0, 1, 4, 300]);
        let filling = random.pick(&[Filling::One, Filling::Full, Filling::Any]);
        // What is large by itself gets few pairs, or it would seldom fit.
        let few = whole_pool || long_values;
        Plan {
            fanout: random.pick(&[3, 3, 4, 5, 64, any_fanout, any_fanout]),
            pool: if whole_pool { *POOLS.end() } else { some_pool },
            filling: if few { Filling::One } else { filling },
            key_limit,
            value_limit: if long_values {
                VALUE_LIMIT
            } else {
                value_limit
            },
            stem: letters(random.below(key_limit + 1), random),
        }
    }

    fn leaves(&self, random: &mut Random) -> Leaves {
        let some = 1 + random.below(self.pool);
        let wanted = random.pick(&[1, some, some, some, self.pool]);
        let mut lows = BTreeSet::from([Vec::new()]);
        for _ in 0..4 * wanted {
            if lows.len() < wanted {
                lows.insert(self.key(random));
            }
        }
        let lows: Vec<Vec<u8>> = lows.into_iter().collect();
        let numbers = self.numbers(random);
        let mut list = Vec::new();
        for (at, low) in lows.iter().enumerate() {
            list.push(Leaf {
                number: numbers[at],
                low: low.clone(),
                pairs: self.pairs(low, lows.get(at + 1), random),
            });
        }
        Leaves {
            fanout: self.fanout,
            list,
        }
    }

    fn numbers(&self, random: &mut Random) -> Vec<usize> {
        let mut numbers: Vec<usize> = (0..self.pool).collect();
        if !random.one_in(4) {
            random.shuffle(&mut numbers);
        }
        numbers
    }

    /// A leaf with an upper key can always hold its own low key. The leaf
    /// without one may stay empty.
    fn pairs(&self, low: &[u8], upper: Option<&Vec<u8>>, random: &mut Random) -> Vec<Pair> {
        let wanted = match self.filling {
            _ if upper.is_none() && random.one_in(2) => return Vec::new(),
            Filling::One => 1,
            Filling::Full => self.fanout - 1,
            Filling::Any => 1 + random.below(self.fanout - 1),
        };
        let mut keys = BTreeSet::new();
        for _ in 0..4 * wanted {
            let key = match random.below(4) {
                0 => self.key(random),
                _ => self.longer(low, random),
            };
            let spanned = low <= key.as_slice() && upper.is_none_or(|upper| key < *upper);
            if spanned && keys.len() < wanted {
                keys.insert(key);
            }
        }
        if keys.is_empty() {
            keys.insert(low.to_vec());
        }
        let pairs = keys.into_iter().map(|key| (key, self.value(random)));
        pairs.collect()
    }

    fn key(&self, random: &mut Random) -> Vec<u8> {
        let whole = self.stem.len();
        let part = random.below(whole + 1);
        let cut = random.pick(&[0, part, whole]);
        self.longer(&self.stem[..cut], random)
    }

    fn longer(&self, start: &[u8], random: &mut Random) -> Vec<u8> {
        let more = length(self.key_limit - start.len(), random);
        [start, &letters(more, random)].concat()
    }

    fn value(&self, random: &mut Random) -> Vec<u8> {
        let length = length(self.value_limit, random);
        letters(length, random)
    }
}

/// Mostly short; now and then as long as may be.
fn length(limit: usize, random: &mut Random) -> usize {
    match random.below(16) {
        0 => limit,
        1 => random.below(limit + 1),
        _ => random.below(limit.min(3) + 1),
    }
}

/// Long strings repeat themselves, which is quicker to draw.
fn letters(length: usize, random: &mut Random) -> Vec<u8> {
    let drawn: Vec<u8> = (0..length.min(40)).map(|_| random.pick(&LETTERS)).collect();
    drawn.into_iter().cycle().take(length).collect()
}
