//! Worlds so small that every leaf list that meets W, and every layout of it,
//! can be written down.

use reference::buffers::{Buffers, Header};
use reference::leaves::{Leaf, Leaves};
use reference::words::{DirectoryWord, SlotWord};

pub const FANOUT: usize = 3;

pub type Held = (Header, Buffers);

pub struct World {
    pub pool: usize,
    pub arena_len: usize,
    /// The only bytes that occur in the arena.
    pub letters: &'static [u8],
}

impl World {
    /// All headers and buffers that meet W, words out of use being 0.
    pub fn members(&self) -> Vec<Held> {
        let mut members = Vec::new();
        let (lists, strings) = (self.lists(), self.strings());
        for arena in strings.iter().filter(|it| it.len() == self.arena_len) {
            for leaves in &lists {
                for offsets in placements(&parts(leaves), arena) {
                    for numbers in arrangements(self.pool, leaves.list.len()) {
                        members.push(self.held(leaves, &numbers, arena, &offsets));
                    }
                }
            }
        }
        members
    }

    /// All byte strings that fit in the arena, the shorter ones first.
    fn strings(&self) -> Vec<Vec<u8>> {
        let mut strings = vec![Vec::new()];
        let mut at = 0;
        while strings[at].len() < self.arena_len {
            for letter in self.letters {
                strings.push([&strings[at][..], &[*letter]].concat());
            }
            at += 1;
        }
        strings
    }

    /// All lists that meet W, leaf numbers aside. Leaves are added first, then
    /// pairs from left to right, so that no list is met twice.
    fn lists(&self) -> Vec<Leaves> {
        let strings = self.strings();
        let mut lists = vec![Leaves::fresh(FANOUT)];
        let mut at = 0;
        while at < lists.len() {
            let mut more = with_one_leaf_more(&lists[at], &strings, self.pool);
            more.extend(with_one_pair_more(&lists[at], &strings));
            more.retain(|leaves| leaves.charge() <= self.arena_len);
            lists.extend(more);
            at += 1;
        }
        lists.retain(|leaves| {
            let (_, but_the_last) = leaves.list.split_last().unwrap();
            but_the_last.iter().all(|leaf| !leaf.pairs.is_empty())
        });
        lists
    }

    fn held(&self, leaves: &Leaves, numbers: &[usize], arena: &[u8], offsets: &[usize]) -> Held {
        let (mut dir, mut slots) = (vec![0; self.pool], vec![0; FANOUT * self.pool]);
        let mut offsets = offsets.iter();
        let mut word = |suffix: &[u8], value: &[u8]| {
            let word = SlotWord {
                offset: *offsets.next().unwrap(),
                suffix_length: suffix.len(),
                value_length: value.len(),
            };
            word.pack()
        };
        for (at, leaf) in leaves.list.iter().enumerate() {
            let (number, count) = (numbers[at], leaf.pairs.len());
            dir[at] = DirectoryWord { number, count }.pack();
            slots[number * FANOUT + FANOUT - 1] = word(&leaf.low, &[]);
            for (slot, (key, value)) in leaf.pairs.iter().enumerate() {
                slots[number * FANOUT + slot] = word(leaves.suffix(at, key), value);
            }
        }
        let header = Header {
            fanout: FANOUT,
            leaves: leaves.list.len(),
            pairs: leaves.pair_count(),
            charge: leaves.charge(),
        };
        let arena = arena.to_vec();
        (header, Buffers { dir, slots, arena })
    }
}

fn with_one_leaf_more(leaves: &Leaves, strings: &[Vec<u8>], pool: usize) -> Vec<Leaves> {
    if leaves.pair_count() > 0 || leaves.list.len() == pool {
        return Vec::new();
    }
    let last = &leaves.list[leaves.list.len() - 1];
    let lows = strings.iter().filter(|low| **low > last.low);
    let with_low = |low: &Vec<u8>| {
        let (number, low, pairs) = (0, low.clone(), Vec::new());
        let mut more = leaves.clone();
        more.list.push(Leaf { number, low, pairs });
        more
    };
    lows.map(with_low).collect()
}

fn with_one_pair_more(leaves: &Leaves, strings: &[Vec<u8>]) -> Vec<Leaves> {
    let mut grown = Vec::new();
    let rightmost = leaves.list.iter().rposition(|leaf| !leaf.pairs.is_empty());
    for at in rightmost.unwrap_or(0)..leaves.list.len() {
        for key in strings.iter().filter(|key| may_follow(leaves, at, key)) {
            for value in strings {
                let mut more = leaves.clone();
                more.list[at].pairs.push((key.clone(), value.clone()));
                grown.push(more);
            }
        }
    }
    grown
}

/// L1, L3: whether the key may be the next one of the leaf at `at`.
fn may_follow(leaves: &Leaves, at: usize, key: &[u8]) -> bool {
    let leaf = &leaves.list[at];
    let spanned = *leaf.low <= *key && leaves.upper(at).is_none_or(|upper| key < upper);
    let above = leaf.keys().last().is_none_or(|last| **last < *key);
    spanned && above && leaf.pairs.len() < FANOUT - 1
}

/// The bytes of all parts in rule G's order.
fn parts(leaves: &Leaves) -> Vec<Vec<u8>> {
    let mut parts = Vec::new();
    for (at, leaf) in leaves.list.iter().enumerate() {
        parts.push(leaf.low.clone());
        for (key, value) in &leaf.pairs {
            parts.push([leaves.suffix(at, key), value].concat());
        }
    }
    parts
}

/// All places, one after the other, where the arena has the parts' bytes.
fn placements(parts: &[Vec<u8>], arena: &[u8]) -> Vec<Vec<usize>> {
    let mut placements = vec![(0, Vec::new())];
    for part in parts {
        let mut longer = Vec::new();
        for (end, offsets) in &placements {
            for offset in *end..=arena.len() {
                if arena[offset..].starts_with(part) {
                    let offsets = [&offsets[..], &[offset]].concat();
                    longer.push((offset + part.len(), offsets));
                }
            }
        }
        placements = longer;
    }
    let placements = placements.into_iter().map(|(_, offsets)| offsets);
    placements.collect()
}

/// All ways to number so many leaves.
fn arrangements(pool: usize, leaves: usize) -> Vec<Vec<usize>> {
    let mut arrangements = vec![Vec::new()];
    for _ in 0..leaves {
        let mut longer = Vec::new();
        for numbers in &arrangements {
            for number in (0..pool).filter(|number| !numbers.contains(number)) {
                longer.push([&numbers[..], &[number]].concat());
            }
        }
        arrangements = longer;
    }
    arrangements
}
