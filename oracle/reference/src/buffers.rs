//! The header and the lent buffers, and how words and bytes are found in them.

use crate::leaves::{Leaf, Leaves, Pair};
use crate::random::Random;
use crate::words::{DirectoryWord, SlotWord};

#[repr(C)]
#[derive(Clone, Copy, Debug, PartialEq, Eq, Hash)]
pub struct Header {
    pub fanout: usize,
    pub leaves: usize,
    pub pairs: usize,
    pub charge: usize,
}

/// The pool is the directory's length.
#[derive(Clone, Debug, PartialEq, Eq, Hash)]
pub struct Buffers {
    pub dir: Vec<u32>,
    pub slots: Vec<u64>,
    pub arena: Vec<u8>,
}

impl Buffers {
    /// Buffers of these sizes with any contents.
    pub fn any(fanout: usize, pool: usize, arena_len: usize, random: &mut Random) -> Buffers {
        let keep = random.pick(&[0, u64::MAX, u64::MAX]);
        let flip = random.pick(&[0, 0, u64::MAX]);
        let mut word = || random.word() & keep ^ flip;
        let dir = (0..pool).map(|_| word() as u32).collect();
        let slots = (0..fanout * pool).map(|_| word()).collect();
        let mut arena = Vec::new();
        while arena.len() < arena_len {
            arena.extend(word().to_le_bytes());
        }
        arena.truncate(arena_len);
        Buffers { dir, slots, arena }
    }
}

/// A header and buffers as they came, to be judged.
#[derive(Clone, Copy)]
pub(crate) struct Lent<'a> {
    pub header: &'a Header,
    pub dir: &'a [u32],
    pub slots: &'a [u64],
    pub arena: &'a [u8],
}

impl Lent<'_> {
    /// The used leaves in key order. Presumes no more of them than the pool.
    pub fn directory(&self) -> impl Iterator<Item = DirectoryWord> + '_ {
        let used = &self.dir[..self.header.leaves];
        used.iter().map(|word| DirectoryWord::unpack(*word))
    }

    /// A leaf's last slot word, which is its low key's. Presumes a number in
    /// the pool and true buffer lengths.
    pub fn low_word(&self, leaf: DirectoryWord) -> SlotWord {
        let last = self.header.fanout - 1;
        SlotWord::unpack(self.slots[leaf.number * self.header.fanout + last])
    }

    /// A leaf's pairs. Presumes besides that there are at most F - 1.
    pub fn pair_words(&self, leaf: DirectoryWord) -> impl Iterator<Item = SlotWord> + '_ {
        let from = leaf.number * self.header.fanout;
        let words = &self.slots[from..from + leaf.count];
        words.iter().map(|word| SlotWord::unpack(*word))
    }

    /// All parts: leaves in key order, of each its low key, then its pairs.
    pub fn parts(&self) -> Vec<SlotWord> {
        let mut parts = Vec::new();
        for leaf in self.directory() {
            parts.push(self.low_word(leaf));
            parts.extend(self.pair_words(leaf));
        }
        parts
    }

    /// The leaf list. Presumes besides that all parts lie inside the arena.
    pub fn leaf_list(&self) -> Leaves {
        let mut leaves = Leaves {
            fanout: self.header.fanout,
            list: self.directory().map(|leaf| self.bare_leaf(leaf)).collect(),
        };
        for (at, leaf) in self.directory().enumerate() {
            // L2: what the slots leave out follows from the low keys.
            let prefix = &leaves.list[at].low[..leaves.prefix_length(at)];
            let pairs = self.pair_words(leaf).map(|word| self.pair(prefix, word));
            leaves.list[at].pairs = pairs.collect();
        }
        leaves
    }

    fn bare_leaf(&self, leaf: DirectoryWord) -> Leaf {
        let word = self.low_word(leaf);
        Leaf {
            number: leaf.number,
            low: self.arena[word.offset..word.middle()].to_vec(),
            pairs: Vec::new(),
        }
    }

    fn pair(&self, prefix: &[u8], word: SlotWord) -> Pair {
        let suffix = &self.arena[word.offset..word.middle()];
        let value = &self.arena[word.middle()..word.end()];
        ([prefix, suffix].concat(), value.to_vec())
    }
}
