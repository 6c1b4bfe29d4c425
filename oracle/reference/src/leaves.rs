//! The leaf list and its rules L1 to L9. Byte strings are compared as Rust's
//! standard library documents it for slices: lexicographic, unsigned.

use crate::range::Range;

/// A full key and its value.
pub type Pair = (Vec<u8>, Vec<u8>);

/// L1. The upper key is not kept here: it is the next leaf's low key.
#[derive(Clone, Debug, PartialEq, Eq)]
pub struct Leaf {
    /// Pool number.
    pub number: usize,
    /// Low key.
    pub low: Vec<u8>,
    /// Keys rise strictly.
    pub pairs: Vec<Pair>,
}

/// The leaves in key order.
#[derive(Clone, Debug, PartialEq, Eq)]
pub struct Leaves {
    pub fanout: usize,
    pub list: Vec<Leaf>,
}

/// The number of equal leading bytes.
pub fn common(a: &[u8], b: &[u8]) -> usize {
    a.iter().zip(b).take_while(|(x, y)| x == y).count()
}

/// L4: how many of `n` pairs stay in the left half. The first test wins.
pub fn split_offset(n: usize, low_is_empty: bool, has_upper: bool) -> usize {
    if low_is_empty {
        return 1;
    }
    if !has_upper {
        return n - 2;
    }
    n / 2
}

/// L5: the separator of the largest left and the smallest right full key.
pub fn separator(largest_left: &[u8], smallest_right: &[u8]) -> Vec<u8> {
    let length = common(largest_left, smallest_right) + 1;
    smallest_right[..length].to_vec()
}

impl Leaf {
    pub fn keys(&self) -> impl Iterator<Item = &Vec<u8>> {
        self.pairs.iter().map(|(key, _)| key)
    }

    /// Where the key's pair stands, or else where it would.
    fn place(&self, key: &[u8]) -> Result<usize, usize> {
        self.pairs.binary_search_by_key(&key, |(key, _)| key)
    }

    /// Adds or replaces a pair and gives the old value.
    fn put(&mut self, key: &[u8], value: &[u8]) -> Option<Vec<u8>> {
        match self.place(key) {
            Ok(at) => Some(std::mem::replace(&mut self.pairs[at].1, value.to_vec())),
            Err(at) => {
                self.pairs.insert(at, (key.to_vec(), value.to_vec()));
                None
            }
        }
    }

    /// Takes a pair out and gives its value.
    fn take(&mut self, key: &[u8]) -> Option<Vec<u8>> {
        let at = self.place(key).ok()?;
        Some(self.pairs.remove(at).1)
    }
}

impl Leaves {
    /// L8: a fresh index is one leaf, pool number 0, low key empty, no pairs.
    pub fn fresh(fanout: usize) -> Leaves {
        let (number, low, pairs) = (0, Vec::new(), Vec::new());
        let list = vec![Leaf { number, low, pairs }];
        Leaves { fanout, list }
    }

    /// L1: the upper key of the leaf at `at`, or none.
    pub fn upper(&self, at: usize) -> Option<&[u8]> {
        self.list.get(at + 1).map(|right| right.low.as_slice())
    }

    /// L1: the place of the leaf that spans `key`. A key equal to a separator
    /// belongs to the right leaf.
    pub fn owner(&self, key: &[u8]) -> usize {
        let begun = |leaf: &&Leaf| leaf.low.as_slice() <= key;
        self.list[1..].iter().filter(begun).count()
    }

    /// L2: the prefix length of the leaf at `at`.
    pub fn prefix_length(&self, at: usize) -> usize {
        match self.upper(at) {
            Some(upper) => common(&self.list[at].low, upper),
            None => 0,
        }
    }

    /// L2: what a slot of the leaf at `at` stores of `key`.
    pub fn suffix<'k>(&self, at: usize, key: &'k [u8]) -> &'k [u8] {
        &key[self.prefix_length(at)..]
    }

    pub fn get(&self, key: &[u8]) -> Option<&[u8]> {
        let leaf = &self.list[self.owner(key)];
        let at = leaf.place(key).ok()?;
        Some(&leaf.pairs[at].1)
    }

    /// L3: insert first, then split if the leaf holds exactly F pairs.
    pub fn insert(&mut self, key: &[u8], value: &[u8]) -> Option<Vec<u8>> {
        let at = self.owner(key);
        let old = self.list[at].put(key, value);
        if self.list[at].pairs.len() == self.fanout {
            self.split(at);
        }
        old
    }

    /// L6: the right half is a new leaf with the separator as low key. Upper
    /// keys and prefix lengths follow from the low keys.
    fn split(&mut self, at: usize) {
        let n = self.list[at].pairs.len();
        let offset = split_offset(n, self.list[at].low.is_empty(), self.upper(at).is_some());
        let number = self.lowest_free_number();
        let pairs = self.list[at].pairs.split_off(offset);
        let largest_left = &self.list[at].pairs[offset - 1].0;
        let low = separator(largest_left, &pairs[0].0);
        self.list.insert(at + 1, Leaf { number, low, pairs });
    }

    /// L6: the lowest number that no leaf has. It lies outside the pool where
    /// no leaf is free.
    fn lowest_free_number(&self) -> usize {
        let mut number = 0;
        while self.list.iter().any(|leaf| leaf.number == number) {
            number += 1;
        }
        number
    }

    /// L7: only where the key was present, its pair the leaf's last, and the
    /// leaf has an upper key, does the leaf take its right neighbour.
    pub fn remove(&mut self, key: &[u8]) -> Option<Vec<u8>> {
        let at = self.owner(key);
        let old = self.list[at].take(key)?;
        if self.list[at].pairs.is_empty() && self.upper(at).is_some() {
            self.merge(at);
        }
        Some(old)
    }

    /// L7: the leaf keeps its low key and takes its right neighbour's pairs
    /// and upper key; the neighbour's pool number is free again.
    fn merge(&mut self, at: usize) {
        let neighbour = self.list.remove(at + 1);
        self.list[at].pairs = neighbour.pairs;
    }

    /// L8: ends as a fresh index.
    pub fn clear(&mut self) {
        *self = Leaves::fresh(self.fanout);
    }

    /// The scan goes on through the leaves after the start key's own.
    pub fn first_in_range(&self, range: Range, start: &[u8], end: &[u8]) -> Option<&Pair> {
        let from = self.owner(range.start.key(start));
        let mut pairs = self.list[from..].iter().flat_map(|leaf| &leaf.pairs);
        pairs.find(|(key, _)| range.above_start(start, key) && range.below_end(end, key))
    }

    pub fn pair_count(&self) -> usize {
        self.list.iter().map(|leaf| leaf.pairs.len()).sum()
    }

    /// L9: the charge.
    pub fn charge(&self) -> usize {
        let mut charge = 0;
        for leaf in &self.list {
            charge += leaf.low.len();
            for (key, value) in &leaf.pairs {
                charge += key.len();
                charge += value.len();
            }
        }
        charge
    }

    /// L9: the stored bytes, with each key cut to its suffix.
    pub fn stored(&self) -> usize {
        let mut stored = 0;
        for (at, leaf) in self.list.iter().enumerate() {
            stored += leaf.low.len();
            for (key, value) in &leaf.pairs {
                stored += self.suffix(at, key).len();
                stored += value.len();
            }
        }
        stored
    }
}
