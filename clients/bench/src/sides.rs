//! Those that are compared, behind the same calls. An answer is a number, so
//! that the driver can see that all did the same work.

use crate::lent::Lent;
use olybzhan::Index;
use sled_oracle::Sled;
use std::collections::BTreeMap;
use std::hint::black_box;
use std::ops::Bound::{Excluded, Included, Unbounded};

/// What the index and sled's leaves are made with. The others have no such
/// sizes.
pub const FANOUT: usize = 64;
pub const POOL: usize = 4_096;
pub const ARENA: usize = 1_048_576;

pub trait Changes {
    fn insert(&mut self, key: &[u8], value: &[u8]) -> usize;
    fn remove(&mut self, key: &[u8]) -> usize;
    fn clear(&mut self);
    /// Another with these pairs, which are its own.
    fn copy(&self, pairs: &[(Vec<u8>, Vec<u8>)]) -> Box<dyn Changes>;
    /// How many pairs there are.
    fn count(&self) -> usize;
}

pub trait Side: Changes {
    fn get(&self, key: &[u8]) -> usize;
    fn contains_key(&self, key: &[u8]) -> usize;
    /// The first pair from the key on, and above it: its lengths.
    fn first_in_range(&self, key: &[u8]) -> usize;
    fn get_gt(&self, key: &[u8]) -> usize;
    fn first(&self) -> usize;
    /// How many pairs have the prefix, by listing them.
    fn scan_prefix(&self, prefix: &[u8]) -> usize;
    /// What only the index has: its test of W, a prefix's range, which asks no
    /// index, and a leaf by its place.
    fn holds_index(&self) -> Option<usize> {
        None
    }
    fn prefix_range(&self, _: &[u8]) -> Option<usize> {
        None
    }
    fn leaf_at(&self, _: usize) -> Option<usize> {
        None
    }
}

/// The index whose header goes by value, which is the Rust crate's.
pub fn empty() -> [Box<dyn Side>; 3] {
    let index = Index::new(FANOUT, POOL, ARENA).expect("the greatest sizes");
    [Box::new(index), Box::new(sled()), Box::new(Map::new())]
}

/// The index whose header is lent.
pub fn empty_lent() -> [Box<dyn Changes>; 3] {
    [
        Box::new(Lent::new()),
        Box::new(sled()),
        Box::new(Map::new()),
    ]
}

/// What makes an empty one of each: of the index, `create` in its buffers.
pub fn creations(index: &mut Lent) -> [Box<dyn FnMut() + '_>; 3] {
    [
        Box::new(|| index.create()),
        Box::new(|| _ = black_box(sled())),
        Box::new(|| _ = black_box(Map::new())),
    ]
}

type Map = BTreeMap<Vec<u8>, Vec<u8>>;

fn sled() -> Sled {
    Sled::new(FANOUT).expect("a fanout of the oracle")
}

fn lengths<K: AsRef<[u8]>, V: AsRef<[u8]>>(pair: Option<(K, V)>) -> usize {
    pair.map_or(0, |(key, value)| key.as_ref().len() + value.as_ref().len())
}

impl Changes for Index {
    fn insert(&mut self, key: &[u8], value: &[u8]) -> usize {
        let old = self.insert_into(key, value, &mut [0; 64]).unwrap();
        old.unwrap_or(0)
    }

    fn remove(&mut self, key: &[u8]) -> usize {
        let old = self.remove_into(key, &mut [0; 64]).unwrap();
        old.unwrap_or(0)
    }

    fn clear(&mut self) {
        self.clear().unwrap();
    }

    fn copy(&self, _: &[(Vec<u8>, Vec<u8>)]) -> Box<dyn Changes> {
        Box::new(self.clone())
    }

    fn count(&self) -> usize {
        self.len().unwrap()
    }
}

impl Side for Index {
    fn get(&self, key: &[u8]) -> usize {
        self.get(key).unwrap().map_or(0, <[u8]>::len)
    }

    fn contains_key(&self, key: &[u8]) -> usize {
        self.contains_key(key).unwrap().into()
    }

    fn first_in_range(&self, key: &[u8]) -> usize {
        let pair = self.range::<[u8], _>((Included(key), Unbounded)).next();
        lengths(pair.map(Result::unwrap))
    }

    fn get_gt(&self, key: &[u8]) -> usize {
        lengths(self.get_gt(key).unwrap())
    }

    fn first(&self) -> usize {
        lengths(self.first().unwrap())
    }

    fn scan_prefix(&self, prefix: &[u8]) -> usize {
        self.scan_prefix(prefix).map(Result::unwrap).count()
    }

    fn holds_index(&self) -> Option<usize> {
        Some(self.holds_index().into())
    }

    fn prefix_range(&self, prefix: &[u8]) -> Option<usize> {
        let range = self.scan_prefix(prefix);
        Some(size_of_val(black_box(&range)))
    }

    fn leaf_at(&self, place: usize) -> Option<usize> {
        self.leaf_at(place).unwrap().map(|leaf| leaf.pairs)
    }
}

impl Changes for Sled {
    fn insert(&mut self, key: &[u8], value: &[u8]) -> usize {
        (**self).insert(key, value).map_or(0, |old| old.len())
    }

    fn remove(&mut self, key: &[u8]) -> usize {
        (**self).remove(key).map_or(0, |old| old.len())
    }

    fn clear(&mut self) {
        (**self).clear();
    }

    fn copy(&self, pairs: &[(Vec<u8>, Vec<u8>)]) -> Box<dyn Changes> {
        let mut other = sled();
        for (key, value) in pairs {
            Changes::insert(&mut other, key, value);
        }
        Box::new(other)
    }

    fn count(&self) -> usize {
        (**self).len()
    }
}

impl Side for Sled {
    fn get(&self, key: &[u8]) -> usize {
        (**self).get(key).map_or(0, |value| value.len())
    }

    fn contains_key(&self, key: &[u8]) -> usize {
        (**self).contains_key(key).into()
    }

    fn first_in_range(&self, key: &[u8]) -> usize {
        lengths((**self).range_first(Included(key), Unbounded))
    }

    fn get_gt(&self, key: &[u8]) -> usize {
        lengths((**self).get_gt(key))
    }

    fn first(&self) -> usize {
        lengths((**self).first())
    }

    fn scan_prefix(&self, prefix: &[u8]) -> usize {
        self.scan_prefix_all(prefix).len()
    }
}

impl Changes for Map {
    fn insert(&mut self, key: &[u8], value: &[u8]) -> usize {
        let old = self.insert(key.to_vec(), value.to_vec());
        old.map_or(0, |old| old.len())
    }

    fn remove(&mut self, key: &[u8]) -> usize {
        self.remove(key).map_or(0, |old| old.len())
    }

    fn clear(&mut self) {
        self.clear();
    }

    fn copy(&self, _: &[(Vec<u8>, Vec<u8>)]) -> Box<dyn Changes> {
        Box::new(self.clone())
    }

    fn count(&self) -> usize {
        self.len()
    }
}

impl Side for Map {
    fn get(&self, key: &[u8]) -> usize {
        self.get(key).map_or(0, Vec::len)
    }

    fn contains_key(&self, key: &[u8]) -> usize {
        self.contains_key(key).into()
    }

    fn first_in_range(&self, key: &[u8]) -> usize {
        lengths(self.range::<[u8], _>((Included(key), Unbounded)).next())
    }

    fn get_gt(&self, key: &[u8]) -> usize {
        lengths(self.range::<[u8], _>((Excluded(key), Unbounded)).next())
    }

    fn first(&self) -> usize {
        lengths(self.first_key_value())
    }

    fn scan_prefix(&self, prefix: &[u8]) -> usize {
        let pairs = self.range::<[u8], _>((Included(prefix), Unbounded));
        pairs.take_while(|(key, _)| key.starts_with(prefix)).count()
    }
}
