//! Stands for stack-map: the pairs of one leaf, here a sorted vector.
//!
//! Assumes: the map holds at most F pairs, `is_full` means exactly F,
//! `split_off(i)` leaves the first i pairs and gives the others, and `insert`
//! of a present key replaces its value and gives the old one.
#![forbid(unsafe_code)]

use std::borrow::Borrow;

#[derive(Clone, Debug, Default)]
pub struct StackMap<K, V, const F: usize> {
    pairs: Vec<(K, V)>,
}

impl<K: Ord, V, const F: usize> StackMap<K, V, F> {
    pub const fn len(&self) -> usize {
        self.pairs.len()
    }

    pub const fn is_empty(&self) -> bool {
        self.pairs.is_empty()
    }

    pub const fn is_full(&self) -> bool {
        self.len() == F
    }

    pub fn iter(&self) -> std::slice::Iter<'_, (K, V)> {
        self.pairs.iter()
    }

    pub fn first(&self) -> Option<&(K, V)> {
        self.pairs.first()
    }

    pub fn last(&self) -> Option<&(K, V)> {
        self.pairs.last()
    }

    pub fn get<Q: Ord + ?Sized>(&self, key: &Q) -> Option<&V>
    where
        K: Borrow<Q>,
    {
        let place = self.place(key).ok()?;
        Some(&self.pairs[place].1)
    }

    pub fn insert(&mut self, key: K, value: V) -> Option<V> {
        match self.place(&key) {
            Ok(place) => Some(std::mem::replace(&mut self.pairs[place].1, value)),
            Err(place) => {
                assert!(!self.is_full());
                self.pairs.insert(place, (key, value));
                None
            }
        }
    }

    pub fn remove<Q: Ord + ?Sized>(&mut self, key: &Q) -> Option<V>
    where
        K: Borrow<Q>,
    {
        let place = self.place(key).ok()?;
        Some(self.pairs.remove(place).1)
    }

    pub fn split_off(&mut self, kept: usize) -> Self {
        StackMap {
            pairs: self.pairs.split_off(kept),
        }
    }

    /// Where the key stands, or where it would.
    fn place<Q: Ord + ?Sized>(&self, key: &Q) -> Result<usize, usize>
    where
        K: Borrow<Q>,
    {
        self.pairs
            .binary_search_by(|(present, _)| present.borrow().cmp(key))
    }
}
