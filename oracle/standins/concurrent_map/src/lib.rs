//! Stands for concurrent-map: an ordered map with many handles, here one
//! `BTreeMap` that all clones share.
//!
//! Assumes: one thread; `get_lte` and `get_lt` give the last entry at or
//! below, or below, the key; entries are handed out as clones.
#![forbid(unsafe_code)]

use std::borrow;
use std::cell::RefCell;
use std::collections::BTreeMap;
use std::ops::{Bound, RangeBounds};
use std::rc::Rc;

pub trait Minimum {
    const MIN: Self;
}

#[derive(Clone)]
pub struct ConcurrentMap<K, V> {
    entries: Rc<RefCell<BTreeMap<K, V>>>,
}

impl<K, V> Default for ConcurrentMap<K, V> {
    fn default() -> Self {
        ConcurrentMap {
            entries: Rc::default(),
        }
    }
}

impl<K: Ord + Clone, V: Clone> ConcurrentMap<K, V> {
    pub fn insert(&self, key: K, value: V) -> Option<V> {
        self.entries.borrow_mut().insert(key, value)
    }

    pub fn remove(&self, key: &K) -> Option<V> {
        self.entries.borrow_mut().remove(key)
    }

    pub fn get(&self, key: &K) -> Option<V> {
        self.entries.borrow().get(key).cloned()
    }

    pub fn get_lte<Q: Ord + ?Sized>(&self, key: &Q) -> Option<(K, V)>
    where
        K: borrow::Borrow<Q>,
    {
        self.last_in((Bound::Unbounded, Bound::Included(key)))
    }

    pub fn get_lt(&self, key: &K) -> Option<(K, V)> {
        self.last_in(..key)
    }

    pub fn last(&self) -> Option<(K, V)> {
        self.last_in(..)
    }

    /// The entries as they are now, later changes don't show.
    pub fn range<Q: Ord + ?Sized, R: RangeBounds<Q>>(&self, range: R) -> std::vec::IntoIter<(K, V)>
    where
        K: borrow::Borrow<Q>,
    {
        let entries = self.entries.borrow();
        let found: Vec<(K, V)> = entries.range(range).map(cloned).collect();
        found.into_iter()
    }

    fn last_in<Q: Ord + ?Sized, R: RangeBounds<Q>>(&self, range: R) -> Option<(K, V)>
    where
        K: borrow::Borrow<Q>,
    {
        self.entries.borrow().range(range).next_back().map(cloned)
    }
}

fn cloned<K: Clone, V: Clone>((key, value): (&K, &V)) -> (K, V) {
    (key.clone(), value.clone())
}
