//! What sled's index holds: one object a leaf.

use std::collections::BTreeMap;
use std::io;
use std::ops::Bound;
use std::sync::Arc;

use concurrent_map::ConcurrentMap;
use inline_array::InlineArray;
use parking_lot::RwLock;

use crate::leaf::Leaf;

/// The leaves of a tree by low key.
pub type Index<const F: usize> = ConcurrentMap<InlineArray, Object<F>>;

#[derive(Clone, Copy, Debug, PartialEq, Eq, PartialOrd, Ord)]
pub struct ObjectId(pub u64);

#[derive(Clone, Copy, Debug, PartialEq)]
pub struct CollectionId(pub u64);

#[derive(Clone, Debug)]
pub struct Object<const F: usize> {
    pub object_id: ObjectId,
    pub collection_id: CollectionId,
    pub low_key: InlineArray,
    pub inner: Arc<RwLock<CacheBox<F>>>,
}

pub struct CacheBox<const F: usize> {
    pub leaf: Option<Box<Leaf<F>>>,
    #[expect(dead_code, reason = "leaf.rs names it when it makes a leaf")]
    pub logged_index: BTreeMap<(), ()>,
}

pub type CompareAndSwapResult = io::Result<Result<CompareAndSwapSuccess, CompareAndSwapError>>;

pub struct CompareAndSwapSuccess {
    pub new_value: Option<InlineArray>,
    pub previous_value: Option<InlineArray>,
}

pub struct CompareAndSwapError {
    pub current: Option<InlineArray>,
    pub proposed: Option<InlineArray>,
}

pub fn map_bound<T, U>(bound: Bound<T>, change: impl FnOnce(T) -> U) -> Bound<U> {
    bound.map(change)
}
