//! The calls of a sled tree, with the fanout chosen at run time.

use std::collections::BTreeMap;
use std::io;
use std::ops::{Bound, Deref};
use std::sync::Arc;

use inline_array::InlineArray;
use parking_lot::RwLock;

use crate::cache::{FlushEpoch, ObjectCache, ShutdownDropper};
use crate::leaf::Leaf;
use crate::object::{CacheBox, CollectionId, Index, Object};
use crate::tree::{Batch, Tree};

pub type Pair = (Vec<u8>, Vec<u8>);

/// One leaf, its pairs with their whole keys.
#[derive(Clone, Debug, PartialEq, Eq)]
pub struct LeafView {
    pub low: Vec<u8>,
    pub upper: Option<Vec<u8>>,
    pub prefix_length: usize,
    pub pairs: Vec<Pair>,
}

/// A tree of its own, empty at first.
pub struct Sled(Box<dyn Calls>);

impl Sled {
    /// None if the fanout isn't one of `FANOUTS`.
    pub fn new(fanout: usize) -> Option<Sled> {
        plant(fanout).map(Sled)
    }
}

impl Deref for Sled {
    type Target = dyn Calls;

    fn deref(&self) -> &Self::Target {
        &*self.0
    }
}

// leaf.rs has the fanout in its type, so each one is compiled separately.
macro_rules! fanouts {
    ($($fanout:literal)*) => {
        pub const FANOUTS: &[usize] = &[$($fanout),*];

        fn plant(fanout: usize) -> Option<Box<dyn Calls>> {
            match fanout {
                $($fanout => Some(Box::new(fresh_tree::<$fanout>())),)*
                _ => None,
            }
        }
    };
}

fanouts!(3 4 5 6 7 8 16 63 64);

/// One empty leaf from the least key on, with no upper key.
#[expect(
    clippy::arc_with_non_send_sync,
    reason = "the type is leaf.rs's choice"
)]
fn fresh_tree<const F: usize>() -> Tree<F> {
    let collection_id = CollectionId(1);
    let cache = ObjectCache::<F>::default();
    let leaf = CacheBox {
        leaf: Some(Box::new(Leaf::empty())),
        logged_index: BTreeMap::new(),
    };
    let object = Object {
        object_id: cache.allocate_object_id(FlushEpoch),
        collection_id,
        low_key: InlineArray::default(),
        inner: Arc::new(RwLock::new(leaf)),
    };
    cache
        .object_id_index
        .insert(object.object_id, object.clone());
    let index = Index::default();
    index.insert(InlineArray::default(), object);
    Tree::new(collection_id, cache, index, Arc::new(ShutdownDropper))
}

/// What a `Sled` can be asked; each call goes to sled's call of that name.
pub trait Calls {
    fn get(&self, key: &[u8]) -> Option<Vec<u8>>;
    fn contains_key(&self, key: &[u8]) -> bool;
    fn len(&self) -> usize;
    fn is_empty(&self) -> bool;
    fn first(&self) -> Option<Pair>;
    fn get_gt(&self, key: &[u8]) -> Option<Pair>;
    fn range_first(&self, start: Bound<&[u8]>, end: Bound<&[u8]>) -> Option<Pair>;
    fn range_all(&self, start: Bound<&[u8]>, end: Bound<&[u8]>) -> Vec<Pair>;
    fn scan_prefix_all(&self, prefix: &[u8]) -> Vec<Pair>;

    /// `insert` and `remove` give the old value.
    fn insert(&self, key: &[u8], value: &[u8]) -> Option<Vec<u8>>;
    fn remove(&self, key: &[u8]) -> Option<Vec<u8>>;
    fn clear(&self);
    /// No value removes the key.
    fn apply_batch(&self, writes: &[(&[u8], Option<&[u8]>)]);
    /// Changes the value if it was `old`; else gives the present one as error.
    fn compare_and_swap(
        &self,
        key: &[u8],
        old: Option<&[u8]>,
        new: Option<&[u8]>,
    ) -> Result<(), Option<Vec<u8>>>;

    /// The leaves in key order.
    fn leaves(&self) -> Vec<LeafView>;
}

// Inside, `self.get` is sled's: a type's own method goes before a trait's.
impl<const F: usize> Calls for Tree<F> {
    fn get(&self, key: &[u8]) -> Option<Vec<u8>> {
        sure(self.get(key)).map(bytes)
    }

    fn contains_key(&self, key: &[u8]) -> bool {
        sure(self.contains_key(key))
    }

    fn len(&self) -> usize {
        sure(self.len())
    }

    fn is_empty(&self) -> bool {
        sure(self.is_empty())
    }

    fn first(&self) -> Option<Pair> {
        sure(self.first()).map(pair)
    }

    fn get_gt(&self, key: &[u8]) -> Option<Pair> {
        sure(self.get_gt(key)).map(pair)
    }

    fn range_first(&self, start: Bound<&[u8]>, end: Bound<&[u8]>) -> Option<Pair> {
        self.range::<&[u8], _>((start, end))
            .next()
            .map(sure)
            .map(pair)
    }

    fn range_all(&self, start: Bound<&[u8]>, end: Bound<&[u8]>) -> Vec<Pair> {
        self.range::<&[u8], _>((start, end))
            .map(sure)
            .map(pair)
            .collect()
    }

    fn scan_prefix_all(&self, prefix: &[u8]) -> Vec<Pair> {
        self.scan_prefix(prefix).map(sure).map(pair).collect()
    }

    fn insert(&self, key: &[u8], value: &[u8]) -> Option<Vec<u8>> {
        sure(self.insert(key, value)).map(bytes)
    }

    fn remove(&self, key: &[u8]) -> Option<Vec<u8>> {
        sure(self.remove(key)).map(bytes)
    }

    fn clear(&self) {
        sure(self.clear())
    }

    fn apply_batch(&self, writes: &[(&[u8], Option<&[u8]>)]) {
        let mut batch = Batch::default();
        for &(key, value) in writes {
            match value {
                Some(value) => batch.insert(key, value),
                None => batch.remove(key),
            }
        }
        sure(self.apply_batch(batch))
    }

    fn compare_and_swap(
        &self,
        key: &[u8],
        old: Option<&[u8]>,
        new: Option<&[u8]>,
    ) -> Result<(), Option<Vec<u8>>> {
        match sure(self.compare_and_swap(key, old, new)) {
            Ok(_) => Ok(()),
            Err(conflict) => Err(conflict.current.map(bytes)),
        }
    }

    fn leaves(&self) -> Vec<LeafView> {
        let view = |low_key: InlineArray| {
            let (_, guard, _) = sure(self.page_in(&low_key, FlushEpoch));
            let leaf = guard.leaf.as_ref().unwrap();
            LeafView {
                low: leaf.lo.to_vec(),
                upper: leaf.hi.as_ref().map(|upper| upper.to_vec()),
                prefix_length: leaf.prefix_length,
                pairs: leaf.iter().map(pair).collect(),
            }
        };
        self.index
            .range::<InlineArray, _>(..)
            .map(|(low_key, _)| view(low_key))
            .collect()
    }
}

fn sure<T>(result: io::Result<T>) -> T {
    result.expect("the stand-ins give no error")
}

fn bytes(array: InlineArray) -> Vec<u8> {
    array.to_vec()
}

fn pair((key, value): (InlineArray, InlineArray)) -> Pair {
    (bytes(key), bytes(value))
}
