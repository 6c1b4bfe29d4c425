//! sled's own leaf.rs and tree.rs, compiled unchanged, as an oracle for one
//! caller: no threads, no files, one flush epoch, nothing leaves the cache.
//!
//! The two files take the names they need from this root (`use crate::*`);
//! what stands behind each name is a small stand-in in `cache` and `object`.

include!(concat!(env!("OUT_DIR"), "/sled.rs"));

mod cache;
mod calls;
mod object;
mod script;

pub use calls::{Calls, FANOUTS, LeafView, Pair, Sled};
pub use script::run;

use std::collections::BTreeMap;
use std::sync::Arc;

use inline_array::InlineArray;
use parking_lot::RwLock;

use cache::{Dirty, FlushEpoch, FlushEpochGuard, FlushStats, ObjectCache, ShutdownDropper, Stats};
use leaf::Leaf;
use object::{
    CacheBox, CollectionId, CompareAndSwapError, CompareAndSwapResult, CompareAndSwapSuccess,
    Index, Object, ObjectId, map_bound,
};
