//! Stands for sled's object cache, heap and flush epochs.
//!
//! Assumes: every leaf stays in memory, nothing is flushed, no call fails.

use std::cell::Cell;
use std::io;
use std::marker::PhantomData;
use std::rc::Rc;
use std::sync::Arc;
use std::sync::atomic::AtomicU64;

use concurrent_map::ConcurrentMap;
use inline_array::InlineArray;

use crate::object::{CollectionId, Object, ObjectId};

/// Nothing is flushed, so there is one epoch only.
#[derive(Clone, Copy, Debug, PartialEq, Eq, PartialOrd, Ord)]
pub struct FlushEpoch;

pub struct FlushEpochGuard<'a>(PhantomData<&'a ()>);

impl FlushEpochGuard<'_> {
    pub fn epoch(&self) -> FlushEpoch {
        FlushEpoch
    }
}

/// What a flush would have to write.
#[expect(dead_code, reason = "sled fills it in, and nothing is flushed")]
pub enum Dirty<const F: usize> {
    NotYetSerialized {
        collection_id: CollectionId,
        node: Object<F>,
        low_key: InlineArray,
    },
    CooperativelySerialized {
        object_id: ObjectId,
        collection_id: CollectionId,
        low_key: InlineArray,
        mutation_count: u64,
        data: Arc<Vec<u8>>,
    },
    MergedAndDeleted {
        object_id: ObjectId,
        collection_id: CollectionId,
    },
}

pub struct ShutdownDropper<const F: usize>;

pub struct FlushStats;

pub struct CacheStats;

pub struct Stats {
    pub cache: CacheStats,
}

#[derive(Default)]
pub struct Config {
    pub flush_every_ms: Option<usize>,
    pub zstd_compression_level: i32,
}

#[derive(Default)]
pub struct ReadStats {
    pub cache_hits: AtomicU64,
    pub cache_misses: AtomicU64,
    pub max_read_io_latency_us: AtomicU64,
    pub sum_read_io_latency_us: AtomicU64,
    pub max_deserialization_latency_us: AtomicU64,
    pub sum_deserialization_latency_us: AtomicU64,
}

/// Clones of a tree share one cache.
pub type ObjectCache<const F: usize> = Rc<Cache<F>>;

#[derive(Default)]
pub struct Cache<const F: usize> {
    pub config: Config,
    pub read_stats: ReadStats,
    pub tree_leaves_merged: AtomicU64,
    pub object_id_index: ConcurrentMap<ObjectId, Object<F>>,
    objects: Cell<u64>,
}

impl<const F: usize> Cache<F> {
    pub fn allocate_object_id(&self, _: FlushEpoch) -> ObjectId {
        self.objects.set(self.objects.get() + 1);
        ObjectId(self.objects.get())
    }

    pub fn current_flush_epoch(&self) -> FlushEpoch {
        FlushEpoch
    }

    pub fn check_into_flush_epoch(&self) -> FlushEpochGuard<'_> {
        FlushEpochGuard(PhantomData)
    }

    pub fn install_dirty(&self, _: FlushEpoch, _: ObjectId, _: Dirty<F>) {}

    pub fn flush(&self) -> io::Result<FlushStats> {
        Ok(FlushStats)
    }

    pub fn mark_access_and_evict(
        &self,
        _: ObjectId,
        _size: usize,
        _: FlushEpoch,
    ) -> io::Result<()> {
        Ok(())
    }

    pub fn heap_object_id_pin(&self) {}

    pub fn read(&self, _: ObjectId) -> Option<io::Result<Vec<u8>>> {
        unreachable!("no leaf is paged out")
    }

    pub fn check_error(&self) -> io::Result<()> {
        Ok(())
    }

    pub fn set_error(&self, error: &io::Error) {
        unreachable!("no call fails, yet: {error}")
    }

    pub fn stats(&self) -> CacheStats {
        CacheStats
    }
}
