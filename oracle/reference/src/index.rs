//! The calls of document 01 with their limits and refusals. Each call tests
//! its refusals in the order in which they stand in its text.

use crate::checks;
use crate::leaves::{Leaves, Pair};
use crate::range::{prefix_end, Bound, Range};
use crate::refusal::{refuse_if, Refusal};
use std::collections::BTreeMap;
use std::fmt::Debug;
use std::ops::{RangeBounds, RangeInclusive};

pub const KEY_LIMIT: usize = 512;
pub const VALUE_LIMIT: usize = 65_535;
pub const FANOUTS: RangeInclusive<usize> = 3..=64;
pub const POOLS: RangeInclusive<usize> = 1..=4_096;
pub const ARENA_LIMIT: usize = 1_048_576;

#[derive(Clone, Debug)]
pub struct Index {
    leaves: Leaves,
    pool: usize,
    arena_len: usize,
    /// The standard ordered map, kept beside the leaves for the checks only.
    map: BTreeMap<Vec<u8>, Vec<u8>>,
    /// Whether every call asserts what `checks` says.
    pub checks: bool,
}

/// A pair found by a scan: its key is in the caller's buffer.
#[derive(Clone, Copy, Debug, PartialEq, Eq)]
pub struct Found<'a> {
    pub key_length: usize,
    pub value: &'a [u8],
}

/// An entry of the leaf list.
#[derive(Clone, Copy, Debug, PartialEq, Eq)]
pub struct Shown<'a> {
    pub low: &'a [u8],
    pub upper: Option<&'a [u8]>,
    pub prefix_length: usize,
    pub pairs: &'a [Pair],
}

impl Index {
    /// `pool` is the directory buffer's length.
    pub fn create(
        fanout: usize,
        pool: usize,
        slots_len: usize,
        arena_len: usize,
    ) -> Result<Index, Refusal> {
        refuse_if(!FANOUTS.contains(&fanout), Refusal::Shape)?;
        refuse_if(!POOLS.contains(&pool), Refusal::Shape)?;
        refuse_if(slots_len != fanout * pool, Refusal::Shape)?;
        refuse_if(arena_len > ARENA_LIMIT, Refusal::Shape)?;
        let leaves = Leaves::fresh(fanout);
        Ok(Index {
            leaves,
            pool,
            arena_len,
            map: BTreeMap::new(),
            checks: true,
        })
    }

    /// An index with this leaf list, which meets W in buffers of these sizes. No
    /// calls need lead to it.
    pub fn holding(leaves: Leaves, pool: usize, arena_len: usize) -> Index {
        let pairs = leaves.list.iter().flat_map(|leaf| leaf.pairs.clone());
        let index = Index {
            map: pairs.collect(),
            leaves,
            pool,
            arena_len,
            checks: true,
        };
        index.check_leaves();
        index
    }

    pub fn contains_key(&self, key: &[u8]) -> Result<bool, Refusal> {
        Ok(self.get(key)?.is_some())
    }

    /// The value itself: its place in an arena has no meaning here.
    pub fn get(&self, key: &[u8]) -> Result<Option<&[u8]>, Refusal> {
        refuse_if(key.len() > KEY_LIMIT, Refusal::LongKey)?;
        let value = self.leaves.get(key);
        self.check_answer(value, self.map.get(key).map(Vec::as_slice));
        Ok(value)
    }

    /// The insert is tried on a copy of the leaves, which takes their place
    /// only if nothing is refused. Gives the old value's length, or none.
    pub fn insert(
        &mut self,
        key: &[u8],
        value: &[u8],
        old_out: &mut [u8],
    ) -> Result<Option<usize>, Refusal> {
        refuse_if(key.len() > KEY_LIMIT, Refusal::LongKey)?;
        refuse_if(value.len() > VALUE_LIMIT, Refusal::LongValue)?;
        let mut after = self.leaves.clone();
        let old = after.insert(key, value);
        refuse_if_short(old.as_deref(), old_out)?;
        refuse_if(after.list.len() > self.pool, Refusal::NoLeaf)?;
        refuse_if(after.charge() > self.arena_len, Refusal::NoRoom)?;
        if self.checks && after.list.len() > self.leaves.list.len() {
            checks::split(&self.leaves, &after);
        }
        self.leaves = after;
        let in_map = self.map.insert(key.to_vec(), value.to_vec());
        self.check_answer(&old, &in_map);
        self.check_leaves();
        Ok(old.map(|old| write(&old, old_out)))
    }

    /// Gives the old value's length, or none.
    pub fn remove(&mut self, key: &[u8], old_out: &mut [u8]) -> Result<Option<usize>, Refusal> {
        refuse_if(key.len() > KEY_LIMIT, Refusal::LongKey)?;
        refuse_if_short(self.leaves.get(key), old_out)?;
        let old = self.leaves.remove(key);
        let in_map = self.map.remove(key);
        self.check_answer(&old, &in_map);
        self.check_leaves();
        Ok(old.map(|old| write(&old, old_out)))
    }

    /// The first pair in the range, or none for the end.
    pub fn first_in_range(
        &self,
        range: Range,
        start: &[u8],
        end: &[u8],
        key_out: &mut [u8],
    ) -> Result<Option<Found<'_>>, Refusal> {
        refuse_if(range.start.key(start).len() > KEY_LIMIT, Refusal::LongKey)?;
        refuse_if(range.end.key(end).len() > KEY_LIMIT, Refusal::LongKey)?;
        refuse_if(range.inverted(start, end), Refusal::InvertedRange)?;
        let found = self.leaves.first_in_range(range, start, end);
        let pair = found.map(|(key, value)| (key, value));
        self.check_answer(pair, self.first_in_map(range, start, end));
        refuse_if_short(found.map(|(key, _)| key.as_slice()), key_out)?;
        Ok(found.map(|(key, value)| Found {
            key_length: write(key, key_out),
            value,
        }))
    }

    /// The first pair above `key`.
    pub fn get_gt(&self, key: &[u8], key_out: &mut [u8]) -> Result<Option<Found<'_>>, Refusal> {
        let above = Range::new(Bound::Excluded, Bound::Open);
        self.first_in_range(above, key, &[], key_out)
    }

    /// The first pair of all.
    pub fn first(&self, key_out: &mut [u8]) -> Result<Option<Found<'_>>, Refusal> {
        let whole = Range::new(Bound::Open, Bound::Open);
        self.first_in_range(whole, &[], &[], key_out)
    }

    /// The number of pairs. Document 01 has no `is_empty`.
    #[allow(clippy::len_without_is_empty)]
    pub fn len(&self) -> usize {
        let len = self.leaves.pair_count();
        self.check_answer(len, self.map.len());
        len
    }

    pub fn clear(&mut self) {
        self.leaves.clear();
        self.map.clear();
        self.check_leaves();
    }

    /// The leaf list's entry `at`, counted in key order from 0.
    pub fn leaf_at(&self, at: usize) -> Option<Shown<'_>> {
        let leaf = self.leaves.list.get(at)?;
        Some(Shown {
            low: &leaf.low,
            upper: self.leaves.upper(at),
            prefix_length: self.leaves.prefix_length(at),
            pairs: &leaf.pairs,
        })
    }

    /// The leaves with their pool numbers, charge and stored bytes.
    pub fn leaves(&self) -> &Leaves {
        &self.leaves
    }

    fn check_answer<T: PartialEq + Debug>(&self, answer: T, from_map: T) {
        if self.checks {
            assert_eq!(answer, from_map, "the answer is the map's");
        }
    }

    fn check_leaves(&self) {
        if self.checks {
            checks::leaf_list(&self.leaves, self.pool, self.arena_len);
            checks::same_pairs(&self.leaves, &self.map);
        }
    }

    /// Not by the map's own `range`, which panics where both bounds exclude
    /// one key.
    fn first_in_map(&self, range: Range, start: &[u8], end: &[u8]) -> Option<(&Vec<u8>, &Vec<u8>)> {
        let bounds = (range.start.standard(start), range.end.standard(end));
        let within = |key: &[u8]| RangeBounds::<[u8]>::contains(&bounds, key);
        self.map.iter().find(|(key, _)| within(key))
    }
}

/// The range of all keys that begin with `prefix`, and the length of its end
/// key, which is written to `end_out`. An open end has no key.
pub fn scan_prefix(prefix: &[u8], end_out: &mut [u8]) -> Result<(Range, usize), Refusal> {
    refuse_if(prefix.len() > KEY_LIMIT, Refusal::LongKey)?;
    let Some(end) = prefix_end(prefix) else {
        return Ok((Range::new(Bound::Included, Bound::Open), 0));
    };
    refuse_if_short(Some(&end), end_out)?;
    let length = write(&end, end_out);
    Ok((Range::new(Bound::Included, Bound::Excluded), length))
}

fn refuse_if_short(bytes: Option<&[u8]>, out: &[u8]) -> Result<(), Refusal> {
    let needed = bytes.map_or(0, <[u8]>::len);
    refuse_if(needed > out.len(), Refusal::ShortOutput(needed))
}

/// Writes to the front of `out`, leaves the rest, and gives the length.
fn write(bytes: &[u8], out: &mut [u8]) -> usize {
    out[..bytes.len()].copy_from_slice(bytes);
    bytes.len()
}
