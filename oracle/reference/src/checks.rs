//! What must hold after every call that changes the index, as assertions that
//! stand in every build.

use crate::leaves::{Leaf, Leaves};
use std::collections::BTreeMap;

pub fn leaf_list(leaves: &Leaves, pool: usize, arena_len: usize) {
    tiling(leaves);
    keys_and_prefixes(leaves);
    counts(leaves);
    pool_numbers(leaves, pool);
    sizes(leaves, arena_len);
}

/// L1: the leaves cover all keys without gap or overlap, and each key stands
/// in the leaf that spans it.
fn tiling(leaves: &Leaves) {
    assert!(leaves.list[0].low.is_empty(), "the first low key is empty");
    for leaf in &leaves.list {
        assert!(leaf.keys().all(|key| *key >= leaf.low), "low key <= key");
    }
    for two in leaves.list.windows(2) {
        let upper = &two[1].low;
        assert!(two[0].low < *upper, "low keys rise strictly");
        assert!(two[0].keys().all(|key| key < upper), "key < upper key");
    }
}

/// L1: a leaf's keys rise strictly. L2: they share what their slots leave out.
fn keys_and_prefixes(leaves: &Leaves) {
    for (at, leaf) in leaves.list.iter().enumerate() {
        let prefix = &leaf.low[..leaves.prefix_length(at)];
        assert!(leaf.keys().is_sorted_by(|a, b| a < b), "keys rise strictly");
        assert!(leaf.keys().all(|key| key.starts_with(prefix)), "prefix");
    }
}

/// L3, L7, and the demand that leaves outnumber pairs by one at most.
fn counts(leaves: &Leaves) {
    let last = leaves.list.len() - 1;
    for (at, leaf) in leaves.list.iter().enumerate() {
        assert!(leaf.pairs.len() < leaves.fanout, "at most F - 1 pairs");
        assert!(at == last || !leaf.pairs.is_empty(), "only the last empty");
    }
    assert!(leaves.list.len() <= leaves.pair_count() + 1, "leaves");
}

/// L6: no pool number is used twice, and all lie in the pool.
fn pool_numbers(leaves: &Leaves, pool: usize) {
    let mut numbers: Vec<usize> = leaves.list.iter().map(|leaf| leaf.number).collect();
    numbers.sort_unstable();
    assert!(numbers.is_sorted_by(|a, b| a < b), "distinct pool numbers");
    assert!(numbers.iter().all(|number| *number < pool), "in the pool");
}

/// L9: stored bytes <= charge <= arena length.
fn sizes(leaves: &Leaves, arena_len: usize) {
    let charge = leaves.charge();
    assert!(leaves.stored() <= charge, "stored bytes within the charge");
    assert!(charge <= arena_len, "charge within the arena");
}

/// The pairs are those of the standard ordered map.
pub fn same_pairs(leaves: &Leaves, map: &BTreeMap<Vec<u8>, Vec<u8>>) {
    let pairs = leaves.list.iter().flat_map(|leaf| &leaf.pairs);
    let same = pairs.map(|(key, value)| (key, value)).eq(map);
    assert!(same, "the pairs are the map's");
}

/// L6, for an insert that added a leaf: one leaf was cut into two, and the
/// others are as they were. That the order held follows from `same_pairs`.
pub fn split(before: &Leaves, after: &Leaves) {
    let mut both = before.list.iter().zip(&after.list);
    let at = both.position(|(old, new)| old.low != new.low);
    let at = at.unwrap_or(before.list.len());
    let (whole, left, right) = (&before.list[at - 1], &after.list[at - 1], &after.list[at]);
    assert_eq!(before.list[..at - 1], after.list[..at - 1], "leaves before");
    assert_eq!(before.list[at..], after.list[at + 1..], "leaves after");
    assert_eq!(whole.number, left.number, "the left half keeps its number");
    assert!(!left.pairs.is_empty(), "the left half is nonempty");
    assert!(!right.pairs.is_empty(), "the right half is nonempty");
    divides(left, right);
}

/// L5: the separator is above every left key and above no right key, no
/// shorter byte string is, and of those as short it is the largest.
fn divides(left: &Leaf, right: &Leaf) {
    let separator = &right.low;
    assert!(left.keys().all(|key| key < separator), "above all left");
    assert!(right.keys().all(|key| key >= separator), "above no right");
    // Let r be the smallest right key. Among all byte strings of at most m bytes
    // that are not above r, the largest is r cut to m bytes: any other one either
    // begins r, and so begins that cut, or first differs from r by a lower byte.
    // So a string of at most m bytes divides only if r cut to m bytes does.
    let largest_left = left.keys().max().expect("a left key");
    let r = right.keys().min().expect("a right key");
    let m = separator.len() - 1;
    let cut = &r[..m.min(r.len())];
    assert!(cut <= largest_left.as_slice(), "no shorter string divides");
    assert!(r.starts_with(separator), "of those as short the largest");
}
