//! sled's calls against the standard ordered map, on random changes.

#[allow(dead_code)]
#[path = "../../reference/src/random.rs"]
mod random;

use std::collections::BTreeMap;
use std::ops::Bound::{self, Excluded, Included, Unbounded};

use random::Random;
use sled_oracle::{FANOUTS, LeafView, Pair, Sled};

type Map = BTreeMap<Vec<u8>, Vec<u8>>;

const STEPS: usize = 2000;
const LONGEST: usize = 4;

#[test]
fn single_calls() {
    for &fanout in FANOUTS {
        let sled = Sled::new(fanout).unwrap();
        let mut map = Map::new();
        let mut random = Random::new(fanout as u64);
        for _ in 0..STEPS {
            let (key, value) = (random.bytes(LONGEST), random.bytes(2));
            match random.below(1000) {
                0 => {
                    sled.clear();
                    map.clear();
                    assert_eq!(sled.leaves().len(), 1);
                }
                1..500 => assert_eq!(sled.remove(&key), map.remove(&key)),
                _ => assert_eq!(sled.insert(&key, &value), map.insert(key, value)),
            }
            check_answers(&sled, &map, &mut random);
            let leaves = sled.leaves();
            check_leaves(&leaves, &map, fanout);
            let (_, all_but_last) = leaves.split_last().unwrap();
            assert!(all_but_last.iter().all(|leaf| !leaf.pairs.is_empty()));
        }
    }
}

/// Apart from the single calls: sled's batch leaves emptied leaves unmerged.
#[test]
fn swaps_and_batches() {
    for &fanout in FANOUTS {
        let sled = Sled::new(fanout).unwrap();
        let mut map = Map::new();
        let mut random = Random::new(fanout as u64);
        for _ in 0..STEPS {
            if random.below(2) == 0 {
                swap(&sled, &mut map, &mut random);
            } else {
                apply_batch(&sled, &mut map, &mut random);
            }
            check_answers(&sled, &map, &mut random);
            check_leaves(&sled.leaves(), &map, fanout);
        }
    }
}

#[test]
fn inverted_range_is_empty() {
    let sled = Sled::new(3).unwrap();
    for key in [b"a", b"b", b"c", b"d"] {
        sled.insert(key, b"");
    }
    assert_eq!(sled.range_first(Included(b"c"), Included(b"b")), None);
    assert_eq!(sled.range_first(Excluded(b"b"), Excluded(b"b")), None);
}

fn swap(sled: &Sled, map: &mut Map, random: &mut Random) {
    let (key, new) = (random.bytes(LONGEST), random.optional_bytes());
    let present = map.get(&key).cloned();
    let old = if random.below(4) == 0 {
        random.optional_bytes()
    } else {
        present.clone()
    };

    let expected = if old == present { Ok(()) } else { Err(present) };
    assert_eq!(
        sled.compare_and_swap(&key, old.as_deref(), new.as_deref()),
        expected
    );
    if expected.is_ok() {
        write(map, key, new);
    }
}

fn apply_batch(sled: &Sled, map: &mut Map, random: &mut Random) {
    let count = random.below(8);
    let writes: Vec<_> = (0..count)
        .map(|_| (random.bytes(LONGEST), random.optional_bytes()))
        .collect();
    let lent: Vec<_> = writes
        .iter()
        .map(|(key, new)| (&key[..], new.as_deref()))
        .collect();
    sled.apply_batch(&lent);
    for (key, new) in writes {
        write(map, key, new);
    }
}

fn write(map: &mut Map, key: Vec<u8>, new: Option<Vec<u8>>) {
    match new {
        Some(value) => map.insert(key, value),
        None => map.remove(&key),
    };
}

fn check_answers(sled: &Sled, map: &Map, random: &mut Random) {
    let key = random.bytes(LONGEST);
    assert_eq!(sled.get(&key), map.get(&key).cloned());
    assert_eq!(sled.contains_key(&key), map.contains_key(&key));
    assert_eq!(
        sled.get_gt(&key),
        pairs(map, Excluded(&key), Unbounded).next()
    );

    assert_eq!(sled.len(), map.len());
    assert_eq!(sled.is_empty(), map.is_empty());
    assert_eq!(sled.first(), pairs(map, Unbounded, Unbounded).next());

    let (one, other) = (random.bytes(LONGEST), random.bytes(LONGEST));
    let start = random.bound((&one).min(&other));
    let end = random.bound((&one).max(&other));
    // The standard map panics where sled finds no pair.
    if !matches!((start, end), (Excluded(low), Excluded(high)) if low == high) {
        assert_eq!(sled.range_first(start, end), pairs(map, start, end).next());
        assert!(
            sled.range_all(start, end)
                .into_iter()
                .eq(pairs(map, start, end))
        );
    }

    let prefix = random.bytes(2);
    let expected = pairs(map, Unbounded, Unbounded).filter(|(key, _)| key.starts_with(&prefix));
    assert!(sled.scan_prefix_all(&prefix).into_iter().eq(expected));
}

fn pairs<'a>(
    map: &'a Map,
    start: Bound<&[u8]>,
    end: Bound<&[u8]>,
) -> impl Iterator<Item = Pair> + use<'a> {
    map.range::<[u8], _>((start, end))
        .map(|(key, value)| (key.clone(), value.clone()))
}

/// The leaves lie side by side over all keys and hold the map's pairs.
fn check_leaves(leaves: &[LeafView], map: &Map, fanout: usize) {
    let mut low = Some(&vec![]);
    for leaf in leaves {
        assert_eq!(Some(&leaf.low), low);
        low = leaf.upper.as_ref();
        assert!(leaf.pairs.len() < fanout);
        assert_eq!(
            leaf.prefix_length,
            low.map_or(0, |upper| equal_bytes(&leaf.low, upper))
        );
        for (key, _) in &leaf.pairs {
            assert!(leaf.low <= *key && low.is_none_or(|upper| key < upper));
        }
    }
    assert_eq!(low, None);
    let held = leaves.iter().flat_map(|leaf| leaf.pairs.clone());
    assert!(held.eq(pairs(map, Unbounded, Unbounded)));
}

/// How many leading bytes are equal.
fn equal_bytes(one: &[u8], other: &[u8]) -> usize {
    one.iter().zip(other).take_while(|(a, b)| a == b).count()
}

impl Random {
    /// Few letters, so that keys meet, share prefixes and end in FF.
    fn bytes(&mut self, longest: usize) -> Vec<u8> {
        let length = self.below(longest + 1);
        (0..length)
            .map(|_| self.pick(&[0x00, 0x61, 0x80, 0xff]))
            .collect()
    }

    fn optional_bytes(&mut self) -> Option<Vec<u8>> {
        self.one_in(2).then(|| self.bytes(2))
    }

    fn bound<'a>(&mut self, key: &'a [u8]) -> Bound<&'a [u8]> {
        self.pick(&[Included(key), Excluded(key), Unbounded])
    }
}
