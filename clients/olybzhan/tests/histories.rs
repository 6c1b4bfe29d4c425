//! Random calls, answered as by the standard map.

#[allow(dead_code)]
#[path = "../../../oracle/reference/src/random.rs"]
mod random;

use olybzhan::{Error, Index};
use random::Random;
use std::collections::BTreeMap;
use std::ops::Bound::{self, Excluded, Included, Unbounded};

type Map = BTreeMap<Vec<u8>, Vec<u8>>;
type Pairs = Vec<(Vec<u8>, Vec<u8>)>;

impl Random {
    fn bytes(&mut self, longest: usize, kinds: &[u8]) -> Vec<u8> {
        let length = self.below(longest + 1);
        (0..length).map(|_| self.pick(kinds)).collect()
    }

    /// Few enough that keys meet again, with long common fronts, FF bytes among
    /// them and now and then one at the limit.
    fn key(&mut self) -> Vec<u8> {
        let mut key = match self.below(8) {
            0 => vec![0x61; 20],
            1 => vec![0xff; 3],
            _ => Vec::new(),
        };
        key.extend(self.bytes(4, &[0x00, 0x61, 0x62, 0xff]));
        if self.below(100) == 0 {
            key.resize(512 + self.below(2), 0x62);
        }
        key
    }

    fn bound(&mut self) -> Bound<Vec<u8>> {
        match self.below(3) {
            0 => Included(self.key()),
            1 => Excluded(self.key()),
            _ => Unbounded,
        }
    }
}

fn long(key: &[u8]) -> bool {
    key.len() > 512
}

/// What a call would be refused as for the length of its key.
fn unless_long<T>(key: &[u8], answer: T) -> Result<T, Error> {
    if long(key) {
        Err(Error::LongKey)
    } else {
        Ok(answer)
    }
}

fn collect<'a>(
    pairs: impl Iterator<Item = Result<(Vec<u8>, &'a [u8]), Error>>,
) -> Result<Pairs, Error> {
    pairs
        .map(|pair| pair.map(|(key, value)| (key, value.to_vec())))
        .collect()
}

/// The pairs in a range, or why there are none.
fn expected(map: &Map, start: &Bound<Vec<u8>>, end: &Bound<Vec<u8>>) -> Result<Pairs, Error> {
    let key = |bound: &Bound<Vec<u8>>| match bound {
        Included(key) | Excluded(key) => Some(key.clone()),
        Unbounded => None,
    };
    if [start, end]
        .into_iter()
        .filter_map(key)
        .any(|key| long(&key))
    {
        return Err(Error::LongKey);
    }
    if let (Some(start), Some(end)) = (key(start), key(end)) {
        if start > end {
            return Err(Error::InvertedRange);
        }
    }
    // The standard map panics where both bounds exclude one key.
    let past = |key: &Vec<u8>| match start {
        Included(start) => key >= start,
        Excluded(start) => key > start,
        Unbounded => true,
    };
    let before = |key: &Vec<u8>| match end {
        Included(end) => key <= end,
        Excluded(end) => key < end,
        Unbounded => true,
    };
    let pairs = map.iter().filter(|(key, _)| past(key) && before(key));
    Ok(pairs
        .map(|(key, value)| (key.clone(), value.clone()))
        .collect())
}

fn compare_reads(index: &Index, map: &Map, random: &mut Random) {
    let key = random.key();
    assert_eq!(
        index.get(&key),
        unless_long(&key, map.get(&key).map(Vec::as_slice))
    );
    assert_eq!(
        index.contains_key(&key),
        unless_long(&key, map.contains_key(&key))
    );
    let above = map.range::<Vec<u8>, _>((Excluded(&key), Unbounded)).next();
    let above = above.map(|(key, value)| (key.clone(), value.as_slice()));
    assert_eq!(index.get_gt(&key), unless_long(&key, above));
    let first = map.first_key_value();
    let first = first.map(|(key, value)| (key.clone(), value.as_slice()));
    assert_eq!(index.first(), Ok(first));
    assert_eq!(index.len(), Ok(map.len()));
}

fn compare_scans(index: &Index, map: &Map, random: &mut Random) {
    let (start, end) = (random.bound(), random.bound());
    let expected = expected(map, &start, &end);
    assert_eq!(collect(index.range::<Vec<u8>, _>((start, end))), expected);
    let prefix = random.key();
    let begin = map.iter().filter(|(key, _)| key.starts_with(&prefix));
    let begin = begin
        .map(|(key, value)| (key.clone(), value.clone()))
        .collect();
    assert_eq!(
        collect(index.scan_prefix(&prefix)),
        unless_long(&prefix, begin)
    );
    let all: Vec<_> = map.clone().into_iter().collect();
    assert_eq!(collect(index.iter()), Ok(all));
}

fn history(seed: u64, fanout: usize, pool: usize, arena: usize) -> usize {
    let random = &mut Random::new(seed);
    let mut index = Index::new(fanout, pool, arena).unwrap();
    let mut map = Map::new();
    let mut refused = 0;
    for step in 0..600 {
        let key = random.key();
        match random.below(10) {
            0..5 => {
                let value = random.bytes(12, &[0x00, 0x31, 0xff]);
                match index.insert(&key, &value) {
                    Err(Error::LongKey) => assert!(long(&key)),
                    Err(Error::NoLeaf | Error::NoRoom) => refused += 1,
                    old => assert_eq!(old, Ok(map.insert(key, value))),
                }
            }
            5..9 => assert_eq!(index.remove(&key), unless_long(&key, map.remove(&key))),
            _ if step % 97 == 0 => {
                index.clear().unwrap();
                map.clear();
            }
            _ => compare_scans(&index, &map, random),
        }
        compare_reads(&index, &map, random);
    }
    compare_scans(&index, &map, random);
    assert!(index.holds_index());
    refused
}

#[test]
fn with_room_for_all() {
    for seed in 0..12 {
        let refused = history(
            seed,
            [3, 4, 5, 64][seed as usize % 4],
            600,
            600 * (2 * 512 + 12),
        );
        assert_eq!(refused, 0, "seed {seed}");
    }
}

#[test]
fn with_little_room() {
    let refused: usize = (0..12).map(|seed| history(seed, 3, 8, 4_000)).sum();
    assert!(refused > 0);
    let refused: usize = (0..12).map(|seed| history(seed, 5, 64, 200)).sum();
    assert!(refused > 0);
}
