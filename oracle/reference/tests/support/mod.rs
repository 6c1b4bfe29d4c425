//! Shared by the tests that spell keys in hex.

use reference::index::Index;

/// The bytes of a hex string, `-` being the empty one.
pub fn h(hex: &str) -> Vec<u8> {
    let digits = hex.trim_start_matches('-');
    let places = (0..digits.len()).step_by(2);
    places
        .map(|at| u8::from_str_radix(&digits[at..at + 2], 16).unwrap())
        .collect()
}

pub fn create(fanout: usize, pool: usize, arena_len: usize) -> Index {
    Index::create(fanout, pool, fanout * pool, arena_len).unwrap()
}

/// An index with these keys inserted in turn, all values empty.
pub fn with_keys(fanout: usize, pool: usize, arena_len: usize, keys: &[&str]) -> Index {
    let mut index = create(fanout, pool, arena_len);
    for key in keys {
        assert_eq!(index.insert(&h(key), &[], &mut []), Ok(None));
    }
    index
}
