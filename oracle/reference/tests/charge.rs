//! L6 to L9: charge, stored bytes, separators and pool numbers.

mod support;

use reference::index::Index;
use reference::refusal::Refusal;
use support::{h, with_keys};

const FOUR: [&str; 4] = ["6161", "6162", "62", "-"];

fn sizes(index: &Index) -> (usize, usize) {
    (index.leaves().charge(), index.leaves().stored())
}

fn numbers(index: &Index) -> Vec<usize> {
    index.leaves().list.iter().map(|leaf| leaf.number).collect()
}

/// Stored bytes would fit in 8 where the charge, 9, does not.
#[test]
fn room_is_judged_by_the_charge() {
    let mut index = with_keys(3, 4, 8, &FOUR);
    assert_eq!(index.insert(b"a", &[], &mut []), Err(Refusal::NoRoom));
    assert_eq!((sizes(&index).0, index.len()), (7, 4));
    let mut index = with_keys(3, 4, 9, &FOUR);
    assert_eq!(index.insert(b"a", &[], &mut []), Ok(None));
    assert_eq!(sizes(&index), (9, 7));
}

/// A merge gives prefix bytes back, so a remove can make stored bytes grow.
#[test]
fn a_remove_can_store_more() {
    let mut index = with_keys(3, 4, 9, &FOUR);
    index.insert(b"a", &[], &mut []).unwrap();
    assert_eq!(index.leaf_at(1).unwrap().prefix_length, 1);
    assert_eq!(index.remove(b"", &mut []), Ok(Some(0)));
    assert_eq!(sizes(&index), (8, 8));
    assert_eq!(index.leaf_at(0).unwrap().prefix_length, 0);
}

/// A low key stays charged after the keys that made it are gone.
#[test]
fn separators_outlive_their_keys() {
    let (a, b, c) = ("7878787878787830", "7878787878787831", "7878787878787832");
    let mut index = with_keys(3, 4, 64, &[a, b, c, "61"]);
    for key in [b, c, a] {
        assert_eq!(index.remove(&h(key), &mut []), Ok(Some(0)));
    }
    assert_eq!((index.len(), sizes(&index)), (1, (9, 9)));
    assert_eq!(index.leaf_at(1).unwrap().low, h(b));
}

/// A key and its separator may both be 512 bytes long.
#[test]
fn longest_separator() {
    let key = |last: u8| [&[0x6b; 511][..], &[last]].concat();
    let mut index = with_keys(3, 2, 2_048, &[]);
    for last in 0..3 {
        assert_eq!(index.insert(&key(last), &[], &mut []), Ok(None));
    }
    assert_eq!(index.leaf_at(1).unwrap().low, key(1));
    assert_eq!(sizes(&index).0, 2_048);
    assert_eq!(index.insert(&key(3), &[], &mut []), Err(Refusal::NoLeaf));
}

/// The left half keeps its number, the right half takes the lowest free one,
/// a merge frees the neighbour's.
#[test]
fn pool_numbers() {
    let mut index = with_keys(3, 4, 64, &["61", "62", "63", "64", "65"]);
    assert_eq!(numbers(&index), [0, 1, 2, 3]);
    index.remove(b"a", &mut []).unwrap();
    assert_eq!(numbers(&index), [0, 2, 3]);
    index.insert(b"f", &[], &mut []).unwrap();
    assert_eq!(numbers(&index), [0, 2, 3, 1]);
    index.clear();
    assert_eq!((numbers(&index), index.len()), (vec![0], 0));
}

/// L7: the taker keeps its low key and its number.
#[test]
fn a_middle_leaf_takes_its_neighbour() {
    let mut index = with_keys(3, 8, 64, &["61", "62", "63", "64"]);
    index.remove(b"b", &mut []).unwrap();
    let list = &index.leaves().list;
    let shapes = list
        .iter()
        .map(|leaf| (leaf.number, &leaf.low[..], leaf.pairs.len()));
    let expected = [(0, &b""[..], 1), (1, b"b", 2)];
    assert_eq!(shapes.collect::<Vec<_>>(), expected);
}

/// A replacement in a leaf of F - 1 pairs splits nothing.
#[test]
fn replacement_in_a_leaf_as_full_as_can_be() {
    for (fanout, keys) in [(3, &["61", "62"][..]), (5, &["61", "62", "63", "64"])] {
        for pool in [1, 4] {
            let mut index = with_keys(fanout, pool, 9, keys);
            assert_eq!(index.insert(b"b", &[7], &mut []), Ok(Some(0)));
            assert_eq!(numbers(&index), [0]);
        }
    }
}

/// Five pairs tell L4's three rules apart: the first leaf, the last, a middle.
#[test]
fn offsets_of_three_kinds_of_leaf() {
    let counts = |index: &Index| -> Vec<usize> {
        let leaves = &index.leaves().list;
        leaves.iter().map(|leaf| leaf.pairs.len()).collect()
    };
    let mut index = with_keys(5, 8, 99, &["10", "20", "30", "40", "50"]);
    assert_eq!(counts(&index), [1, 4]);
    index.insert(&[0x60], &[], &mut []).unwrap();
    assert_eq!(counts(&index), [1, 3, 2]);
    index.insert(&[0x31], &[], &mut []).unwrap();
    index.insert(&[0x32], &[], &mut []).unwrap();
    assert_eq!(counts(&index), [1, 2, 3, 2]);
    for low in 0x11..=0x14 {
        index.insert(&[low], &[], &mut []).unwrap();
    }
    assert_eq!(counts(&index), [1, 4, 2, 3, 2]);
}
