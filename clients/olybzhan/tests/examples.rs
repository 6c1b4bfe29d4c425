//! Document 01's run and its bench examples A5 to A9. `examples/run.rs` prints
//! the first two.

use olybzhan::{Error, Index, Leaf};
use std::ops::Bound::{Excluded, Included};

/// The run, in a pool and an arena of these sizes: the third insert's answer.
fn run(pool: usize, arena: usize) -> (Index, Result<Option<Vec<u8>>, Error>) {
    let mut index = Index::new(3, pool, arena).unwrap();
    assert_eq!(index.insert(b"\x61", b"\x01"), Ok(None));
    assert_eq!(index.insert(b"\x62", b"\x02"), Ok(None));
    let third = index.insert(b"\x63", b"\x03");
    (index, third)
}

fn leaves(index: &Index) -> Vec<Leaf<'_>> {
    let leaf_at = |place| index.leaf_at(place).unwrap();
    (0..).map_while(leaf_at).collect()
}

fn leaf<'a>(low: &'a [u8], upper: Option<&'a [u8]>, pairs: usize) -> Leaf<'a> {
    Leaf {
        low,
        upper,
        prefix_length: 0,
        pairs,
    }
}

#[test]
fn a5_an_emptied_last_leaf_stays_and_an_emptied_first_one_takes_it_over() {
    let (mut index, third) = run(4, 64);
    assert_eq!(third, Ok(None));
    assert_eq!(
        leaves(&index),
        [leaf(b"", Some(b"\x62"), 1), leaf(b"\x62", None, 2)]
    );
    assert_eq!(index.get(b"\x62"), Ok(Some(&b"\x02"[..])));
    assert_eq!(index.remove(b"\x62"), Ok(Some(vec![2])));
    assert_eq!(index.remove(b"\x63"), Ok(Some(vec![3])));
    assert_eq!(
        leaves(&index),
        [leaf(b"", Some(b"\x62"), 1), leaf(b"\x62", None, 0)]
    );
    assert_eq!(index.remove(b"\x61"), Ok(Some(vec![1])));
    assert_eq!(leaves(&index), [leaf(b"", None, 0)]);
}

#[test]
fn a6_the_third_insert_needs_a_leaf_and_seven_bytes() {
    assert_eq!(run(4, 7).1, Ok(None));
    assert_eq!(run(4, 6).1, Err(Error::NoRoom));
    assert_eq!(run(1, 7).1, Err(Error::NoLeaf));
    assert_eq!(run(1, 6).1, Err(Error::NoLeaf));
}

#[test]
fn a7_limits() {
    for (fanout, pool, arena) in [
        (2, 4, 64),
        (65, 4, 64),
        (3, 0, 64),
        (3, 4_097, 64),
        (3, 4, 1_048_577),
        (usize::MAX, usize::MAX, usize::MAX),
    ] {
        assert_eq!(Index::new(fanout, pool, arena).unwrap_err(), Error::Shape);
    }
    assert!(Index::new(3, 4, 0).is_ok());
    let mut index = Index::new(64, 4, 70_000).unwrap();
    let (key, value) = ([0x61; 513], vec![0; 65_536]);
    assert_eq!(index.insert(&key[..512], b""), Ok(None));
    assert_eq!(index.insert(&key, b""), Err(Error::LongKey));
    assert_eq!(index.insert(&key, &value), Err(Error::LongKey));
    assert_eq!(index.insert(&key[..1], &value), Err(Error::LongValue));
    assert_eq!(index.insert(&key[..1], &value[1..]), Ok(None));
    assert_eq!(index.get(&key), Err(Error::LongKey));
    assert_eq!(index.contains_key(&key), Err(Error::LongKey));
    assert_eq!(index.remove(&key), Err(Error::LongKey));
    assert_eq!(index.get_gt(&key), Err(Error::LongKey));
    let mut only = index.scan_prefix(&key);
    assert_eq!(only.next(), Some(Err(Error::LongKey)));
    assert_eq!(only.next(), None);
    assert_eq!(index.len(), Ok(2));
}

#[test]
fn a8_an_output_too_short_keeps_the_old_value() {
    let mut index = Index::new(3, 4, 64).unwrap();
    index.insert(b"a", b"12").unwrap();
    let short = Err(Error::ShortOutput { needed: 2 });
    assert_eq!(index.insert_into(b"a", b"3", &mut [0; 1]), short);
    assert_eq!(index.remove_into(b"a", &mut [0; 1]), short);
    assert_eq!(index.get(b"a"), Ok(Some(&b"12"[..])));
    let mut old = *b"....";
    assert_eq!(index.remove_into(b"a", &mut old), Ok(Some(2)));
    assert_eq!(&old, b"12..");
}

#[test]
fn a9_inverted_and_empty_ranges() {
    let (index, _) = run(4, 64);
    let mut inverted = index.range::<[u8], _>((Included(&b"\x62"[..]), Included(&b"\x61"[..])));
    assert_eq!(inverted.next(), Some(Err(Error::InvertedRange)));
    assert_eq!(inverted.next(), None);
    let mut empty = index.range::<[u8], _>((Excluded(&b"\x62"[..]), Excluded(&b"\x62"[..])));
    assert_eq!(empty.next(), None);
}

#[test]
fn lent_buffers_of_other_lengths_are_refused() {
    let (mut dir, mut slots, mut arena) = ([7; 4], [7; 12], [7; 64]);
    for fanout in [2, 4] {
        let refused = Index::over(fanout, &mut dir, &mut slots, &mut arena);
        assert_eq!(refused.unwrap_err(), Error::Shape);
    }
    assert_eq!((dir, slots, arena), ([7; 4], [7; 12], [7; 64]));
    let mut index = Index::over(3, &mut dir, &mut slots, &mut arena).unwrap();
    index.insert(b"k", b"v").unwrap();
    assert_eq!(format!("{index:?}"), "{[107]: [118]}");
    index.clear().unwrap();
    assert_eq!(index.is_empty(), Ok(true));
    assert!(index.holds_index());
}

#[test]
fn a_living_index_is_taken_over_with_its_header_alone() {
    let (mut dir, mut slots, mut arena) = ([0; 4], [0; 12], [0; 64]);
    let mut index = Index::over(3, &mut dir, &mut slots, &mut arena).unwrap();
    let before = index.header();
    index.insert(b"k", b"v").unwrap();
    let header = index.header();
    assert_eq!((header.leaves, header.pairs, header.charge), (1, 1, 2));
    let refused = Index::resume(before, &mut dir, &mut slots, &mut arena);
    assert_eq!(refused.unwrap_err(), Error::Damaged);
    let mut index = Index::resume(header, &mut dir, &mut slots, &mut arena).unwrap();
    assert_eq!(index.remove(b"k"), Ok(Some(b"v".to_vec())));
    assert_eq!(index.header(), before);
}
