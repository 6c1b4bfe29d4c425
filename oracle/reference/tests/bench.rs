//! The bench examples A1 to A4 and A7 to A10 of document 01, with some rows
//! of our own. A5 and A6 are in `scripts`.

mod support;

use reference::index::{scan_prefix, Index, ARENA_LIMIT};
use reference::leaves::{common, separator, split_offset};
use reference::range::{prefix_end, Bound, Range};
use reference::refusal::Refusal;
use support::{create, h, with_keys};

#[test]
fn a1_separators() {
    let rows = [
        ("6162", "6163", "6163"),
        ("61", "6100", "6100"),
        ("61ffff", "62", "62"),
        ("-", "6162", "61"),
    ];
    for (left, right, expected) in rows {
        assert_eq!(separator(&h(left), &h(right)), h(expected));
    }
}

/// Against every byte string of at most two bytes: no shorter string divides,
/// and of those as short the separator is the largest.
#[test]
fn separators_by_search() {
    let letters = [0x00, 0x61, 0xff];
    let keys = strings(&letters);
    let all = strings(&(0..=255).collect::<Vec<u8>>());
    for left in &keys {
        for right in keys.iter().filter(|right| left < right) {
            let divides = |string: &&Vec<u8>| left < *string && *string <= right;
            let length = all.iter().filter(divides).map(Vec::len).min();
            let shortest = all.iter().filter(|string| Some(string.len()) == length);
            let largest = shortest.filter(divides).max();
            assert_eq!(Some(&separator(left, right)), largest);
        }
    }
}

/// All byte strings of at most two of the letters.
fn strings(letters: &[u8]) -> Vec<Vec<u8>> {
    let mut all = vec![vec![]];
    for first in letters {
        all.push(vec![*first]);
        all.extend(letters.iter().map(|second| vec![*first, *second]));
    }
    all
}

#[test]
fn a2_offsets() {
    assert_eq!(split_offset(3, true, true), 1);
    assert_eq!(split_offset(3, false, false), 1);
    assert_eq!(split_offset(5, false, true), 2);
}

/// At 3 pairs all rules give 1; these tell them apart.
#[test]
fn offsets_at_five() {
    assert_eq!(split_offset(5, true, false), 1);
    assert_eq!(split_offset(5, true, true), 1);
    assert_eq!(split_offset(5, false, false), 3);
}

#[test]
fn a3_prefix() {
    assert_eq!(common(&h("6161"), &h("6163")), 1);
    assert_eq!(common(&h("61"), &h("6162")), 1);
    let index = with_keys(3, 4, 64, &["60", "6161", "6162"]);
    let last = index.leaf_at(1).unwrap();
    assert_eq!((last.low, last.upper), (&h("61")[..], None));
    assert_eq!(last.prefix_length, 0);
}

#[test]
fn a4_prefix_ends() {
    assert_eq!(prefix_end(&h("61ff")), Some(h("62")));
    assert_eq!(prefix_end(&h("61ffff")), Some(h("62")));
    assert_eq!(prefix_end(&h("6100")), Some(h("6101")));
    assert_eq!(prefix_end(&h("fe")), Some(h("ff")));
    for open in ["ff", "ffff", "-"] {
        assert_eq!(prefix_end(&h(open)), None);
    }
}

#[test]
fn prefix_scan_call() {
    let closed = Range::new(Bound::Included, Bound::Excluded);
    let open = Range::new(Bound::Included, Bound::Open);
    let mut out = [0xee; 2];
    assert_eq!(scan_prefix(&h("61ff"), &mut out), Ok((closed, 1)));
    assert_eq!(out, [0x62, 0xee]);
    let short = Err(Refusal::ShortOutput(2));
    assert_eq!(scan_prefix(&h("6161"), &mut out[..1]), short);
    assert_eq!(out, [0x62, 0xee]);
    assert_eq!(scan_prefix(&[0xff; 512], &mut []), Ok((open, 0)));
    let long = Err(Refusal::LongKey);
    assert_eq!(scan_prefix(&[0xff; 513], &mut []), long);
}

#[test]
fn a7_fanout_pool_and_arena() {
    let shape = |fanout, pool, slots, arena| Index::create(fanout, pool, slots, arena).err();
    for (fanout, refused) in [(2, true), (3, false), (64, false), (65, true)] {
        let expected = refused.then_some(Refusal::Shape);
        assert_eq!(shape(fanout, 4, fanout * 4, 64), expected);
    }
    for (pool, refused) in [(0, true), (1, false), (4_096, false), (4_097, true)] {
        let expected = refused.then_some(Refusal::Shape);
        assert_eq!(shape(3, pool, 3 * pool, 64), expected);
    }
    assert_eq!(shape(3, 4, 11, 64), Some(Refusal::Shape));
    assert_eq!(shape(3, 4, 13, 64), Some(Refusal::Shape));
    assert_eq!(shape(usize::MAX, usize::MAX, 0, 0), Some(Refusal::Shape));
    assert_eq!(shape(3, 4, 12, 0), None);
    assert_eq!(shape(3, 4, 12, ARENA_LIMIT), None);
    assert_eq!(shape(3, 4, 12, ARENA_LIMIT + 1), Some(Refusal::Shape));
}

#[test]
fn a7_keys_and_values() {
    let mut index = create(3, 4, ARENA_LIMIT);
    let (key, long_key) = ([0x61; 512], [0x61; 513]);
    let (value, long_value) = (vec![1; 65_535], vec![1; 65_536]);
    let mut insert = |key: &[u8], value: &[u8]| index.insert(key, value, &mut []);
    assert_eq!(insert(&long_key, &[]), Err(Refusal::LongKey));
    assert_eq!(insert(&long_key, &long_value), Err(Refusal::LongKey));
    assert_eq!(insert(&key, &long_value), Err(Refusal::LongValue));
    assert_eq!(insert(&key, &value), Ok(None));
    assert_eq!(index.get(&key), Ok(Some(&value[..])));
    assert_eq!(index.get(&long_key), Err(Refusal::LongKey));
    assert_eq!(index.contains_key(&long_key), Err(Refusal::LongKey));
    assert_eq!(index.remove(&long_key, &mut []), Err(Refusal::LongKey));
    assert_eq!(index.get_gt(&long_key, &mut []), Err(Refusal::LongKey));
    assert_eq!(index.contains_key(&key), Ok(true));
}

#[test]
fn a8_short_output() {
    let mut index = create(3, 4, 64);
    index.insert(b"a", &[1, 2], &mut []).unwrap();
    let short = Err(Refusal::ShortOutput(2));
    let mut out = [0xee; 3];
    assert_eq!(index.insert(b"a", &[3], &mut out[..1]), short);
    assert_eq!(index.remove(b"a", &mut out[..1]), short);
    assert_eq!((index.get(b"a"), out), (Ok(Some(&[1, 2][..])), [0xee; 3]));
    assert_eq!(index.insert(b"a", &[3], &mut out), Ok(Some(2)));
    assert_eq!(out, [1, 2, 0xee]);
    assert_eq!(index.remove(b"a", &mut out), Ok(Some(1)));
    assert_eq!((out, index.len()), ([3, 2, 0xee], 0));
    assert_eq!(index.remove(b"a", &mut []), Ok(None));
}

/// 5 is tested before 8, and an empty old value is not none.
#[test]
fn replacements() {
    let mut index = create(3, 1, 3);
    index.insert(b"a", &[1], &mut []).unwrap();
    let short = Err(Refusal::ShortOutput(1));
    assert_eq!(index.insert(b"a", &[0; 3], &mut []), short);
    let full = Err(Refusal::NoRoom);
    assert_eq!(index.insert(b"a", &[0; 3], &mut [0]), full);
    assert_eq!(index.insert(b"a", &[], &mut [0]), Ok(Some(1)));
    assert_eq!(index.insert(b"a", &[], &mut []), Ok(Some(0)));
}

#[test]
fn a9_ranges() {
    let index = with_keys(3, 4, 64, &["61", "62", "63"]);
    let scan = |start, end, low: &[u8], high: &[u8]| {
        let mut key = [0; 1];
        let found = index.first_in_range(Range::new(start, end), low, high, &mut key)?;
        Ok(found.map(|_| key[0]))
    };
    use Bound::{Excluded, Included, Open};
    let inverted = Err(Refusal::InvertedRange);
    assert_eq!(scan(Included, Included, b"b", b"a"), inverted);
    assert_eq!(scan(Included, Excluded, b"b", b"a"), inverted);
    assert_eq!(scan(Excluded, Excluded, b"b", b"b"), Ok(None));
    assert_eq!(scan(Included, Excluded, b"b", b"b"), Ok(None));
    assert_eq!(scan(Excluded, Included, b"b", b"b"), Ok(None));
    assert_eq!(scan(Included, Included, b"b", b"b"), Ok(Some(b'b')));
    assert_eq!(scan(Excluded, Included, b"a", b"b"), Ok(Some(b'b')));
    assert_eq!(scan(Excluded, Excluded, b"a", b"b"), Ok(None));
    assert_eq!(scan(Included, Open, b"b", b"a"), Ok(Some(b'b')));
    assert_eq!(scan(Open, Excluded, b"b", b"a"), Ok(None));
    let long = [0x61; 513];
    assert_eq!(scan(Open, Open, &long, &long), Ok(Some(b'a')));
    assert_eq!(scan(Included, Open, &long, b""), Err(Refusal::LongKey));
    assert_eq!(scan(Open, Excluded, b"", &long), Err(Refusal::LongKey));
}

/// For a scan 3 is tested before 6, and 6 before 5.
#[test]
fn refusals_of_a_scan_in_order() {
    let index = with_keys(3, 4, 64, &["6161"]);
    let both = Range::new(Bound::Included, Bound::Included);
    let long = [0x62; 513];
    let scan = |start: &[u8], end: &[u8]| index.first_in_range(both, start, end, &mut [0]);
    assert_eq!(scan(&long, b"a"), Err(Refusal::LongKey));
    assert_eq!(scan(b"b", b"a"), Err(Refusal::InvertedRange));
    assert_eq!(scan(b"a", b"b"), Err(Refusal::ShortOutput(2)));
    assert_eq!(scan(b"b", b"b"), Ok(None));
    assert_eq!(index.first(&mut [0]), Err(Refusal::ShortOutput(2)));
}

#[test]
fn the_empty_key_is_first_and_above_none() {
    let index = with_keys(3, 1, 0, &["-"]);
    assert_eq!(index.first(&mut []).unwrap().unwrap().key_length, 0);
    assert_eq!(index.get_gt(&[], &mut []), Ok(None));
    assert_eq!((index.len(), index.leaves().charge()), (1, 0));
}

#[test]
fn a10_suffixes() {
    let mut index = with_keys(3, 4, 64, &["6160", "616161", "6163", "6164"]);
    let middle = index.leaf_at(1).unwrap();
    let (low, upper) = (h("6161"), h("6163"));
    assert_eq!((middle.low, middle.upper), (&low[..], Some(&upper[..])));
    assert_eq!(middle.pairs[0].0, h("616161"));
    assert_eq!(index.leaves().suffix(1, &h("616161")), h("6161"));
    assert_eq!((index.leaves().charge(), index.leaves().stored()), (13, 12));
    assert_eq!(index.remove(&h("6160"), &mut []), Ok(Some(0)));
    let taker = index.leaf_at(0).unwrap();
    assert_eq!((taker.low, taker.upper), (&[][..], Some(&upper[..])));
    assert_eq!(taker.pairs[0].0, h("616161"));
    assert_eq!(index.leaves().suffix(0, &h("616161")), h("616161"));
    assert_eq!((index.leaves().charge(), index.leaves().stored()), (9, 9));
}
