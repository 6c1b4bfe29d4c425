//! Places of what the reading calls find, by hand and on random lists.

use reference::buffers::{Buffers, Header};
use reference::damage::damage;
use reference::index::KEY_LIMIT;
use reference::layout::write;
use reference::leaves::Leaves;
use reference::lists::draw;
use reference::opened::{FoundAt, Opened, Place, ShownAt};
use reference::random::Random;
use reference::refusal::Refusal;
use reference::w::holds_index;

fn place(offset: usize, length: usize) -> Place {
    Place { offset, length }
}

/// Words and bytes of `layout.rs`'s test by hand: three leaves, the middle one
/// with a prefix of one byte.
fn by_hand() -> Opened {
    let header = Header {
        fanout: 3,
        leaves: 3,
        pairs: 3,
        charge: 16,
    };
    let mut slots = vec![u64::MAX; 12];
    slots[8] = 0x0000_0000_0000_0000;
    slots[6] = 0x0000_0010_0100_0002;
    slots[2] = 0x0000_0040_0200_0000;
    slots[0] = 0x0000_0060_0200_0002;
    slots[1] = 0x0000_00b0_0100_0002;
    slots[11] = 0x0000_00e0_0200_0000;
    let lent = Buffers {
        dir: vec![0x0020_0001, 0x0000_0002, 0x0030_0000, 0xffff_ffff],
        slots,
        arena: b"?aABaaaaAB?bABac".to_vec(),
    };
    Opened::open(&header, &lent).unwrap()
}

#[test]
fn values_by_hand() {
    let opened = by_hand();
    assert_eq!(opened.get(b"a"), Ok(Some(place(2, 2))));
    assert_eq!(opened.get(b"aaa"), Ok(Some(place(8, 2))));
    assert_eq!(opened.get(b"ab"), Ok(Some(place(12, 2))));
    assert_eq!(opened.get(b"aa"), Ok(None));
    assert_eq!(opened.get(&[0; KEY_LIMIT + 1]), Err(Refusal::LongKey));
}

#[test]
fn scans_by_hand() {
    let (opened, mut out) = (by_hand(), *b"....");
    let found = FoundAt {
        key_length: 3,
        value: place(8, 2),
    };
    assert_eq!(opened.get_gt(b"a", &mut out), Ok(Some(found)));
    assert_eq!(&out, b"aaa.");
    assert_eq!(opened.get_gt(b"ab", &mut out), Ok(None));
    let short = Refusal::ShortOutput(1);
    assert_eq!(opened.first(&mut []), Err(short));
}

#[test]
fn leaves_by_hand() {
    let opened = by_hand();
    let middle = ShownAt {
        low: place(4, 2),
        upper: Some(place(14, 2)),
        prefix_length: 1,
        pairs: 2,
    };
    let last = ShownAt {
        low: place(14, 2),
        upper: None,
        prefix_length: 0,
        pairs: 0,
    };
    assert_eq!(opened.leaf_at(1), Some(middle));
    assert_eq!(opened.leaf_at(2), Some(last));
    assert_eq!(opened.leaf_at(3), None);
}

/// The bytes at the places are those of the list.
#[test]
fn random_lists() {
    let mut random = Random::new(5);
    for _ in 0..300 {
        let drawn = draw(&mut random);
        let (header, lent) = write(&drawn.leaves, drawn.pool, drawn.arena_len, &mut random);
        let opened = Opened::open(&header, &lent).unwrap();
        assert_eq!(opened.index().leaves(), &drawn.leaves);
        let bytes = |place: Place| &lent.arena[place.offset..][..place.length];
        for (at, leaf) in drawn.leaves.list.iter().enumerate().take(20) {
            let shown = opened.leaf_at(at).unwrap();
            assert_eq!(bytes(shown.low), leaf.low);
            assert_eq!(shown.upper.map(bytes), drawn.leaves.upper(at));
            for (key, value) in leaf.pairs.iter().take(5) {
                let value_place = opened.get(key).unwrap().unwrap();
                assert_eq!(bytes(value_place), value);
            }
        }
        walk(&opened, &drawn.leaves, bytes);
    }
}

/// The first pairs of the list, by `first` and `get_gt`.
fn walk<'a>(opened: &Opened, leaves: &Leaves, bytes: impl Fn(Place) -> &'a [u8]) {
    let (mut out, mut last) = ([0; KEY_LIMIT], Vec::new());
    let mut found = opened.first(&mut out).unwrap();
    let pairs = leaves.list.iter().flat_map(|leaf| &leaf.pairs);
    for (key, value) in pairs.take(20) {
        let pair = found.unwrap();
        last.clear();
        last.extend(&out[..pair.key_length]);
        assert_eq!((&last, bytes(pair.value)), (key, value.as_slice()));
        found = opened.get_gt(&last, &mut out).unwrap();
    }
}

#[test]
fn damaged_buffers_are_not_opened() {
    let mut random = Random::new(6);
    for _ in 0..300 {
        let drawn = draw(&mut random);
        let (mut header, mut lent) = write(&drawn.leaves, drawn.pool, drawn.arena_len, &mut random);
        damage(random.word(), &mut header, &mut lent);
        let holds = holds_index(&header, &lent.dir, &lent.slots, &lent.arena);
        let refusal = Opened::open(&header, &lent).err();
        assert_eq!(refusal, (!holds).then_some(Refusal::Damaged));
    }
}
