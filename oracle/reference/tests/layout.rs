//! Random leaf lists laid out and read back, and the fresh index.

use reference::buffers::{Buffers, Header};
use reference::checks;
use reference::index::Index;
use reference::layout::{read, write};
use reference::leaves::{Leaf, Leaves};
use reference::lists::draw;
use reference::random::Random;
use reference::w::{first_broken, holds_index};
use std::collections::BTreeSet;

fn broken((header, lent): &(Header, Buffers)) -> Option<&'static str> {
    first_broken(header, &lent.dir, &lent.slots, &lent.arena)
}

fn reread((header, lent): &(Header, Buffers)) -> Option<Leaves> {
    read(header, &lent.dir, &lent.slots, &lent.arena)
}

#[test]
fn lists_are_read_as_written() {
    let mut random = Random::new(2);
    for _ in 0..2_000 {
        let drawn = draw(&mut random);
        checks::leaf_list(&drawn.leaves, drawn.pool, drawn.arena_len);
        let held = write(&drawn.leaves, drawn.pool, drawn.arena_len, &mut random);
        assert_eq!(broken(&held), None);
        assert_eq!(reread(&held), Some(drawn.leaves));
    }
}

/// What a call leads to meets W too.
#[test]
fn lists_made_by_calls() {
    let mut random = Random::new(3);
    for fanout in [3, 4, 5, 64] {
        let mut index = Index::create(fanout, 40, fanout * 40, 400).unwrap();
        for _ in 0..400 {
            let length = random.below(4);
            let key: Vec<u8> = (0..length).map(|_| random.pick(b"abc")).collect();
            let _ = match random.below(3) {
                0 => index.remove(&key, &mut [0; 9]),
                _ => index.insert(&key, &key, &mut [0; 9]),
            };
            let held = write(index.leaves(), 40, 400, &mut random);
            assert_eq!(broken(&held), None);
            assert_eq!(reread(&held).as_ref(), Some(index.leaves()));
        }
    }
}

#[test]
fn a_fresh_index_with_any_other_contents() {
    let mut random = Random::new(4);
    for fanout in 3..=64 {
        for (pool, arena_len) in [(1, 0), (1, 1), (2, 64), (40, 4_096)] {
            fresh(fanout, pool, arena_len, &mut random);
        }
    }
    fresh(3, 4_096, 1_048_576, &mut random);
    fresh(64, 4_096, 1_048_576, &mut random);
}

fn fresh(fanout: usize, pool: usize, arena_len: usize, random: &mut Random) {
    let mut lent = Buffers::any(fanout, pool, arena_len, random);
    lent.dir[0] = 0;
    lent.slots[fanout - 1] = 0;
    let header = Header {
        fanout,
        leaves: 1,
        pairs: 0,
        charge: 0,
    };
    let held = (header, lent);
    assert_eq!(broken(&held), None);
    assert_eq!(reread(&held), Some(Leaves::fresh(fanout)));
}

/// Three parts of 0, 1 and 3 bytes with 3 to spare have 20 layouts.
#[test]
fn every_layout_is_drawn() {
    let mut random = Random::new(10);
    let mut leaves = Leaves::fresh(3);
    leaves.insert(b"a", b"");
    leaves.insert(b"b", b"12");
    let mut slots = || write(&leaves, 1, 7, &mut random).1.slots;
    let drawn: BTreeSet<Vec<u64>> = (0..2_000).map(|_| slots()).collect();
    assert_eq!(drawn.len(), 20);
}

/// Words and bytes written out by hand: a prefix, gaps, a leaf out of use.
#[test]
fn by_hand() {
    let leaf = |number, low: &[u8], keys: &[&[u8]]| Leaf {
        number,
        low: low.to_vec(),
        pairs: keys
            .iter()
            .map(|key| (key.to_vec(), b"AB".to_vec()))
            .collect(),
    };
    let list = vec![
        leaf(2, b"", &[b"a"]),
        leaf(0, b"aa", &[b"aaa", b"ab"]),
        leaf(3, b"ac", &[]),
    ];
    let header = Header {
        fanout: 3,
        leaves: 3,
        pairs: 3,
        charge: 16,
    };
    let dir = [0x0020_0001, 0x0000_0002, 0x0030_0000, 0xffff_ffff];
    let mut slots = [u64::MAX; 12];
    // In the order of the parts; offsets are the words' first seven digits.
    slots[8] = 0x0000_0000_0000_0000;
    slots[6] = 0x0000_0010_0100_0002;
    slots[2] = 0x0000_0040_0200_0000;
    slots[0] = 0x0000_0060_0200_0002;
    slots[1] = 0x0000_00b0_0100_0002;
    slots[11] = 0x0000_00e0_0200_0000;
    let arena = b"?aABaaaaAB?bABac";
    assert!(holds_index(&header, &dir, &slots, arena));
    let leaves = Leaves { fanout: 3, list };
    assert_eq!(read(&header, &dir, &slots, arena), Some(leaves));
}
