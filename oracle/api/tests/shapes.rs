//! What the indexes look like that are read: each shape that a search or a scan
//! could get wrong is among them.

use api::reading::indexes;
use reference::layout::read;
use reference::leaves::{Leaf, Leaves};
use reference::random::Random;

const DRAWN: usize = 400;
/// Of the indexes drawn.
const LEAST: usize = 10;

type Shape = (&'static str, fn(&Leaves) -> bool);

const SHAPES: [Shape; 15] = [
    ("one leaf, empty", |it| {
        it.list.len() == 1 && it.pair_count() == 0
    }),
    ("the first leaf not number 0", |it| it.list[0].number != 0),
    ("leaf numbers not rising", |it| {
        !it.list.is_sorted_by_key(|leaf| leaf.number)
    }),
    ("a long low key that no key of its leaf begins with", |it| {
        it.list
            .iter()
            .any(|leaf| leaf.low.len() > 100 && leaf.keys().all(|key| !key.starts_with(&leaf.low)))
    }),
    ("one pair a leaf", |it| {
        it.list.len() > 2 && it.list.iter().all(|leaf| leaf.pairs.len() == 1)
    }),
    ("a full leaf", |it| {
        let most = it.fanout - 1;
        it.list.iter().any(|leaf| leaf.pairs.len() == most)
    }),
    ("the last leaf empty behind others", |it| {
        it.list.len() > 1 && it.list.last().is_some_and(|leaf| leaf.pairs.is_empty())
    }),
    ("a key equal to a separator", |it| {
        it.list[1..]
            .iter()
            .any(|leaf| leaf.keys().any(|key| *key == leaf.low))
    }),
    ("a separator that is no key", |it| {
        it.list[1..]
            .iter()
            .any(|leaf| leaf.keys().all(|key| *key != leaf.low))
    }),
    ("a key equal to its leaf's prefix", |it| {
        with_prefix(it).any(|(at, leaf)| leaf.keys().any(|key| it.suffix(at, key).is_empty()))
    }),
    ("a prefix before several keys", |it| {
        with_prefix(it).any(|(_, leaf)| leaf.pairs.len() > 1)
    }),
    ("the empty key", |it| keys(it).any(|key| key.is_empty())),
    ("a key of 512 bytes", |it| {
        keys(it).any(|key| key.len() == 512)
    }),
    ("an empty value", |it| {
        let mut pairs = it.list.iter().flat_map(|leaf| &leaf.pairs);
        pairs.any(|(_, value)| value.is_empty())
    }),
    ("a key of 512 bytes behind a prefix", |it| {
        with_prefix(it).any(|(_, leaf)| leaf.keys().any(|key| key.len() == 512))
    }),
];

#[test]
fn each_shape_is_drawn() {
    let mut random = Random::new(1);
    let mut lists = Vec::new();
    for _ in 0..DRAWN {
        let (header, lent) = indexes::any(&mut random);
        let list = read(&header, &lent.dir, &lent.slots, &lent.arena);
        lists.push(list.expect("an index"));
    }
    for (name, has_shape) in SHAPES {
        let count = lists.iter().filter(|list| has_shape(list)).count();
        assert!(count >= LEAST, "{name}: {count}");
    }
}

/// The leaves whose slots leave bytes out, and where they stand.
fn with_prefix(leaves: &Leaves) -> impl Iterator<Item = (usize, &Leaf)> {
    let list = leaves.list.iter().enumerate();
    list.filter(|(at, _)| leaves.prefix_length(*at) > 0)
}

fn keys(leaves: &Leaves) -> impl Iterator<Item = &Vec<u8>> {
    leaves.list.iter().flat_map(|leaf| leaf.keys())
}
