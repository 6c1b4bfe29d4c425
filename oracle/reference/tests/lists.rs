//! The random lists reach what calls do not, and the limits.

use reference::leaves::{Leaf, Leaves};
use reference::lists::{draw, Drawn};
use reference::random::Random;
use std::collections::BTreeSet;

/// The traits of a list, by name.
fn traits(drawn: &Drawn) -> Vec<&'static str> {
    let (leaves, list) = (&drawn.leaves, &drawn.leaves.list);
    let any = |has: fn(&Leaf) -> bool| list.iter().any(has);
    let (first, last, charge) = (&list[0], &list[list.len() - 1], leaves.charge());
    let traits = [
        ("one leaf", list.len() == 1),
        ("whole pool", list.len() > 9 && list.len() == drawn.pool),
        ("first leaf not number 0", first.number != 0),
        ("scattered", !list.is_sorted_by_key(|leaf| leaf.number)),
        ("highest number", any(|leaf| leaf.number == 4_095)),
        ("no pair", leaves.pair_count() == 0),
        ("last leaf empty", list.len() > 1 && last.pairs.is_empty()),
        ("one pair a leaf", list.len() > 9 && one_pair_a_leaf(leaves)),
        ("63 pairs", any(|leaf| leaf.pairs.len() == 63)),
        ("low key of no use", any(low_key_of_no_use)),
        ("longest low key", any(|leaf| leaf.low.len() == 512)),
        (
            "longest key",
            any(|leaf| leaf.keys().any(|key| key.len() == 512)),
        ),
        ("longest value", any(longest_value)),
        (
            "long prefix",
            (0..list.len()).any(|at| leaves.prefix_length(at) > 99),
        ),
        ("no arena", drawn.arena_len == 0),
        (
            "pair in no arena",
            drawn.arena_len == 0 && leaves.pair_count() == 1,
        ),
        ("arena full", charge > 99 && drawn.arena_len == charge),
        ("longest arena", drawn.arena_len == 1_048_576),
    ];
    let found = traits.iter().filter(|(_, found)| *found);
    found.map(|(name, _)| *name).collect()
}

fn one_pair_a_leaf(leaves: &Leaves) -> bool {
    leaves.list.iter().all(|leaf| leaf.pairs.len() == 1)
}

/// Longer than it needs to be, whatever keys it once parted.
fn low_key_of_no_use(leaf: &Leaf) -> bool {
    leaf.low.len() > 9 && !leaf.keys().any(|key| key.starts_with(&leaf.low[..9]))
}

fn longest_value(leaf: &Leaf) -> bool {
    leaf.pairs.iter().any(|(_, value)| value.len() == 65_535)
}

#[test]
fn draws_are_varied() {
    let mut random = Random::new(5);
    let (mut names, mut fanouts) = (BTreeSet::new(), BTreeSet::new());
    for _ in 0..2_000 {
        let drawn = draw(&mut random);
        names.extend(traits(&drawn));
        fanouts.insert(drawn.leaves.fanout);
    }
    assert_eq!(names.len(), 18, "{names:?}");
    assert!(fanouts.into_iter().eq(3..=64));
}
