//! W: whether a header and lent buffers hold an index. Each clause stands
//! alone, under document 01's words, also where it follows from others: `once`
//! from the rising low keys, these from nonempty leaves with keys in their
//! spans, `overlap` from the order of parts.

use crate::buffers::{Header, Lent};
use crate::index::{ARENA_LIMIT, FANOUTS, KEY_LIMIT, POOLS, VALUE_LIMIT};
use crate::leaves::Leaves;
use std::collections::BTreeSet;

type OnWords = fn(&Lent) -> bool;
type OnList = fn(&Lent, &Leaves) -> bool;

/// Each clause may presume the ones before it; after the last of them the leaf
/// list can be read.
const ON_WORDS: [(&str, OnWords); 14] = [
    ("fanout", fanout),
    ("pool", pool),
    ("slot buffer", slot_buffer),
    ("arena", arena),
    ("leaf count", leaf_count),
    ("leaf numbers", leaf_numbers),
    ("once", once),
    ("pairs of a leaf", pairs_of_a_leaf),
    ("empty leaf", empty_leaf),
    ("low-key word", low_key_word),
    ("low-key length", low_key_length),
    ("inside", inside),
    ("overlap", overlap),
    ("order of parts", order_of_parts),
];

const ON_LIST: [(&str, OnList); 10] = [
    ("first low key", first_low_key),
    ("low keys", low_keys),
    ("key length", key_length),
    ("value length", value_length),
    ("low <= key", low_at_most_key),
    ("key < upper", key_below_upper),
    ("keys", keys),
    ("pair count", pair_count),
    ("charge count", charge_count),
    ("charge", charge),
];

pub fn holds_index(header: &Header, dir: &[u32], slots: &[u64], arena: &[u8]) -> bool {
    first_broken(header, dir, slots, arena).is_none()
}

/// The name of the first clause that is broken.
pub fn first_broken(
    header: &Header,
    dir: &[u32],
    slots: &[u64],
    arena: &[u8],
) -> Option<&'static str> {
    let lent = Lent {
        header,
        dir,
        slots,
        arena,
    };
    let broken = ON_WORDS.iter().find(|(_, holds)| !holds(&lent));
    if let Some((name, _)) = broken {
        return Some(name);
    }
    let leaves = lent.leaf_list();
    let broken = ON_LIST.iter().find(|(_, holds)| !holds(&lent, &leaves));
    broken.map(|(name, _)| *name)
}

/// The names of all clauses.
pub fn clauses() -> Vec<&'static str> {
    let on_words = ON_WORDS.iter().map(|(name, _)| *name);
    on_words
        .chain(ON_LIST.iter().map(|(name, _)| *name))
        .collect()
}

/// Fanout F from 3 to 64.
fn fanout(lent: &Lent) -> bool {
    FANOUTS.contains(&lent.header.fanout)
}

/// Pool 1 to 4,096 leaves. The directory buffer holds exactly pool words.
fn pool(lent: &Lent) -> bool {
    POOLS.contains(&lent.dir.len())
}

/// The slot buffer holds exactly F x pool words.
fn slot_buffer(lent: &Lent) -> bool {
    lent.slots.len() == lent.header.fanout * lent.dir.len()
}

/// Arena 0 to 1,048,576 bytes.
fn arena(lent: &Lent) -> bool {
    lent.arena.len() <= ARENA_LIMIT
}

/// The header's leaf count says how many directory words are used. It is not
/// 0, since even a fresh index is one leaf.
fn leaf_count(lent: &Lent) -> bool {
    (1..=lent.dir.len()).contains(&lent.header.leaves)
}

/// A leaf is one of the pool's.
fn leaf_numbers(lent: &Lent) -> bool {
    lent.directory().all(|leaf| leaf.number < lent.dir.len())
}

/// Every used leaf once in the directory.
fn once(lent: &Lent) -> bool {
    let numbers: BTreeSet<usize> = lent.directory().map(|leaf| leaf.number).collect();
    numbers.len() == lent.header.leaves
}

/// At most F - 1 pairs.
fn pairs_of_a_leaf(lent: &Lent) -> bool {
    lent.directory().all(|leaf| leaf.count < lent.header.fanout)
}

/// Only the last leaf may be empty.
fn empty_leaf(lent: &Lent) -> bool {
    let mut but_the_last = lent.directory().take(lent.header.leaves - 1);
    but_the_last.all(|leaf| leaf.count > 0)
}

/// Rule G: the low-key word's value-length field is 0.
fn low_key_word(lent: &Lent) -> bool {
    let mut words = lent.directory().map(|leaf| lent.low_word(leaf));
    words.all(|word| word.value_length == 0)
}

/// Low keys, each at most 512 bytes.
fn low_key_length(lent: &Lent) -> bool {
    let mut words = lent.directory().map(|leaf| lent.low_word(leaf));
    words.all(|word| word.suffix_length <= KEY_LIMIT)
}

/// All parts inside the arena.
fn inside(lent: &Lent) -> bool {
    lent.parts()
        .iter()
        .all(|part| part.end() <= lent.arena.len())
}

/// None overlapping: in the order of their places, each part that has bytes
/// ends where the next begins, or before.
fn overlap(lent: &Lent) -> bool {
    let mut parts = lent.parts();
    parts.retain(|part| part.offset < part.end());
    parts.sort_unstable_by_key(|part| part.offset);
    parts.windows(2).all(|two| two[0].end() <= two[1].offset)
}

/// Rule G: each part, empty ones too, starts at or after the end of the one
/// before it: leaves in key order, of each its low key, then its pairs.
fn order_of_parts(lent: &Lent) -> bool {
    let parts = lent.parts();
    parts.windows(2).all(|two| two[0].end() <= two[1].offset)
}

/// From the empty key.
fn first_low_key(_: &Lent, leaves: &Leaves) -> bool {
    leaves.list[0].low.is_empty()
}

/// Low keys rise strictly. Each upper key is the next low key, so that rises
/// above its leaf's low key too.
fn low_keys(_: &Lent, leaves: &Leaves) -> bool {
    let mut two = leaves.list.windows(2);
    two.all(|two| two[0].low < two[1].low)
}

/// Keys within limits: 0 to 512 bytes.
fn key_length(_: &Lent, leaves: &Leaves) -> bool {
    let mut keys = leaves.list.iter().flat_map(|leaf| leaf.keys());
    keys.all(|key| key.len() <= KEY_LIMIT)
}

/// Values within limits: 0 to 65,535 bytes.
fn value_length(_: &Lent, leaves: &Leaves) -> bool {
    let mut pairs = leaves.list.iter().flat_map(|leaf| &leaf.pairs);
    pairs.all(|(_, value)| value.len() <= VALUE_LIMIT)
}

/// L1: low key <= k.
fn low_at_most_key(_: &Lent, leaves: &Leaves) -> bool {
    let mut list = leaves.list.iter();
    list.all(|leaf| leaf.keys().all(|key| leaf.low <= *key))
}

/// L1: k < upper key. The last leaf has none.
fn key_below_upper(_: &Lent, leaves: &Leaves) -> bool {
    let mut two = leaves.list.windows(2);
    two.all(|two| two[0].keys().all(|key| *key < two[1].low))
}

/// L1: pairs whose keys rise strictly.
fn keys(_: &Lent, leaves: &Leaves) -> bool {
    let mut list = leaves.list.iter();
    list.all(|leaf| leaf.keys().is_sorted_by(|a, b| a < b))
}

/// The header's counts true: the pairs.
fn pair_count(lent: &Lent, leaves: &Leaves) -> bool {
    lent.header.pairs == leaves.pair_count()
}

/// The header's counts true: the charge, with full keys.
fn charge_count(lent: &Lent, leaves: &Leaves) -> bool {
    lent.header.charge == leaves.charge()
}

/// Charge within limits: it never exceeds the arena's length.
fn charge(lent: &Lent, leaves: &Leaves) -> bool {
    leaves.charge() <= lent.arena.len()
}
