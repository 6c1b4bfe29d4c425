//! Keys and values to insert, and keys to remove, drawn for an index as it
//! stands.

use reference::index::{KEY_LIMIT, VALUE_LIMIT};
use reference::leaves::Leaves;
use reference::random::Random;

const LETTERS: [u8; 5] = [0x00, 0x61, 0x62, 0x80, 0xff];
/// The lengths at the limit, and the shortest.
const LENGTHS: [usize; 5] = [0, 1, KEY_LIMIT - 1, KEY_LIMIT, KEY_LIMIT + 1];

/// A key that is held, one that divides leaves, one beside these, or a few
/// letters; now and then one of a length at the limit.
pub fn key(leaves: &Leaves, random: &mut Random) -> Vec<u8> {
    match random.below(16) {
        0 | 1 => held(leaves, random).unwrap_or_default(),
        2 => low(leaves, random),
        3..=5 => letters(5, random),
        6 => {
            let base = base(leaves, random);
            filled(&base, random.pick(&LENGTHS), random)
        }
        _ => {
            let base = base(leaves, random);
            beside(base, random)
        }
    }
}

/// A value for a key: mostly a few bytes, or as long as the old one or one off
/// it; now and then such that the arena is then exactly full or one byte short.
pub fn value(leaves: &Leaves, key: &[u8], arena: usize, random: &mut Random) -> Vec<u8> {
    let old = leaves.get(key).map_or(0, <[u8]>::len);
    let length = match random.below(64) {
        0 => spare(leaves, key, arena),
        1 => spare(leaves, key, arena) + 1,
        2 => random.below(spare(leaves, key, arena) / 4 + 1),
        3 | 4 => random.below(300),
        5 if random.one_in(10) => VALUE_LIMIT + random.below(2),
        6..=9 => old,
        10..=13 => old + 1,
        14..=17 => old.saturating_sub(1),
        18..=21 => random.below(old + 1),
        _ => random.below(6),
    };
    let first = random.word() as u8;
    let byte = |at: usize| first.wrapping_add((at * 11) as u8);
    (0..length.min(VALUE_LIMIT + 1)).map(byte).collect()
}

/// A key to remove: mostly one that is held, often by a leaf that has few.
pub fn gone(leaves: &Leaves, random: &mut Random) -> Vec<u8> {
    match random.below(8) {
        0 => key(leaves, random),
        1..=3 => of_a_small_leaf(leaves, random).unwrap_or_default(),
        _ => held(leaves, random).unwrap_or_default(),
    }
}

fn of_a_small_leaf(leaves: &Leaves, random: &mut Random) -> Option<Vec<u8>> {
    let filled = || leaves.list.iter().filter(|leaf| !leaf.pairs.is_empty());
    let fewest = filled().map(|leaf| leaf.pairs.len()).min()?;
    let small: Vec<_> = filled().filter(|leaf| leaf.pairs.len() == fewest).collect();
    let pairs = &random.pick(&small).pairs;
    Some(pairs[random.below(pairs.len())].0.clone())
}

/// The longest value for which the arena has room, where the key itself fits.
fn spare(leaves: &Leaves, key: &[u8], arena: usize) -> usize {
    let mut after = leaves.clone();
    after.insert(key, &[]);
    arena.saturating_sub(after.charge())
}

/// Room for the old value: mostly enough, else exactly as much, one less, or
/// none.
pub fn room(leaves: &Leaves, key: &[u8], random: &mut Random) -> usize {
    let old = leaves.get(key).map_or(0, <[u8]>::len);
    random.pick(&[old, old, old, old + 1, old + 20, old.saturating_sub(1), 0])
}

fn base(leaves: &Leaves, random: &mut Random) -> Vec<u8> {
    match random.below(3) {
        0 => low(leaves, random),
        _ => held(leaves, random).unwrap_or_default(),
    }
}

fn held(leaves: &Leaves, random: &mut Random) -> Option<Vec<u8>> {
    let leaf = &leaves.list[random.below(leaves.list.len())];
    let at = random.below(leaf.pairs.len().max(1));
    Some(leaf.pairs.get(at)?.0.clone())
}

fn low(leaves: &Leaves, random: &mut Random) -> Vec<u8> {
    leaves.list[random.below(leaves.list.len())].low.clone()
}

/// A byte or a few letters more, cut somewhere, or its last byte up or down by
/// one.
fn beside(mut key: Vec<u8>, random: &mut Random) -> Vec<u8> {
    match random.below(12) {
        0 | 1 => key.push(0x00),
        2 => key.push(random.pick(&[0x01, 0xff])),
        3..=6 => key.extend(letters(3, random)),
        7 => key.truncate(random.below(key.len() + 1)),
        8 => drop(key.pop()),
        up => {
            if let Some(last) = key.last_mut() {
                *last = last.wrapping_add(if up == 9 { 0xff } else { 1 });
            }
        }
    }
    key
}

fn filled(key: &[u8], length: usize, random: &mut Random) -> Vec<u8> {
    let mut key = key.to_vec();
    key.resize(length, random.pick(&LETTERS));
    key
}

fn letters(most: usize, random: &mut Random) -> Vec<u8> {
    let length = random.below(most + 1);
    (0..length).map(|_| random.pick(&LETTERS)).collect()
}
