//! Keys to ask: those that are held, those that divide leaves, and what stands
//! right beside them.

use reference::index::KEY_LIMIT;
use reference::leaves::Leaves;
use reference::random::Random;

/// So many of each kind are taken where there are more.
const SAMPLE: usize = 16;

/// In any order, each at most 512 bytes.
pub fn worth_asking(leaves: &Leaves, random: &mut Random) -> Vec<Vec<u8>> {
    let lows = leaves.list.iter().map(|leaf| leaf.low.as_slice());
    let mut bases = sample(lows.collect(), random);
    bases.extend(sample(held(leaves), random));
    let mut keys = vec![Vec::new(), vec![0xff; KEY_LIMIT]];
    for base in bases {
        keys.extend(beside(base));
        keys.push(base[..random.below(base.len() + 1)].to_vec());
    }
    let filled = filled(&random_one(&keys, random), KEY_LIMIT, random);
    keys.push(filled);
    keys.retain(|key| key.len() <= KEY_LIMIT);
    random.shuffle(&mut keys);
    keys
}

/// Over 512 bytes. What it begins with may be held.
pub fn too_long(keys: &[Vec<u8>], random: &mut Random) -> Vec<u8> {
    let length = random.pick(&[KEY_LIMIT + 1, 600]);
    filled(&random_one(keys, random), length, random)
}

pub fn random_one(keys: &[Vec<u8>], random: &mut Random) -> Vec<u8> {
    keys[random.below(keys.len())].clone()
}

/// All keys that are held, in order.
pub fn held(leaves: &Leaves) -> Vec<&[u8]> {
    let keys = leaves.list.iter().flat_map(|leaf| leaf.keys());
    keys.map(Vec::as_slice).collect()
}

fn sample<'a>(mut keys: Vec<&'a [u8]>, random: &mut Random) -> Vec<&'a [u8]> {
    random.shuffle(&mut keys);
    keys.truncate(SAMPLE);
    keys
}

/// The key, with a byte more, with one fewer, and with its last one up or down
/// by one.
fn beside(key: &[u8]) -> Vec<Vec<u8>> {
    let mut keys = vec![
        key.to_vec(),
        [key, &[0x00]].concat(),
        [key, &[0xff]].concat(),
    ];
    if let Some((last, front)) = key.split_last() {
        keys.push(front.to_vec());
        let others = [last.checked_sub(1), last.checked_add(1)];
        let others = others.into_iter().flatten();
        keys.extend(others.map(|other| [front, &[other]].concat()));
    }
    keys
}

fn filled(key: &[u8], length: usize, random: &mut Random) -> Vec<u8> {
    let mut key = key.to_vec();
    key.resize(length, random.pick(&[0x00, 0x61, 0xff]));
    key
}
