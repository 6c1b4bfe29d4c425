//! Some thousand calls for each fanout, in tight pools and arenas. The index
//! checks itself; here refusals and lent buffers are looked at too.

use reference::index::{Found, Index};
use reference::random::Random;
use reference::range::{Bound, Range};
use reference::refusal::Refusal;

const FANOUTS: [usize; 9] = [3, 4, 5, 6, 7, 8, 16, 63, 64];
const LETTERS: [u8; 4] = [0x00, 0x61, 0x80, 0xff];
const UNTOUCHED: u8 = 0xee;

/// Now and then too long, else below the limit.
fn length(random: &mut Random, too_long: usize, limit: usize) -> usize {
    if random.one_in(50) {
        return too_long;
    }
    random.below(limit)
}

fn random_key(random: &mut Random) -> Vec<u8> {
    let length = length(random, 513, 6);
    (0..length).map(|_| random.pick(&LETTERS)).collect()
}

fn bound(random: &mut Random) -> Bound {
    random.pick(&[Bound::Included, Bound::Excluded, Bound::Open])
}

fn key_length(found: Result<Option<Found>, Refusal>) -> Result<Option<usize>, Refusal> {
    found.map(|found| found.map(|found| found.key_length))
}

/// A random key, or the present one next above it.
fn pick(index: &Index, random: &mut Random) -> Vec<u8> {
    let key = random_key(random);
    let from = Range::new(Bound::Included, Bound::Open);
    match index.leaves().first_in_range(from, &key, &[]) {
        Some((present, _)) if random.below(2) == 0 => present.clone(),
        _ => key,
    }
}

/// One call; gives the number of its refusal, or 0.
fn call(index: &mut Index, random: &mut Random, puts: usize) -> usize {
    let before = index.leaves().clone();
    let (key, other) = (pick(index, random), pick(index, random));
    let value = vec![1; length(random, 65_536, 4)];
    let mut out = vec![UNTOUCHED; random.below(6)];
    let range = Range::new(bound(random), bound(random));
    let answer = match random.below(20) {
        0..=2 => key_length(index.first_in_range(range, &key, &other, &mut out)),
        3 => key_length(index.first(&mut out)),
        4 => key_length(index.get_gt(&key, &mut out)),
        5 => index.get(&key).map(|_| None),
        choice if choice < 6 + puts => index.insert(&key, &value, &mut out),
        _ => index.remove(&key, &mut out),
    };
    let written = answer.unwrap_or(None).unwrap_or(0);
    assert!(out[written..].iter().all(|byte| *byte == UNTOUCHED));
    let Err(refusal) = answer else {
        return 0;
    };
    assert_eq!(*index.leaves(), before);
    refusal.number() as usize
}

/// Rising and falling shares of inserts fill the index and drain it again.
fn walk(fanout: usize, pool: usize, arena_len: usize, random: &mut Random) -> [usize; 9] {
    let mut index = Index::create(fanout, pool, fanout * pool, arena_len).unwrap();
    let mut seen = [0; 9];
    for round in 0..4 {
        for _ in 0..400 {
            seen[call(&mut index, random, [13, 3][round % 2])] += 1;
        }
    }
    index.clear();
    assert_eq!((index.len(), index.leaves().list.len()), (0, 1));
    seen
}

#[test]
fn tight_pools_and_arenas() {
    let mut random = Random::new(1);
    for fanout in FANOUTS {
        let mut seen = [0; 9];
        for (pool, arena_len) in [(1, 4_000), (2, 60), (3, 8), (4, 400), (64, 900)] {
            let counts = walk(fanout, pool, arena_len, &mut random);
            (0..9).for_each(|number| seen[number] += counts[number]);
        }
        let never = (0..9).filter(|number| seen[*number] == 0);
        assert_eq!(never.collect::<Vec<usize>>(), [1, 2], "fanout {fanout}");
    }
}

/// Keys of at most K bytes, values of at most V and at most P pairs never meet
/// refusal 7 or 8 with P + 1 leaves and P x (2K + V) arena bytes.
#[test]
fn sizing() {
    let (k, v, p) = (5, 3, 40);
    let mut random = Random::new(2);
    for fanout in FANOUTS {
        let (pool, arena_len) = (p + 1, p * (2 * k + v));
        let mut index = Index::create(fanout, pool, fanout * pool, arena_len).unwrap();
        for _ in 0..3_000 {
            let (key, value) = (random_key(&mut random), vec![1; random.below(v + 1)]);
            let fits = index.len() < p || index.contains_key(&key) == Ok(true);
            let answer = if fits && random.below(5) < 3 {
                index.insert(&key, &value, &mut [0; 3])
            } else {
                index.remove(&key, &mut [0; 3])
            };
            assert!(matches!(answer, Ok(_) | Err(Refusal::LongKey)));
        }
    }
}
