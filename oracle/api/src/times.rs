//! How long the calls take.

use crate::exports::{INCLUDED, OPEN};
use crate::reads::{Read, no_index};
use crate::session::WHOLE;
use crate::sides::archive::{holds_index, time_changes, time_holds_index, time_read};
use crate::writes::Write;
use reference::buffers::{Buffers, Header};
use reference::index::Index;
use reference::layout::{read, write};
use reference::leaves::Leaves;
use reference::random::Random;
use std::time::Duration;

const FANOUT: usize = 64;
const POOL: usize = 4_096;
const ARENA: usize = 1_048_576;
pub(crate) const KEY: usize = 24;
pub(crate) const VALUE: usize = 8;

pub struct Timed {
    pub call: &'static str,
    pub pairs: usize,
    pub leaves: usize,
    /// Of one call, the best of some rounds.
    pub time: Duration,
}

/// The calls that take an index, on one with so many pairs. The key that they
/// ask for is held.
pub fn run(pairs: usize, seed: u64) -> Vec<Timed> {
    let (header, lent) = index(pairs, &mut Random::new(seed));
    assert!(holds_index(header, &lent), "an index");
    let key = middle_key(&header, &lent);
    let asked = [
        Read::ContainsKey(&key),
        Read::Get(&key),
        Read::FirstInRange([INCLUDED, OPEN], &key, &[]),
        Read::GetGt(&key),
        Read::First,
        Read::LeafAt(header.leaves / 2),
    ];
    let timed = |call, time| Timed {
        call,
        pairs,
        leaves: header.leaves,
        time,
    };
    let test_of_w = best(|times| time_holds_index(header, &lent, times));
    let mut all = vec![timed("holds_index", test_of_w)];
    for read in asked {
        let mut out = [0; WHOLE];
        let time = best(|times| time_read(read, header, &lent, &mut out, times));
        all.push(timed(read.name(), time));
    }
    all
}

/// Of `scan_prefix`, which takes no index, with a prefix of one key's length.
pub fn run_prefix() -> Duration {
    let (header, lent) = no_index();
    let read = Read::ScanPrefix(&[0x61; KEY]);
    best(|times| time_read(read, header, &lent, &mut [0; KEY], times))
}

/// From the time of so many calls that of one: the best of some rounds, each
/// of some ten milliseconds.
fn best(mut time: impl FnMut(u32) -> Duration) -> Duration {
    const ROUNDS: u32 = 5;
    let once = time(1).max(Duration::from_nanos(1));
    let times = (Duration::from_millis(10).div_duration_f64(once) as u32).max(1);
    let rounds = (0..ROUNDS).map(|_| time(times));
    rounds.min().expect("a round") / times
}

/// Random keys, inserted one by one.
fn index(pairs: usize, random: &mut Random) -> (Header, Buffers) {
    let mut leaves = Leaves::fresh(FANOUT);
    let mut bytes =
        |length: usize| -> Vec<u8> { (0..length).map(|_| random.word() as u8).collect() };
    while leaves.pair_count() < pairs {
        leaves.insert(&bytes(KEY), &bytes(VALUE));
    }
    write(&leaves, POOL, ARENA, random)
}

fn middle_key(header: &Header, lent: &Buffers) -> Vec<u8> {
    let leaves = read(header, &lent.dir, &lent.slots, &lent.arena).expect("an index");
    let mut keys = leaves.list.iter().flat_map(|leaf| leaf.keys());
    keys.nth(header.pairs / 2).expect("a key").clone()
}

/// Changes to be made one after another. All keys are of one length, and so are
/// all values.
#[derive(Clone, Copy)]
pub enum Changes<'a> {
    Inserts(&'a [u8], &'a [u8]),
    Removes(&'a [u8]),
}

impl<'a> Changes<'a> {
    pub fn count(self) -> usize {
        let (Changes::Inserts(keys, _) | Changes::Removes(keys)) = self;
        keys.len() / KEY
    }

    pub fn at(self, number: usize) -> Write<'a> {
        let (Changes::Inserts(keys, _) | Changes::Removes(keys)) = self;
        let key = &keys[number * KEY..][..KEY];
        match self {
            Changes::Inserts(_, values) => Write::Insert(key, &values[number * VALUE..][..VALUE]),
            Changes::Removes(_) => Write::Remove(key),
        }
    }
}

/// Changes made one after another, the test of W timed by itself before each.
pub struct Series {
    pub count: usize,
    pub header: Header,
    pub calls: Duration,
    pub tests: Duration,
}

/// The order in which keys come and go.
pub const ORDERS: [&str; 3] = ["rising", "falling", "random"];

/// Grows a fresh index to so many pairs, then empties it in the same order; in
/// the random one keys go otherwise than they came. A change begins with the
/// test of W, so what it takes besides is its time less that of the test by
/// itself, on the same index right before.
pub fn run_changes(order: &str, pairs: usize, seed: u64) -> [Series; 2] {
    let mut random = Random::new(seed);
    let index = Index::create(FANOUT, POOL, FANOUT * POOL, ARENA).expect("sizes within limits");
    let (header, mut lent) = write(index.leaves(), POOL, ARENA, &mut random);
    let (keys, values) = (keys(order, pairs, &mut random), vec![0x2a; pairs * VALUE]);
    let inserts = Changes::Inserts(&keys, &values);
    let grown = time_changes(inserts, header, &mut lent, &mut []);
    let held = holds_index(grown.header, &lent);
    assert!(held && grown.count == pairs && grown.header.pairs == pairs);
    let keys = self::keys(order, pairs, &mut random);
    let removes = Changes::Removes(&keys);
    let emptied = time_changes(removes, grown.header, &mut lent, &mut [0; VALUE]);
    let held = holds_index(emptied.header, &lent);
    assert!(held && emptied.count == pairs && emptied.header.pairs == 0);
    [grown, emptied]
}

/// All different, one behind the other.
fn keys(order: &str, pairs: usize, random: &mut Random) -> Vec<u8> {
    let key = |number: usize| {
        let digits = number.to_be_bytes();
        [&[0x61; KEY - 8][..], &digits].concat()
    };
    let mut keys: Vec<Vec<u8>> = (0..pairs).map(key).collect();
    match order {
        "falling" => keys.reverse(),
        "random" => random.shuffle(&mut keys),
        _ => {}
    }
    keys.concat()
}
