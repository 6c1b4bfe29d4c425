//! Sizes at a limit, and sizes past it with all else as it should be.

use super::{leaf, three_leaves, Held, Set};
use crate::layout::write;
use crate::leaves::{Leaf, Leaves};
use crate::random::Random;

pub fn add(set: &mut Set) {
    set.clause("fanout");
    set.limit("fanout too low", with_fanout, 3, 2);
    set.limit("fanout too high", with_fanout, 64, 65);
    set.clause("pool");
    set.limit("pool too large", with_pool, 4_096, 4_097);
    set.clause("arena");
    set.limit("arena too long", with_arena, 1_048_576, 1_048_577);
    set.clause("low-key length");
    set.limit("low key too long", with_low_key, 512, 513);
    set.limit("low key of all bits", with_low_key, 512, 4_095);
    set.clause("key length");
    set.limit("key too long", with_key, 512, 513);
    set.limit("key of all bits", with_key, 512, 4_095);
    set.limit("prefix and suffix too long", with_prefix, 512, 513);
    set.clause("value length");
    set.limit("value too long", with_value, 65_535, 65_536);
    set.clause("charge");
    set.limit("charge over the arena", with_arena, 15, 14);
}

impl Set {
    fn limit(
        &mut self,
        name: &'static str,
        with: fn(usize, &mut Random) -> Held,
        good: usize,
        past: usize,
    ) {
        let good = with(good, &mut self.random);
        let damaged = with(past, &mut self.random);
        self.add(name, good, damaged);
    }
}

fn with_fanout(fanout: usize, random: &mut Random) -> Held {
    write(&Leaves::fresh(fanout), 2, 9, random)
}

/// The highest leaf number is used.
fn with_pool(pool: usize, random: &mut Random) -> Held {
    write(&list(vec![leaf(4_095, b"", &[])]), pool, 9, random)
}

/// Charge 15, stored bytes 13.
fn with_arena(arena_len: usize, random: &mut Random) -> Held {
    write(&three_leaves(), 5, arena_len, random)
}

fn with_low_key(length: usize, random: &mut Random) -> Held {
    let first = leaf(1, b"", &[(b"a", b"")]);
    let last = leaf(0, &vec![b'b'; length], &[]);
    write(&list(vec![first, last]), 2, 9_999, random)
}

fn with_key(length: usize, random: &mut Random) -> Held {
    let only = leaf(1, b"", &[(&vec![b'b'; length], b"")]);
    write(&list(vec![only]), 2, 9_999, random)
}

/// Neither the prefix nor the suffix is too long.
fn with_prefix(length: usize, random: &mut Random) -> Held {
    let (low, upper) = ([b'b'; 300], [b'b'; 301]);
    let key = [&low, &vec![b'a'; length - 300][..]].concat();
    let first = leaf(1, b"", &[(b"a", b"")]);
    let middle = leaf(0, &low, &[(&key, b"")]);
    let last = leaf(2, &upper, &[]);
    write(&list(vec![first, middle, last]), 3, 9_999, random)
}

fn with_value(length: usize, random: &mut Random) -> Held {
    let only = leaf(1, b"", &[(b"a", &vec![7; length])]);
    write(&list(vec![only]), 2, 99_999, random)
}

fn list(list: Vec<Leaf>) -> Leaves {
    Leaves { fanout: 3, list }
}
