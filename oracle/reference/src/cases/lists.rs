//! Leaf lists that do not meet W, laid out like one that does.

use super::{three_leaves, Set};
use crate::leaves::Leaf;

pub fn add(set: &mut Set) {
    set.clause("empty leaf");
    set.list("first leaf empty", |list| list[0].pairs.clear());
    set.list("middle leaf empty", |list| list[1].pairs.clear());
    set.clause("first low key");
    set.list("first low key set", |list| list[0].low = b"A".to_vec());
    set.clause("low keys");
    set.list("low keys equal", |list| list[1].low = b"bd".to_vec());
    set.list("low keys falling", |list| list[1].low = b"be".to_vec());
    set.list("second low key empty", |list| list[1].low.clear());
    set.clause("low <= key");
    set.list("key below its low key", |list| {
        set_key(&mut list[1], 0, b"ba")
    });
    set.list("key begins its low key", |list| {
        set_key(&mut list[1], 0, b"b")
    });
    set.list("last leaf's key below", |list| {
        set_key(&mut list[2], 0, b"bc")
    });
    set.clause("key < upper");
    set.list("key at its upper key", |list| {
        set_key(&mut list[1], 1, b"bd")
    });
    set.list("key above its upper key", |list| {
        set_key(&mut list[1], 1, b"bda")
    });
    set.list("first leaf's key above", |list| {
        set_key(&mut list[0], 0, b"bb")
    });
    set.clause("keys");
    set.list("keys equal", |list| set_key(&mut list[2], 1, b"bd"));
    set.list("keys falling", |list| list[2].pairs.reverse());
    set.list("keys falling behind a prefix", |list| {
        list[1].pairs.reverse()
    });
}

impl Set {
    fn list(&mut self, name: &'static str, edit: fn(&mut [Leaf])) {
        let good = self.lay(&three_leaves());
        let mut leaves = three_leaves();
        edit(&mut leaves.list);
        let damaged = self.lay(&leaves);
        self.add(name, good, damaged);
    }
}

fn set_key(leaf: &mut Leaf, at: usize, key: &[u8]) {
    leaf.pairs[at].0 = key.to_vec();
}
