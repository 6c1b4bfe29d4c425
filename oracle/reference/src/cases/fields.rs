//! One header field, one word or one buffer's length changed.

use super::{leaf, three_leaves, Held, Set, POOL};
use crate::leaves::Leaves;
use crate::words::{DirectoryWord, SlotWord};
use crate::words::{COUNT_LIMIT, NUMBER_LIMIT, OFFSET_LIMIT, SUFFIX_LIMIT, VALUE_FIELD_LIMIT};

pub fn add(set: &mut Set) {
    lengths(set);
    directory(set);
    slots(set);
    counts(set);
    leaf_count(set);
}

fn lengths(set: &mut Set) {
    set.clause("fanout");
    set.edit("fanout 0", |it| it.0.fanout = 0);
    set.edit("fanout huge", |it| it.0.fanout = usize::MAX);
    set.clause("pool");
    set.edit("no directory", |it| it.1.dir.clear());
    set.clause("slot buffer");
    set.edit("fanout off by one", |it| it.0.fanout += 1);
    set.edit("directory too short", |it| it.1.dir.truncate(POOL - 1));
    set.edit("directory too long", |it| it.1.dir.push(0));
    set.edit("slots too short", |it| it.1.slots.truncate(4 * POOL - 1));
    set.edit("slots too long", |it| it.1.slots.push(0));
}

fn directory(set: &mut Set) {
    set.clause("leaf numbers");
    set.leaf("number at the pool", |leaf| leaf.number = POOL);
    set.leaf("number of all bits", |leaf| leaf.number = NUMBER_LIMIT - 1);
    set.clause("once");
    set.leaf("another leaf's number", |leaf| leaf.number = 4);
    set.edit("another leaf's word", |it| it.1.dir[1] = it.1.dir[2]);
    set.clause("pairs of a leaf");
    set.leaf("F pairs", |leaf| leaf.count = 4);
    set.leaf("count's highest bit", |leaf| leaf.count += COUNT_LIMIT / 2);
    set.leaf("count of all bits", |leaf| leaf.count = COUNT_LIMIT - 1);
    set.clause("empty leaf");
    set.leaf("count 0", |leaf| leaf.count = 0);
}

fn slots(set: &mut Set) {
    set.clause("low-key word");
    set.slot("low key with a value", 3, |word| word.value_length = 1);
    set.clause("inside");
    set.slot("low key past the arena", 3, |word| {
        word.offset = OFFSET_LIMIT - 1
    });
    set.slot("offset of all bits", 1, |word| {
        word.offset = OFFSET_LIMIT - 1
    });
    set.slot("suffix of all bits", 1, |word| {
        word.suffix_length = SUFFIX_LIMIT - 1
    });
    set.slot("value of all bits", 1, |word| {
        word.value_length = VALUE_FIELD_LIMIT - 1
    });
    set.slot("all bits", 1, |word| *word = SlotWord::unpack(u64::MAX));
}

fn counts(set: &mut Set) {
    set.clause("leaf count");
    set.edit("no leaf", |it| it.0.leaves = 0);
    set.edit("more leaves than the pool", |it| it.0.leaves = POOL + 1);
    set.edit("leaf count huge", |it| it.0.leaves = usize::MAX);
    set.clause("pair count");
    set.edit("pair count too low", |it| it.0.pairs -= 1);
    set.edit("pair count too high", |it| it.0.pairs += 1);
    set.edit("pair count huge", |it| it.0.pairs = usize::MAX);
    set.clause("charge count");
    set.edit("charge too low", |it| it.0.charge -= 1);
    set.edit("charge too high", |it| it.0.charge += 1);
    set.edit("charge huge", |it| it.0.charge = usize::MAX);
    set.edit("charge without prefixes", |it| it.0.charge = 13);
}

/// A wrong leaf count makes another list, whose charge tells.
fn leaf_count(set: &mut Set) {
    set.clause("charge count");
    let list = vec![leaf(1, b"", &[(b"a", b"")]), leaf(0, b"b", &[])];
    let both = set.lay(&Leaves { fanout: 3, list });
    let mut first = both.clone();
    (first.0.leaves, first.0.charge) = (1, 1);
    let (mut too_few, mut too_many) = (both.clone(), first.clone());
    (too_few.0.leaves, too_many.0.leaves) = (1, 2);
    set.add("leaf count too low", both, too_few);
    set.add("leaf count too high", first, too_many);
}

impl Set {
    fn edit(&mut self, name: &'static str, edit: impl Fn(&mut Held)) {
        let good = self.lay(&three_leaves());
        let mut damaged = good.clone();
        edit(&mut damaged);
        self.add(name, good, damaged);
    }

    /// Edits the middle leaf's directory word.
    fn leaf(&mut self, name: &'static str, edit: fn(&mut DirectoryWord)) {
        self.edit(name, |it| {
            let mut word = DirectoryWord::unpack(it.1.dir[1]);
            edit(&mut word);
            it.1.dir[1] = word.pack();
        });
    }

    /// Edits a slot word of the middle leaf, which is leaf 0 of the pool.
    fn slot(&mut self, name: &'static str, slot: usize, edit: fn(&mut SlotWord)) {
        self.edit(name, |it| {
            let mut word = SlotWord::unpack(it.1.slots[slot]);
            edit(&mut word);
            it.1.slots[slot] = word.pack();
        });
    }
}
