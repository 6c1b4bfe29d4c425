//! Parts at the wrong place, whose bytes are right all the same.

use super::{leaf, three_leaves, Held, Set};
use crate::layout::write;
use crate::leaves::Leaves;
use crate::words::SlotWord;

pub fn add(set: &mut Set) {
    past_the_arena(set);
    overlapping(set);
    out_of_order(set);
    empty_out_of_order(set);
}

fn past_the_arena(set: &mut Set) {
    set.clause("inside");
    // The charge fills the arena, so the last part ends where the arena does.
    let list = vec![leaf(0, b"", &[(b"a", b"1"), (b"b", b"2")])];
    let full = write(&Leaves { fanout: 3, list }, 2, 4, &mut set.random);
    let mut longer = full.clone();
    edit(&mut longer, 1, |word| word.value_length += 1);
    longer.0.charge += 1;
    set.add("value one byte past the arena", full.clone(), longer);
    let mut shorter = full.clone();
    shorter.1.arena.pop();
    set.add("arena one byte too short", full, shorter);
    let mut at_end = set.lay(&Leaves::fresh(3));
    edit(&mut at_end, 2, |word| word.offset = 9);
    let mut past = at_end.clone();
    edit(&mut past, 2, |word| word.offset = 10);
    set.add("empty part past the arena", at_end, past);
}

fn overlapping(set: &mut Set) {
    set.clause("overlap");
    let list = vec![leaf(0, b"", &[(b"a", b"b"), (b"b", b"")])];
    let good = set.lay(&Leaves { fanout: 3, list });
    let mut damaged = good.clone();
    let value = word(&good, 0).middle();
    edit(&mut damaged, 1, |word| word.offset = value);
    set.add("key inside a value", good, damaged);
    let list = vec![leaf(0, b"", &[(b"a", b"b")]), leaf(1, b"b", &[])];
    let good = set.lay(&Leaves { fanout: 3, list });
    let mut damaged = good.clone();
    let value = word(&good, 0).middle();
    edit(&mut damaged, 5, |word| word.offset = value);
    set.add("low key inside a value", good, damaged);
    let list = vec![leaf(0, b"", &[(b"a", b"")]), leaf(1, b"b", &[(b"b", b"")])];
    let good = set.lay(&Leaves { fanout: 3, list });
    let mut damaged = good.clone();
    damaged.1.slots[3] = good.1.slots[5];
    set.add("low key for a key", good, damaged);
}

fn out_of_order(set: &mut Set) {
    set.clause("order of parts");
    let good = set.lay(&three_leaves());
    // Of the last leaf, which is leaf 4 of the pool: bd, then c with 3.
    let pairs = swapped(&good, 16, 17);
    set.add("pairs out of order", good.clone(), pairs);
    let low_key = swapped(&good, 19, 17);
    set.add("low key behind its pairs", good.clone(), low_key);
    let low_keys = swapped(&good, 3, 19);
    set.add("low keys out of order", good, low_keys);
    // No leaf has a prefix, so the order of leaves shows in the arena alone.
    let mut list = vec![
        leaf(0, b"", &[(b"a", b"")]),
        leaf(1, b"b", &[(b"b", b"1")]),
        leaf(2, b"c", &[(b"c", b"")]),
    ];
    let good = set.lay(&Leaves {
        fanout: 3,
        list: list.clone(),
    });
    list.swap(1, 2);
    let mut damaged = set.lay(&Leaves { fanout: 3, list });
    damaged.1.dir.swap(1, 2);
    set.add("leaves out of order", good, damaged);
}

/// The middle leaf's key is its prefix: nothing is stored between its low key
/// and the next.
fn empty_out_of_order(set: &mut Set) {
    set.clause("order of parts");
    let list = vec![
        leaf(0, b"", &[(b"a", b"")]),
        leaf(1, b"b", &[(b"b", b"")]),
        leaf(2, b"bb", &[]),
    ];
    let laid = set.lay(&Leaves { fanout: 3, list });
    let (before, after) = (word(&laid, 5), word(&laid, 8));
    let with_offset = |offset| {
        let mut held = laid.clone();
        edit(&mut held, 3, |word| word.offset = offset);
        held
    };
    let (first, last) = (with_offset(before.end()), with_offset(after.offset));
    let (early, late) = (with_offset(before.end() - 1), with_offset(after.offset + 1));
    set.add("empty part too early", first, early);
    set.add("empty part too late", last, late);
}

fn word(held: &Held, at: usize) -> SlotWord {
    SlotWord::unpack(held.1.slots[at])
}

fn edit(held: &mut Held, at: usize, edit: impl Fn(&mut SlotWord)) {
    let mut word = word(held, at);
    edit(&mut word);
    held.1.slots[at] = word.pack();
}

/// Two parts of equal length in each other's place.
fn swapped(held: &Held, one: usize, other: usize) -> Held {
    let mut swapped = held.clone();
    let (one_word, other_word) = (word(held, one), word(held, other));
    let bytes = |word: SlotWord| &held.1.arena[word.offset..word.end()];
    let arena = &mut swapped.1.arena;
    arena[other_word.offset..other_word.end()].copy_from_slice(bytes(one_word));
    arena[one_word.offset..one_word.end()].copy_from_slice(bytes(other_word));
    edit(&mut swapped, one, |word| word.offset = other_word.offset);
    edit(&mut swapped, other, |word| word.offset = one_word.offset);
    swapped
}
