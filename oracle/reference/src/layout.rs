//! Between buffers and leaf lists.

use crate::buffers::{Buffers, Header, Lent};
use crate::leaves::Leaves;
use crate::random::Random;
use crate::w::holds_index;
use crate::words::{DirectoryWord, SlotWord};

/// The leaf list that the buffers hold, or none.
pub fn read(header: &Header, dir: &[u32], slots: &[u64], arena: &[u8]) -> Option<Leaves> {
    if !holds_index(header, dir, slots, arena) {
        return None;
    }
    let lent = Lent {
        header,
        dir,
        slots,
        arena,
    };
    Some(lent.leaf_list())
}

/// The list in buffers of these sizes, its parts in rule G's order with random
/// gaps, anything in words and bytes out of use. The list need not meet W: it
/// must fit, and its keys begin with what their slots leave out.
pub fn write(
    leaves: &Leaves,
    pool: usize,
    arena_len: usize,
    random: &mut Random,
) -> (Header, Buffers) {
    let fanout = leaves.fanout;
    let header = Header {
        fanout,
        leaves: leaves.list.len(),
        pairs: leaves.pair_count(),
        charge: leaves.charge(),
    };
    let mut buffers = Buffers::any(fanout, pool, arena_len, random);
    let mut offsets = offsets(&part_lengths(leaves), arena_len, random).into_iter();
    let mut place = |suffix: &[u8], value: &[u8]| {
        let word = SlotWord {
            offset: offsets.next().expect("an offset for each part"),
            suffix_length: suffix.len(),
            value_length: value.len(),
        };
        buffers.arena[word.offset..word.middle()].copy_from_slice(suffix);
        buffers.arena[word.middle()..word.end()].copy_from_slice(value);
        word.pack()
    };
    for (at, leaf) in leaves.list.iter().enumerate() {
        let (number, count) = (leaf.number, leaf.pairs.len());
        assert!(count < fanout, "the last slot word is the low key's");
        buffers.dir[at] = DirectoryWord { number, count }.pack();
        let slots = &mut buffers.slots[number * fanout..][..fanout];
        slots[fanout - 1] = place(&leaf.low, &[]);
        for (slot, (key, value)) in slots.iter_mut().zip(&leaf.pairs) {
            *slot = place(leaves.suffix(at, key), value);
        }
    }
    (header, buffers)
}

/// The lengths of all parts in rule G's order.
fn part_lengths(leaves: &Leaves) -> Vec<usize> {
    let mut lengths = Vec::new();
    for (at, leaf) in leaves.list.iter().enumerate() {
        lengths.push(leaf.low.len());
        for (key, value) in &leaf.pairs {
            lengths.push(leaves.suffix(at, key).len() + value.len());
        }
    }
    lengths
}

/// A place for each part, in order.
fn offsets(lengths: &[usize], arena_len: usize, random: &mut Random) -> Vec<usize> {
    let stored: usize = lengths.iter().sum();
    let spare = arena_len.checked_sub(stored).expect("the list fits");
    let mut offsets = spare_before(lengths, spare, random);
    let mut before = 0;
    for (offset, length) in offsets.iter_mut().zip(lengths) {
        *offset += before;
        before += length;
    }
    offsets
}

/// How many of the spare bytes lie before each part. Empty parts are drawn
/// again, anywhere between their neighbours that have bytes.
fn spare_before(lengths: &[usize], spare: usize, random: &mut Random) -> Vec<usize> {
    let mut before = random.rising(lengths.len(), 0, spare);
    let mut at = 0;
    for run in lengths.chunk_by(|a, b| (*a == 0) == (*b == 0)) {
        let end = at + run.len();
        if run[0] == 0 {
            let low = if at == 0 { 0 } else { before[at - 1] };
            let high = before.get(end).copied().unwrap_or(spare);
            before[at..end].copy_from_slice(&random.rising(run.len(), low, high));
        }
        at = end;
    }
    before
}
