//! What lies where in an arena, read from the words.

use reference::buffers::{Buffers, Header};
use reference::words::{DirectoryWord, SlotWord};

/// The suffixes that the leaf at this place stores.
pub fn suffixes<'a>(header: &Header, lent: &'a Buffers, at: usize) -> Vec<&'a [u8]> {
    let leaf = DirectoryWord::unpack(lent.dir[at]);
    let words = words(header, lent, leaf);
    let pairs = words[..leaf.count].iter();
    pairs
        .map(|word| &lent.arena[word.offset..word.middle()])
        .collect()
}

/// How many bytes are free before each part, and behind the last one.
pub fn gaps(header: &Header, lent: &Buffers) -> Vec<usize> {
    let (mut gaps, mut end) = (Vec::new(), 0);
    for at in 0..header.leaves {
        let leaf = DirectoryWord::unpack(lent.dir[at]);
        let words = words(header, lent, leaf);
        let (low, pairs) = (words[header.fanout - 1], &words[..leaf.count]);
        for word in [&[low], pairs].concat() {
            gaps.push(word.offset - end);
            end = word.end();
        }
    }
    gaps.push(lent.arena.len() - end);
    gaps
}

fn words(header: &Header, lent: &Buffers, leaf: DirectoryWord) -> Vec<SlotWord> {
    let words = lent.slots[leaf.number * header.fanout..][..header.fanout].iter();
    words.map(|word| SlotWord::unpack(*word)).collect()
}
