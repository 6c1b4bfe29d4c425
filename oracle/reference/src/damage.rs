//! Random damage that a seed repeats. It may strike what is out of use, or
//! make another index: then the buffers meet W still.

use crate::buffers::{Buffers, Header};
use crate::index::{KEY_LIMIT, VALUE_LIMIT};
use crate::random::Random;
use crate::words::{DirectoryWord, SlotWord};
use crate::words::{COUNT_LIMIT, NUMBER_LIMIT, OFFSET_LIMIT, SUFFIX_LIMIT, VALUE_FIELD_LIMIT};

/// None where there is nothing to damage.
type Kind = fn(&mut Random, &mut Header, &mut Buffers) -> Option<()>;

const KINDS: [Kind; 11] = [
    flip_in_directory,
    flip_in_slots,
    flip_in_arena,
    any_directory_word,
    any_slot_word,
    swap_directory_words,
    swap_slot_words,
    directory_field,
    slot_field,
    header_field,
    buffer_length,
];

/// One to three damages.
pub fn damage(seed: u64, header: &mut Header, buffers: &mut Buffers) {
    let mut random = Random::new(seed);
    for _ in 0..1 + random.below(3) {
        random.pick(&KINDS)(&mut random, header, buffers);
    }
}

fn flip_in_directory(
    random: &mut Random,
    header: &mut Header,
    buffers: &mut Buffers,
) -> Option<()> {
    let at = directory_place(random, header, buffers)?;
    buffers.dir[at] ^= 1 << random.below(32);
    Some(())
}

fn flip_in_slots(random: &mut Random, header: &mut Header, buffers: &mut Buffers) -> Option<()> {
    let at = slot_place(random, header, buffers)?;
    buffers.slots[at] ^= 1 << random.below(64);
    Some(())
}

fn flip_in_arena(random: &mut Random, _: &mut Header, buffers: &mut Buffers) -> Option<()> {
    let at = place(random, buffers.arena.len())?;
    buffers.arena[at] ^= 1 << random.below(8);
    Some(())
}

fn any_directory_word(
    random: &mut Random,
    header: &mut Header,
    buffers: &mut Buffers,
) -> Option<()> {
    let at = directory_place(random, header, buffers)?;
    buffers.dir[at] = random.word() as u32;
    Some(())
}

fn any_slot_word(random: &mut Random, header: &mut Header, buffers: &mut Buffers) -> Option<()> {
    let at = slot_place(random, header, buffers)?;
    buffers.slots[at] = random.word();
    Some(())
}

fn swap_directory_words(
    random: &mut Random,
    header: &mut Header,
    buffers: &mut Buffers,
) -> Option<()> {
    let one = directory_place(random, header, buffers)?;
    let other = directory_place(random, header, buffers)?;
    buffers.dir.swap(one, other);
    Some(())
}

fn swap_slot_words(random: &mut Random, header: &mut Header, buffers: &mut Buffers) -> Option<()> {
    let one = slot_place(random, header, buffers)?;
    let other = slot_place(random, header, buffers)?;
    buffers.slots.swap(one, other);
    Some(())
}

fn directory_field(random: &mut Random, header: &mut Header, buffers: &mut Buffers) -> Option<()> {
    let at = directory_place(random, header, buffers)?;
    let mut word = DirectoryWord::unpack(buffers.dir[at]);
    if random.one_in(2) {
        let edges = [0, buffers.dir.len()];
        word.number = field(random, word.number, &edges, NUMBER_LIMIT);
    } else {
        let edges = [0, header.fanout];
        word.count = field(random, word.count, &edges, COUNT_LIMIT);
    }
    buffers.dir[at] = word.pack();
    Some(())
}

fn slot_field(random: &mut Random, header: &mut Header, buffers: &mut Buffers) -> Option<()> {
    let at = slot_place(random, header, buffers)?;
    let mut word = SlotWord::unpack(buffers.slots[at]);
    match random.below(3) {
        0 => {
            let edges = [0, buffers.arena.len()];
            word.offset = field(random, word.offset, &edges, OFFSET_LIMIT);
        }
        1 => {
            let edges = [0, KEY_LIMIT, KEY_LIMIT + 1];
            word.suffix_length = field(random, word.suffix_length, &edges, SUFFIX_LIMIT);
        }
        _ => {
            let edges = [0, VALUE_LIMIT, VALUE_LIMIT + 1];
            word.value_length = field(random, word.value_length, &edges, VALUE_FIELD_LIMIT);
        }
    }
    buffers.slots[at] = word.pack();
    Some(())
}

/// Off by one, at an edge, or the highest that the word can hold.
fn field(random: &mut Random, old: usize, edges: &[usize], limit: usize) -> usize {
    let new = match random.below(4) {
        0 => old + 1,
        1 => old + limit - 1,
        2 => random.pick(edges),
        _ => limit - 1,
    };
    new % limit
}

fn header_field(random: &mut Random, header: &mut Header, _: &mut Buffers) -> Option<()> {
    let field = match random.below(4) {
        0 => &mut header.fanout,
        1 => &mut header.leaves,
        2 => &mut header.pairs,
        _ => &mut header.charge,
    };
    *field = match random.below(6) {
        0 | 1 => field.wrapping_add(1),
        2 | 3 => field.wrapping_sub(1),
        4 => random.word() as usize,
        _ => usize::MAX,
    };
    Some(())
}

/// One too short or too long.
fn buffer_length(random: &mut Random, _: &mut Header, buffers: &mut Buffers) -> Option<()> {
    match random.below(6) {
        0 => drop(buffers.dir.pop()?),
        1 => drop(buffers.slots.pop()?),
        2 => drop(buffers.arena.pop()?),
        3 => buffers.dir.push(random.word() as u32),
        4 => buffers.slots.push(random.word()),
        _ => buffers.arena.push(random.word() as u8),
    }
    Some(())
}

fn place(random: &mut Random, length: usize) -> Option<usize> {
    (length > 0).then(|| random.below(length))
}

/// Mostly the place of a used leaf's word.
fn directory_place(random: &mut Random, header: &Header, buffers: &Buffers) -> Option<usize> {
    let used = header.leaves.min(buffers.dir.len());
    if used == 0 || random.one_in(8) {
        return place(random, buffers.dir.len());
    }
    place(random, used)
}

/// Mostly the place of a used leaf's pair or low key.
fn slot_place(random: &mut Random, header: &Header, buffers: &Buffers) -> Option<usize> {
    let any = place(random, buffers.slots.len())?;
    let at = directory_place(random, header, buffers)?;
    let leaf = DirectoryWord::unpack(buffers.dir[at]);
    // Not by the header's fanout, which may be damaged.
    let fanout = buffers.slots.len() / buffers.dir.len();
    let slot = match random.below(leaf.count + 1) {
        0 => leaf.number * fanout + fanout.saturating_sub(1),
        from_one => leaf.number * fanout + from_one - 1,
    };
    let used = slot < buffers.slots.len() && !random.one_in(8);
    Some(if used { slot } else { any })
}
