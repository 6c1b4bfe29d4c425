//! In small worlds W holds for the layouts that can be written down, and for
//! nothing else in their neighbourhood.

mod worlds;

use reference::buffers::Buffers;
use reference::random::Random;
use reference::w::holds_index;
use reference::words::{DirectoryWord, SlotWord};
use std::collections::HashSet;
use worlds::{Held, World, FANOUT};

/// Changes one field of the header or of a word by one, or a byte.
fn nudge((header, lent): &mut Held, letters: &[u8], random: &mut Random) {
    let up = random.one_in(2);
    let step = |field: &mut usize| {
        *field = if up {
            *field + 1
        } else {
            field.saturating_sub(1)
        };
    };
    match random.below(9) {
        0 => step(&mut header.fanout),
        1 => step(&mut header.leaves),
        2 => step(&mut header.pairs),
        3 => step(&mut header.charge),
        4 => {
            let at = random.below(lent.dir.len());
            let mut word = DirectoryWord::unpack(lent.dir[at]);
            match random.below(2) {
                0 => step(&mut word.number),
                _ => step(&mut word.count),
            }
            lent.dir[at] = word.pack();
        }
        5 if !lent.arena.is_empty() => {
            let at = random.below(lent.arena.len());
            lent.arena[at] = random.pick(letters);
        }
        _ => {
            let at = random.below(lent.slots.len());
            let mut word = SlotWord::unpack(lent.slots[at]);
            match random.below(3) {
                0 => step(&mut word.offset),
                1 => step(&mut word.suffix_length),
                _ => step(&mut word.value_length),
            }
            lent.slots[at] = word.pack();
        }
    }
}

/// The same with 0 for each word that header and directory do not use.
fn without_unused((header, lent): &Held) -> Held {
    let (mut dir, mut slots) = (vec![0; lent.dir.len()], vec![0; lent.slots.len()]);
    for at in 0..header.leaves.min(dir.len()) {
        dir[at] = lent.dir[at];
        let leaf = DirectoryWord::unpack(dir[at]);
        let low_key = FANOUT - 1;
        for slot in (0..leaf.count.min(FANOUT)).chain([low_key]) {
            let place = leaf.number * FANOUT + slot;
            if place < slots.len() {
                slots[place] = lent.slots[place];
            }
        }
    }
    let arena = lent.arena.clone();
    (*header, Buffers { dir, slots, arena })
}

fn holds((header, lent): &Held) -> bool {
    holds_index(header, &lent.dir, &lent.slots, &lent.arena)
}

/// Gives how many neighbours do not meet W, and how many do.
fn look_around(world: &World, times: usize, random: &mut Random) -> [usize; 2] {
    let members = world.members();
    let set: HashSet<&Held> = members.iter().collect();
    assert_eq!(set.len(), members.len());
    let mut seen = [0, 0];
    for member in &members {
        assert!(holds(member), "{member:?}");
        for _ in 0..times {
            let mut near = member.clone();
            for _ in 0..1 + random.below(5) {
                nudge(&mut near, world.letters, random);
            }
            let expected = set.contains(&without_unused(&near));
            assert_eq!(holds(&near), expected, "{near:?}");
            seen[usize::from(expected)] += 1;
        }
    }
    seen
}

#[test]
fn members_and_their_neighbours() {
    let mut random = Random::new(9);
    // In the last one a middle leaf has a prefix.
    let worlds = [
        (1, 0, &b"a"[..], 2_000),
        (1, 3, b"ab", 20),
        (2, 2, b"ab", 100),
        (2, 3, b"ab", 20),
        (3, 5, b"a", 20),
    ];
    for (pool, arena_len, letters, times) in worlds {
        let world = World {
            pool,
            arena_len,
            letters,
        };
        let seen = look_around(&world, times, &mut random);
        assert!(seen.iter().all(|times| *times > 500), "{seen:?}");
    }
}
