//! Damaged buffers: each named case is refused by its clause, and nothing
//! makes the test of W panic.

use reference::buffers::{Buffers, Header};
use reference::cases::{cases, Held};
use reference::checks;
use reference::damage::damage;
use reference::layout::{read, write};
use reference::lists::draw;
use reference::random::Random;
use reference::w::{clauses, first_broken};
use std::collections::BTreeSet;

fn broken((header, lent): &Held) -> Option<&'static str> {
    first_broken(header, &lent.dir, &lent.slots, &lent.arena)
}

#[test]
fn named_cases_and_their_twins() {
    for seed in 0..20 {
        for case in cases(seed) {
            assert_eq!(broken(&case.good), None, "twin of {}", case.name);
            assert_eq!(broken(&case.damaged), Some(case.clause), "{}", case.name);
        }
    }
}

#[test]
fn each_clause_has_a_case_and_each_case_a_name() {
    let cases = cases(0);
    let of_cases: BTreeSet<&str> = cases.iter().map(|case| case.clause).collect();
    let names: BTreeSet<&str> = cases.iter().map(|case| case.name).collect();
    assert_eq!(of_cases, BTreeSet::from_iter(clauses()));
    assert_eq!(names.len(), cases.len());
}

/// What is read nonetheless is a list that fits.
#[test]
fn random_damages() {
    let mut random = Random::new(6);
    let mut seen = BTreeSet::new();
    for _ in 0..1_000 {
        let drawn = draw(&mut random);
        let held = write(&drawn.leaves, drawn.pool, drawn.arena_len, &mut random);
        for _ in 0..8 {
            let (mut header, mut lent) = held.clone();
            damage(random.word(), &mut header, &mut lent);
            let leaves = read(&header, &lent.dir, &lent.slots, &lent.arena);
            if let Some(leaves) = &leaves {
                checks::leaf_list(leaves, lent.dir.len(), lent.arena.len());
            }
            let broken = broken(&(header, lent));
            assert_eq!(leaves.is_some(), broken.is_none());
            seen.insert(broken);
        }
    }
    // The limits of some sizes are seldom met by chance.
    assert!(seen.len() > clauses().len() - 6, "{seen:?}");
    assert!(seen.contains(&None));
}

#[test]
fn a_seed_repeats_its_damage() {
    let mut random = Random::new(7);
    let drawn = draw(&mut random);
    let held = write(&drawn.leaves, drawn.pool, drawn.arena_len, &mut random);
    for seed in 0..100 {
        let (mut one, mut other) = (held.clone(), held.clone());
        damage(seed, &mut one.0, &mut one.1);
        damage(seed, &mut other.0, &mut other.1);
        assert_eq!(one, other);
    }
}

/// Headers and buffers that were never an index, of any lengths.
#[test]
fn any_contents() {
    let mut random = Random::new(8);
    for _ in 0..20_000 {
        let (fanout, pool) = (random.below(6), random.below(4));
        let arena_len = random.below(40);
        let mut lent = Buffers::any(fanout, pool, arena_len, &mut random);
        if random.one_in(2) {
            // Small fields get past the first clauses.
            lent.dir.iter_mut().for_each(|word| *word &= 0x0030_0003);
            lent.slots
                .iter_mut()
                .for_each(|word| *word &= 0x0000_01f0_0300_0003);
        }
        let mut number = || {
            let any = random.word() as usize;
            random.pick(&[0, 1, 2, 3, 4, 5, any, usize::MAX])
        };
        let header = Header {
            fanout: number(),
            leaves: number(),
            pairs: number(),
            charge: number(),
        };
        broken(&(header, lent));
    }
}
