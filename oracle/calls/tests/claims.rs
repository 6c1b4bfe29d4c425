//! What the calls of some hundred seeds are, and what they are answered.

use calls::answer::{Reference, told};
use calls::make::calls;
use calls::words::REFUSED;
use std::collections::BTreeSet;

#[test]
fn every_call_and_every_refusal() {
    let (mut names, mut numbers) = (BTreeSet::new(), BTreeSet::new());
    for line in (1..=200).flat_map(|seed| told(seed).lines().map(String::from).collect::<Vec<_>>())
    {
        let (call, answer) = line.rsplit_once(": ").unwrap();
        names.extend(call.split([' ', '(']).next().map(String::from));
        numbers.extend(
            answer
                .strip_prefix(REFUSED)
                .map(|number| number[1..2].to_string()),
        );
    }
    assert_eq!(names.len(), 15, "{names:?}");
    // Damaged buffers are beyond the reference.
    assert!(
        numbers.iter().eq(["1", "3", "4", "5", "6", "7", "8"]),
        "{numbers:?}"
    );
}

#[test]
fn one_list_a_seed() {
    assert_eq!(told(7), told(7));
    assert_ne!(told(7), told(8));
}

/// Where generous, only a long key is refused.
#[test]
fn generous_calls() {
    for seed in 1..=200 {
        let mut reference = Reference::new(true);
        for call in calls(seed, true) {
            let answer = reference.answer(&call);
            assert!(
                !answer.starts_with(REFUSED) || answer == "refused 3",
                "{call:?}: {answer}"
            );
        }
    }
}
