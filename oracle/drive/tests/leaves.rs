//! What happens to the leaves in the in-domain scripts of some hundred seeds.

mod watch;

use drive::scripts::in_domain;
use reference::script::run_with;
use std::collections::BTreeSet;
use watch::{split, watch};

const SEEDS: std::ops::RangeInclusive<u64> = 1..=400;

#[test]
fn splits_merges_and_replacements() {
    let mut seen = BTreeSet::new();
    for script in SEEDS.map(in_domain) {
        seen.extend(watch(&script, &run_with(&script, false)));
    }
    let mut wanted = BTreeSet::from(
        [
            "a separator as key",
            "first leaf takes its neighbour",
            "middle leaf takes its neighbour",
            "last but one leaf takes its neighbour",
            "last leaf empty",
            "some prefix bytes given back",
            "all prefix bytes given back",
        ]
        .map(String::from),
    );
    for fanout in [3, 4, 5, 6, 7, 8, 16, 63, 64] {
        for (low, upper) in [(true, false), (true, true), (false, false), (false, true)] {
            wanted.insert(split(fanout, low, upper));
        }
        wanted.insert(format!("replacement in a leaf of {fanout} - 1"));
    }
    let missing: Vec<&String> = wanted.difference(&seen).collect();
    assert!(missing.is_empty(), "{missing:#?}");
}
