//! A small run of each part: nothing differs, and every outcome occurs.

use api::sides::Archive;
use api::tally::Tally;
use api::{cases, creations, damages, fresh, reading, times, writing};

fn each(run: Result<Tally, String>, outcomes: &[&str], least: usize) {
    let tally = run.unwrap_or_else(|report| panic!("{report}"));
    for outcome in outcomes {
        assert!(tally.of(outcome) >= least, "{tally}");
    }
    let counted: usize = outcomes.iter().map(|outcome| tally.of(outcome)).sum();
    assert_eq!(counted, tally.calls(), "{tally}");
}

const VERDICTS: [&str; 2] = ["W", "not W"];
const SCANS: [&str; 5] = ["found", "none", "refused 3", "refused 5", "refused 6"];
const DAMAGED: [&str; 6] = [
    "found",
    "none",
    "refused 2",
    "refused 3",
    "refused 5",
    "refused 6",
];

#[test]
fn named_cases() {
    each(cases::run(&Archive, 1), &VERDICTS, 70);
}

#[test]
fn random_damages() {
    each(damages::run(&Archive, 2, 2_000), &VERDICTS, 100);
}

#[test]
fn every_limit() {
    each(creations::run(&Archive, 3), &["accepted", "refused 1"], 48);
}

#[test]
fn len_and_clear() {
    each(fresh::run(&Archive, 4, 200), &["accepted", "refused 2"], 50);
}

#[test]
fn examples() {
    each(reading::examples::run(&Archive, 5), &SCANS, 4);
}

#[test]
fn lookups() {
    let run = reading::lookups::run(&Archive, 6, 40);
    each(run, &["found", "none", "refused 3"], 80);
}

#[test]
fn ranges() {
    each(reading::ranges::run(&Archive, 7, 20), &SCANS, 30);
}

#[test]
fn outputs() {
    let run = reading::outputs::run(&Archive, 8, 10);
    each(run, &["found", "none", "refused 5"], 5);
}

#[test]
fn walks() {
    each(reading::walks::run(&Archive, 9, 10), &["found", "none"], 10);
}

#[test]
fn leaf_lists() {
    let run = reading::leaf_lists::run(&Archive, 10, 20);
    each(run, &["found", "none"], 60);
}

#[test]
fn prefixes() {
    let run = reading::prefixes::run(&Archive, 11, 100);
    each(run, &["found", "refused 3", "refused 5"], 4);
}

#[test]
fn reads_of_damaged_buffers() {
    each(reading::damaged::run_cases(&Archive, 12), &DAMAGED, 20);
    each(reading::damaged::run(&Archive, 13, 200), &DAMAGED, 1);
}

const INSERTS: [&str; 10] = [
    "new",
    "split",
    "old",
    "refused 3",
    "refused 4",
    "refused 5",
    "refused 7",
    "refused 8",
    // Of what is read back.
    "found",
    "none",
];
const REMOVES: [&str; 3] = ["gone", "merge", "absent"];

#[test]
fn examples_of_changes() {
    let run = writing::examples::run(&Archive, &Archive, 15);
    each(run, &[&INSERTS[..], &REMOVES].concat(), 5);
}

#[test]
fn inserts() {
    let run = writing::runs::run(&Archive, &Archive, 16, 3_000);
    each(run, &INSERTS, 5);
}

#[test]
fn merges() {
    let run = writing::merges::run(&Archive, &Archive, 22);
    let outcomes = [&REMOVES[..], &["new", "found", "none"]].concat();
    each(run, &outcomes, 1_000);
}

#[test]
fn refills() {
    let run = writing::refills::run(&Archive, &Archive, 23, 4);
    let outcomes = ["gone", "merge", "new", "old", "split", "refused 8"];
    each(run, &[&outcomes[..], &["found", "none"]].concat(), 6);
}

#[test]
fn mixed_calls() {
    let run = writing::mixed::run(&Archive, &Archive, &Archive, 24, 10_000);
    let others = ["W", "accepted", "refused 6"];
    each(run, &[&INSERTS[..], &REMOVES, &others].concat(), 5);
}

#[test]
fn inserts_at_every_place() {
    let run = writing::splits::run(&Archive, &Archive, 17);
    let outcomes = ["split", "refused 7", "refused 8", "found", "none"];
    each(run, &outcomes, 500);
    let run = writing::replays::run(&Archive, &Archive, 18, 4);
    let outcomes = ["new", "split", "refused 8", "found", "none"];
    each(run, &outcomes, 20);
}

#[test]
fn changes_of_damaged_buffers() {
    let outcomes = [&INSERTS[..8], &REMOVES, &["refused 2"]].concat();
    each(writing::damaged::run_cases(&Archive, 19), &outcomes, 1);
    let run = writing::damaged::run(&Archive, 20, 200);
    let tally = run.unwrap_or_else(|report| panic!("{report}"));
    assert!(tally.of("refused 2") > 1_800, "{tally}");
}

#[test]
fn times_of_changes() {
    for order in times::ORDERS {
        let [grown, emptied] = times::run_changes(order, 200, 21);
        assert_eq!((grown.count, grown.header.pairs), (200, 200));
        assert_eq!((emptied.count, emptied.header.pairs), (200, 0));
        for series in [grown, emptied] {
            assert!(!series.calls.is_zero() && !series.tests.is_zero());
        }
    }
}

#[test]
fn times() {
    let timed = times::run(40, 14);
    let calls: Vec<&str> = timed.iter().map(|timed| timed.call).collect();
    let all = [
        "holds_index",
        "contains_key",
        "get",
        "first_in_range",
        "get_gt",
        "first",
        "leaf_at",
    ];
    assert_eq!(calls, all);
    for timed in timed {
        assert_eq!((timed.pairs, timed.leaves), (40, 1));
        assert!(!timed.time.is_zero());
    }
    assert!(!times::run_prefix().is_zero());
}
