//! Slips that any reading call could make.

use super::{Asked, PARTS, Row, Slipped, noticed, part};
use api::reads::{Read, Reading};

const OF_INDEXES: [&str; 7] = [
    "lookups",
    "ranges",
    "outputs",
    "walks",
    "leaf lists",
    "cases",
    "damages",
];

#[test]
fn slips() {
    let rows: [Row; 6] = [
        (
            "a directory word changed",
            |asked| {
                let reading = asked.right();
                if let Some(word) = asked.lent.dir.last_mut() {
                    *word ^= 1;
                }
                reading
            },
            &OF_INDEXES,
        ),
        (
            "an arena byte changed",
            |asked| {
                let reading = asked.right();
                if let Some(byte) = asked.lent.arena.first_mut() {
                    *byte ^= 1;
                }
                reading
            },
            &OF_INDEXES,
        ),
        (
            "damaged buffers taken as an empty index",
            |asked| match asked.right().refusal() {
                2 => asked.nothing(),
                _ => asked.right(),
            },
            &["cases", "damages"],
        ),
        (
            "3 before 2",
            |asked| match long_key(asked) {
                true => asked.refused(3),
                false => asked.right(),
            },
            &["cases", "damages"],
        ),
        (
            "6 before 2",
            |asked| match asked.read {
                Read::FirstInRange([0 | 1, 0 | 1], start, end)
                    if start > end && !long_key(asked) =>
                {
                    asked.refused(6)
                }
                _ => asked.right(),
            },
            &["cases", "damages"],
        ),
        (
            "5 before 2",
            |asked| match asked.unwritten().0 {
                Reading::Scanned(scan) if scan.refusal == 2 && asked.out.is_empty() => {
                    asked.refused(5)
                }
                _ => asked.right(),
            },
            &["cases", "damages"],
        ),
    ];
    noticed(&rows);
}

/// Of a key that is read.
fn long_key(asked: &Asked) -> bool {
    let long = |key: &[u8]| key.len() > 512;
    match asked.read {
        Read::ContainsKey(key) | Read::Get(key) | Read::GetGt(key) => long(key),
        Read::FirstInRange([start_kind, end_kind], start, end) => {
            (start_kind < 2 && long(start)) || (end_kind < 2 && long(end))
        }
        _ => false,
    }
}

#[test]
fn a_crash_is_a_difference() {
    let crashing = Slipped(|_| panic!("a crash"));
    for name in PARTS {
        assert!(part(name, &crashing).is_err(), "{name}");
    }
}
