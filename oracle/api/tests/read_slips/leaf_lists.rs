//! Slips of `leaf_at`.

use super::{Asked, Row, noticed};
use api::exports::Shown;
use api::reads::{Read, Reading};

#[test]
fn slips() {
    let rows: [Row; 9] = [
        (
            "the last leaf shown behind the end",
            |asked| match (asked.read, asked.leaves()) {
                (Read::LeafAt(at), Some(leaves)) if at == leaves.list.len() => {
                    asked.instead(Read::LeafAt(at - 1))
                }
                _ => asked.right(),
            },
            &["examples", "leaf lists"],
        ),
        (
            "the last leaf not shown",
            |asked| match (asked.read, asked.leaves()) {
                (Read::LeafAt(at), Some(leaves)) if at + 1 == leaves.list.len() => asked.nothing(),
                _ => asked.right(),
            },
            &["examples", "leaf lists"],
        ),
        (
            "a place cut to 32 bits",
            |asked| match asked.read {
                Read::LeafAt(at) => asked.instead(Read::LeafAt(at as u32 as usize)),
                _ => asked.right(),
            },
            &["leaf lists"],
        ),
        (
            "leaves in the pool's order",
            |asked| match (asked.read, asked.leaves()) {
                (Read::LeafAt(at), Some(leaves)) if at < leaves.list.len() => {
                    let mut order: Vec<usize> = (0..leaves.list.len()).collect();
                    order.sort_by_key(|at| leaves.list[*at].number);
                    asked.instead(Read::LeafAt(order[at]))
                }
                _ => asked.right(),
            },
            &["leaf lists"],
        ),
        (
            "no upper key shown as an empty one",
            |asked| with(asked, |shown| shown.has_upper = 1),
            &["examples", "leaf lists"],
        ),
        (
            "the low key for the upper key",
            |asked| {
                with(asked, |shown| {
                    if shown.has_upper == 1 {
                        shown.upper_offset = shown.low_offset;
                    }
                })
            },
            &["examples", "leaf lists"],
        ),
        (
            "no prefix",
            |asked| with(asked, |shown| shown.prefix_length = 0),
            &["examples", "leaf lists"],
        ),
        (
            "a prefix in the last leaf",
            |asked| {
                with(asked, |shown| {
                    if shown.has_upper == 0 {
                        shown.prefix_length = shown.low_length;
                    }
                })
            },
            &["examples", "leaf lists"],
        ),
        (
            "the low key counted as a pair",
            |asked| with(asked, |shown| shown.pairs += 1),
            &["examples", "leaf lists"],
        ),
    ];
    noticed(&rows);
}

/// A shown leaf, changed.
fn with(asked: &mut Asked, change: impl Fn(&mut Shown)) -> Reading {
    match asked.right() {
        Reading::Shown(mut shown) if shown.found == 1 => {
            change(&mut shown);
            Reading::Shown(shown)
        }
        reading => reading,
    }
}
