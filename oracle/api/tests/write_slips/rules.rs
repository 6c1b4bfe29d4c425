//! Slips in the rules of an insert, each in one place of a rule of its own.

use super::{Asked, Row, noticed};
use api::exports::OldReply;
use reference::buffers::Header;
use reference::leaves::{Leaf, Leaves, common, split_offset};
use reference::random::Random;

/// An insert by document 01, in places that can be changed.
struct Rules {
    /// How many pairs make a split.
    full: fn(&Leaves, replaced: bool) -> usize,
    /// Of n pairs, with the low key's emptiness and whether there is an upper key.
    offset: fn(usize, bool, bool) -> usize,
    /// Of the two keys beside the cut, with the prefix length before the split.
    separator: fn(&[u8], &[u8], usize) -> Vec<u8>,
    number: fn(&Leaves) -> usize,
    /// Where among n pairs the new one is, and whether it goes right.
    goes_right: fn(at: usize, offset: usize) -> bool,
    /// What must not be over the arena's length, before and after the insert.
    tested: fn(&Leaves, &Leaves) -> usize,
    refusals: [usize; 2],
}

const RIGHT: Rules = Rules {
    full: |leaves, _| leaves.fanout,
    offset: split_offset,
    separator: |left, right, _| right[..common(left, right) + 1].to_vec(),
    number: |leaves| {
        let used = |number: &usize| leaves.list.iter().any(|leaf| leaf.number == *number);
        (0..).find(|number| !used(number)).expect("a number")
    },
    goes_right: |at, offset| at >= offset,
    tested: |_, after| after.charge(),
    refusals: [7, 8],
};

impl Rules {
    /// Only what the right answer accepts, or refuses as 7 or 8, is done anew.
    fn insert(&self, asked: &mut Asked) -> OldReply {
        let right = asked.unwritten();
        if !matches!(right.refusal, 0 | 7 | 8) {
            return right;
        }
        let leaves = asked.leaves().expect("an index");
        let (after, old) = self.after(&leaves, asked);
        let (pool, arena) = (asked.lent.dir.len(), asked.lent.arena.len());
        let refused = |number| match number {
            7 => after.list.len() > pool,
            _ => (self.tested)(&leaves, &after) > arena,
        };
        if let Some(number) = self.refusals.into_iter().find(|number| refused(*number)) {
            return asked.refused(number);
        }
        if let Some(old) = &old {
            asked.out[..old.len()].copy_from_slice(old);
        }
        self.left(&after, asked);
        OldReply {
            refusal: 0,
            length: old.as_ref().map_or(0, Vec::len),
            found: usize::from(old.is_some()),
            header: counts(&after),
        }
    }

    fn after(&self, leaves: &Leaves, asked: &Asked) -> (Leaves, Option<Vec<u8>>) {
        let mut after = leaves.clone();
        let owner = leaves.owner(asked.key);
        let pairs = &mut after.list[owner].pairs;
        let place = pairs.binary_search_by_key(&asked.key, |(key, _)| key);
        let new = (asked.key.to_vec(), asked.value.to_vec());
        let (at, old) = match place {
            Ok(at) => (at, Some(std::mem::replace(&mut pairs[at], new).1)),
            Err(at) => {
                pairs.insert(at, new);
                (at, None)
            }
        };
        if after.list[owner].pairs.len() == (self.full)(leaves, old.is_some()) {
            self.split(&mut after, owner, at);
        }
        (after, old)
    }

    fn split(&self, leaves: &mut Leaves, owner: usize, at: usize) {
        let n = leaves.list[owner].pairs.len();
        let has_upper = leaves.upper(owner).is_some();
        let prefix = leaves.prefix_length(owner);
        let number = (self.number)(leaves);
        let leaf = &mut leaves.list[owner];
        let offset = (self.offset)(n, leaf.low.is_empty(), has_upper).clamp(1, n - 1);
        let keys: Vec<Vec<u8>> = leaf.keys().cloned().collect();
        let low = (self.separator)(&keys[offset - 1], &keys[offset], prefix);
        let mut pairs = leaf.pairs.split_off(offset);
        if (self.goes_right)(at, offset) && at < offset {
            pairs.insert(0, leaf.pairs.remove(at));
        }
        leaves.list.insert(owner + 1, Leaf { number, low, pairs });
    }

    /// A list that can't be laid out leaves the buffers as they were.
    fn left(&self, after: &Leaves, asked: &mut Asked) {
        let (pool, arena) = (asked.lent.dir.len(), asked.lent.arena.len());
        let sound = (0..after.list.len()).all(|at| {
            let leaf = &after.list[at];
            let prefix = &leaf.low[..after.prefix_length(at)];
            leaf.pairs.len() < after.fanout
                && leaf.number < pool
                && leaf.keys().all(|key| key.starts_with(prefix))
        });
        if sound && after.stored() <= arena && after.list.len() <= pool {
            *asked.lent = reference::layout::write(after, pool, arena, &mut Random::new(1)).1;
        }
    }
}

fn counts(leaves: &Leaves) -> Header {
    Header {
        fanout: leaves.fanout,
        leaves: leaves.list.len(),
        pairs: leaves.pair_count(),
        charge: leaves.charge(),
    }
}

#[test]
fn no_slip_in_the_rules() {
    let right = super::Slipped([|asked| RIGHT.insert(asked), super::NO_SLIP]);
    for name in super::PARTS {
        let run = super::part(name, &right);
        run.unwrap_or_else(|report| panic!("{name}: {report}"));
    }
}

#[test]
fn slips_of_the_split() {
    let rows: [Row; 12] = [
        (
            "split before the insert, so that a replacement splits",
            |asked| {
                let full = |leaves: &Leaves, replaced| leaves.fanout - usize::from(replaced);
                Rules { full, ..RIGHT }.insert(asked)
            },
            &["examples", "runs"],
        ),
        (
            "split one pair late, where that can be stored",
            |asked| {
                let full = |leaves: &Leaves, _| leaves.fanout + 1;
                Rules { full, ..RIGHT }.insert(asked)
            },
            &["examples", "runs", "splits", "replays"],
        ),
        (
            "the whole smallest right key as separator",
            |asked| {
                let separator = |_: &[u8], right: &[u8], _| right.to_vec();
                Rules { separator, ..RIGHT }.insert(asked)
            },
            &["examples", "runs", "splits", "replays"],
        ),
        (
            "the prefix bytes counted twice in the separator",
            |asked| {
                let separator = |left: &[u8], right: &[u8], prefix: usize| {
                    let length = common(left, right) + 1;
                    [&right[..prefix], &right[..length]].concat()
                };
                Rules { separator, ..RIGHT }.insert(asked)
            },
            &["runs", "splits", "replays"],
        ),
        (
            "the separator from the left key",
            |asked| {
                let separator = |left: &[u8], right: &[u8], _| {
                    let length = common(left, right) + 1;
                    left[..length.min(left.len())].to_vec()
                };
                Rules { separator, ..RIGHT }.insert(asked)
            },
            &["examples", "runs", "splits", "replays"],
        ),
        (
            "the new pair always to the right half",
            |asked| {
                let goes_right = |_, _| true;
                Rules {
                    goes_right,
                    ..RIGHT
                }
                .insert(asked)
            },
            &["examples", "runs", "splits", "replays"],
        ),
        (
            "half rounded up",
            |asked| {
                let offset = |n: usize, low_is_empty, has_upper| match (low_is_empty, has_upper) {
                    (false, true) => n.div_ceil(2),
                    _ => split_offset(n, low_is_empty, has_upper),
                };
                Rules { offset, ..RIGHT }.insert(asked)
            },
            &["examples", "runs", "splits", "replays"],
        ),
        (
            "n - 1 in the last leaf",
            |asked| {
                let offset = |n: usize, low_is_empty, has_upper| match (low_is_empty, has_upper) {
                    (false, false) => n - 1,
                    _ => split_offset(n, low_is_empty, has_upper),
                };
                Rules { offset, ..RIGHT }.insert(asked)
            },
            &["examples", "runs", "splits", "replays"],
        ),
        (
            "the first leaf with an upper key cut as a middle one",
            |asked| {
                let offset = |n, low_is_empty: bool, has_upper: bool| {
                    split_offset(n, low_is_empty && !has_upper, has_upper)
                };
                Rules { offset, ..RIGHT }.insert(asked)
            },
            &["examples", "splits"],
        ),
        (
            "the only leaf cut as a last one",
            |asked| {
                let offset = |n, low_is_empty: bool, has_upper: bool| {
                    split_offset(n, low_is_empty && has_upper, has_upper)
                };
                Rules { offset, ..RIGHT }.insert(asked)
            },
            &["examples", "runs", "splits", "replays"],
        ),
        (
            "the number of leaves for the lowest free number",
            |asked| {
                let number = |leaves: &Leaves| leaves.list.len();
                Rules { number, ..RIGHT }.insert(asked)
            },
            &["examples", "runs", "splits"],
        ),
        (
            "a number above all in use, so that none comes back",
            |asked| {
                let number = |leaves: &Leaves| {
                    let numbers = leaves.list.iter().map(|leaf| leaf.number);
                    numbers.max().map_or(0, |most| most + 1)
                };
                Rules { number, ..RIGHT }.insert(asked)
            },
            &["examples", "mixed"],
        ),
    ];
    noticed(&rows);
}

#[test]
fn slips_of_the_room() {
    let rows: [Row; 7] = [
        (
            "an exactly full arena refused",
            |asked| {
                let tested = |_: &Leaves, after: &Leaves| after.charge() + 1;
                Rules { tested, ..RIGHT }.insert(asked)
            },
            &["examples", "runs", "splits", "replays"],
        ),
        (
            "8 before 7",
            |asked| {
                Rules {
                    refusals: [8, 7],
                    ..RIGHT
                }
                .insert(asked)
            },
            &["examples", "runs", "splits"],
        ),
        (
            "the charge without the separator",
            |asked| {
                let tested = |before: &Leaves, after: &Leaves| {
                    let lows = |it: &Leaves| it.list.iter().map(|leaf| leaf.low.len()).sum();
                    let (then, now): (usize, usize) = (lows(before), lows(after));
                    after.charge() - (now - then)
                };
                Rules { tested, ..RIGHT }.insert(asked)
            },
            &["examples", "runs", "splits", "replays"],
        ),
        (
            "stored bytes for the charge",
            |asked| {
                let tested = |_: &Leaves, after: &Leaves| after.stored();
                Rules { tested, ..RIGHT }.insert(asked)
            },
            &["examples", "runs", "splits"],
        ),
        (
            "the charge before the insert",
            |asked| {
                let tested = |before: &Leaves, _: &Leaves| before.charge();
                Rules { tested, ..RIGHT }.insert(asked)
            },
            &["examples", "runs", "splits", "replays"],
        ),
        (
            "the old value still charged",
            |asked| {
                let old = asked
                    .leaves()
                    .and_then(|it| it.get(asked.key).map(<[u8]>::len));
                let right = RIGHT.insert_tested(asked, old.unwrap_or(0));
                right.unwrap_or_else(|| asked.refused(8))
            },
            &["examples", "runs"],
        ),
        (
            "a replacement in a full pool refused",
            |asked| {
                let full = asked.header.leaves == asked.lent.dir.len();
                let leaves = asked.leaves();
                let full_leaf = leaves
                    .is_some_and(|it| it.list[it.owner(asked.key)].pairs.len() == it.fanout - 1);
                match asked.unwritten() {
                    right if right.refusal == 0 && full && full_leaf => asked.refused(7),
                    _ => asked.right(),
                }
            },
            &["examples", "runs"],
        ),
    ];
    noticed(&rows);
}

impl Rules {
    /// The right answer where so many bytes more have room, too.
    fn insert_tested(&self, asked: &mut Asked, more: usize) -> Option<OldReply> {
        let right = asked.unwritten();
        if right.refusal == 0 && right.header.charge + more > asked.lent.arena.len() {
            return None;
        }
        Some(asked.right())
    }
}
