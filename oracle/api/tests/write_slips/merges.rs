//! Slips in the rules of a remove, each in one place of a rule of its own.

use super::{Asked, Row, noticed_in_removes};
use api::exports::OldReply;
use reference::buffers::Header;
use reference::layout;
use reference::leaves::{Leaves, common};
use reference::random::Random;

/// A remove by document 01, in places that can be changed.
struct Rules {
    /// Whether the leaf at a place, which has just lost a pair, takes its
    /// neighbour.
    merges: fn(&Leaves, usize) -> bool,
    /// What becomes of the leaf list where it does.
    merge: fn(&mut Leaves, usize),
    /// How many bytes of a key that changes its leaf its slot leaves out, by the
    /// lists before and after the merge and the taker's place.
    left_out: fn(&Leaves, &Leaves, usize) -> usize,
    /// The charge that the header then tells, by the same lists.
    charge: fn(&Leaves, &Leaves) -> usize,
}

const RIGHT: Rules = Rules {
    merges: |leaves, at| leaves.list[at].pairs.is_empty() && leaves.upper(at).is_some(),
    merge: |leaves, at| {
        let neighbour = leaves.list.remove(at + 1);
        leaves.list[at].pairs = neighbour.pairs;
    },
    left_out: |_, after, at| after.prefix_length(at),
    charge: |_, after| after.charge(),
};

impl Rules {
    /// Only a remove that the right answer accepts is done anew.
    fn remove(&self, asked: &mut Asked) -> OldReply {
        let right = asked.unwritten();
        if right.found == 0 {
            return right;
        }
        let mut before = asked.leaves().expect("an index");
        let at = before.owner(asked.key);
        let old = before.get(asked.key).expect("held").to_vec();
        before.list[at].pairs.retain(|(key, _)| key != asked.key);
        let mut after = before.clone();
        if (self.merges)(&before, at) {
            (self.merge)(&mut after, at);
        }
        let header = Header {
            fanout: after.fanout,
            leaves: after.list.len(),
            pairs: after.pair_count(),
            charge: (self.charge)(&before, &after),
        };
        if after.list.len() < before.list.len() {
            self.cut(&before, &mut after, at);
        }
        asked.out[..old.len()].copy_from_slice(&old);
        leave(&after, asked);
        OldReply {
            refusal: 0,
            length: old.len(),
            found: 1,
            header,
        }
    }

    /// What is read back of keys whose slots leave out too much: the prefix and
    /// the suffix that is stored.
    fn cut(&self, before: &Leaves, after: &mut Leaves, at: usize) {
        let Some(prefix) = (at < after.list.len()).then(|| after.prefix_length(at)) else {
            return;
        };
        let left_out = (self.left_out)(before, after, at);
        for (key, _) in &mut after.list[at].pairs {
            let from = left_out.min(key.len());
            *key = [&key[..prefix.min(key.len())], &key[from..]].concat();
        }
    }
}

/// A list that can't be laid out leaves the buffers as they were.
fn leave(after: &Leaves, asked: &mut Asked) {
    let (pool, arena) = (asked.lent.dir.len(), asked.lent.arena.len());
    let sound = (0..after.list.len()).all(|at| {
        let leaf = &after.list[at];
        let prefix = &leaf.low[..after.prefix_length(at)];
        leaf.pairs.len() < after.fanout && leaf.keys().all(|key| key.starts_with(prefix))
    });
    if sound && after.stored() <= arena {
        *asked.lent = layout::write(after, pool, arena, &mut Random::new(1)).1;
    }
}

#[test]
fn no_slip_in_the_rules() {
    let right = super::Slipped([super::NO_SLIP, |asked| RIGHT.remove(asked)]);
    for name in super::PARTS {
        let run = super::part(name, &right);
        run.unwrap_or_else(|report| panic!("{name}: {report}"));
    }
}

const ALL: &[&str] = &["examples", "merges", "refills", "mixed"];

#[test]
fn slips_of_when_leaves_merge() {
    let rows: [Row; 5] = [
        (
            "an emptied leaf stays",
            |asked| {
                let merges = |_: &Leaves, _| false;
                Rules { merges, ..RIGHT }.remove(asked)
            },
            ALL,
        ),
        (
            "a merge with one pair left",
            |asked| {
                let merges = |leaves: &Leaves, at: usize| {
                    leaves.list[at].pairs.len() < 2 && leaves.upper(at).is_some()
                };
                Rules { merges, ..RIGHT }.remove(asked)
            },
            ALL,
        ),
        (
            "the first leaf not merged",
            |asked| {
                let merges = |leaves: &Leaves, at: usize| at > 0 && (RIGHT.merges)(leaves, at);
                Rules { merges, ..RIGHT }.remove(asked)
            },
            ALL,
        ),
        (
            "the last but one not merged",
            |asked| {
                let merges = |leaves: &Leaves, at: usize| {
                    at + 2 < leaves.list.len() && (RIGHT.merges)(leaves, at)
                };
                Rules { merges, ..RIGHT }.remove(asked)
            },
            ALL,
        ),
        (
            "the last leaf merged into the one before",
            |asked| {
                let merges = |leaves: &Leaves, at: usize| {
                    leaves.list[at].pairs.is_empty() && leaves.list.len() > 1
                };
                let merge = |leaves: &mut Leaves, at: usize| match leaves.upper(at) {
                    Some(_) => (RIGHT.merge)(leaves, at),
                    None => drop(leaves.list.remove(at)),
                };
                Rules {
                    merges,
                    merge,
                    ..RIGHT
                }
                .remove(asked)
            },
            ALL,
        ),
    ];
    noticed_in_removes(&rows);
}

#[test]
fn slips_of_what_a_merge_leaves() {
    let rows: [Row; 9] = [
        (
            "prefix bytes not given back",
            |asked| {
                let left_out =
                    |before: &Leaves, _: &Leaves, at: usize| before.prefix_length(at + 1);
                Rules { left_out, ..RIGHT }.remove(asked)
            },
            ALL,
        ),
        (
            "the taker's old upper key for its prefix",
            |asked| {
                let left_out = |before: &Leaves, _: &Leaves, at: usize| before.prefix_length(at);
                Rules { left_out, ..RIGHT }.remove(asked)
            },
            &["merges", "refills", "mixed"],
        ),
        (
            "the taker keeps its old upper key: the neighbour stays, empty",
            |asked| {
                let merge = |leaves: &mut Leaves, at: usize| {
                    leaves.list[at].pairs = std::mem::take(&mut leaves.list[at + 1].pairs);
                };
                Rules { merge, ..RIGHT }.remove(asked)
            },
            ALL,
        ),
        (
            "the taker takes the low key",
            |asked| {
                let merge = |leaves: &mut Leaves, at: usize| {
                    let neighbour = leaves.list.remove(at + 1);
                    let low = if at == 0 { Vec::new() } else { neighbour.low };
                    leaves.list[at].low = low;
                    leaves.list[at].pairs = neighbour.pairs;
                };
                Rules { merge, ..RIGHT }.remove(asked)
            },
            ALL,
        ),
        (
            "the taker's number freed, the neighbour's not",
            |asked| {
                let merge = |leaves: &mut Leaves, at: usize| {
                    let neighbour = leaves.list.remove(at + 1);
                    leaves.list[at].number = neighbour.number;
                    leaves.list[at].pairs = neighbour.pairs;
                };
                Rules { merge, ..RIGHT }.remove(asked)
            },
            ALL,
        ),
        (
            "the emptied leaf's directory word dropped",
            |asked| {
                let merge = |leaves: &mut Leaves, at: usize| drop(leaves.list.remove(at));
                Rules { merge, ..RIGHT }.remove(asked)
            },
            ALL,
        ),
        (
            "the last directory word dropped",
            |asked| {
                let merge = |leaves: &mut Leaves, at: usize| {
                    leaves.list[at].pairs = std::mem::take(&mut leaves.list[at + 1].pairs);
                    leaves.list.pop();
                };
                Rules { merge, ..RIGHT }.remove(asked)
            },
            ALL,
        ),
        (
            "the charge with the low key that went",
            |asked| {
                let charge = |before: &Leaves, after: &Leaves| {
                    let lows = |it: &Leaves| it.list.iter().map(|leaf| leaf.low.len()).sum();
                    let (then, now): (usize, usize) = (lows(before), lows(after));
                    after.charge() + then - now
                };
                Rules { charge, ..RIGHT }.remove(asked)
            },
            ALL,
        ),
        (
            "the charge by what was stored before",
            |asked| {
                let charge = |before: &Leaves, after: &Leaves| match before == after {
                    true => after.charge(),
                    false => before.stored(),
                };
                Rules { charge, ..RIGHT }.remove(asked)
            },
            &["merges", "refills", "mixed"],
        ),
    ];
    noticed_in_removes(&rows);
}

#[test]
fn slips_of_the_removed_pair() {
    let rows: [Row; 2] = [
        (
            "the pair beside it goes",
            |asked| {
                let reply = asked.right();
                let leaves = asked.leaves_by(&reply.header);
                let Some(mut after) = leaves.filter(|_| reply.found == 1) else {
                    return reply;
                };
                let at = after.owner(asked.key);
                if let Some(beside) = after.list[at].pairs.first_mut() {
                    let longer = [&beside.0[..], &[0x00]].concat();
                    beside.0 = longer;
                }
                leave(&after, asked);
                reply
            },
            ALL,
        ),
        (
            "another key's bytes given back for the prefix",
            |asked| {
                let before = asked.leaves();
                let reply = asked.right();
                let (Some(before), Some(mut after)) = (before, asked.leaves_by(&reply.header))
                else {
                    return reply;
                };
                if after.list.len() == before.list.len() {
                    return reply;
                }
                let at = after.owner(asked.key);
                let now = after.prefix_length(at);
                let then = before.prefix_length(at + 1);
                let low = before.list[at].low.clone();
                for (key, _) in &mut after.list[at].pairs {
                    let shared = common(&low, key).max(now);
                    for byte in &mut key[shared.min(then)..then] {
                        *byte ^= 1;
                    }
                }
                leave(&after, asked);
                reply
            },
            ALL,
        ),
    ];
    noticed_in_removes(&rows);
}
