//! What happens to the leaves in a script, in words.

use drive::lines::{answers, lines};
use reference::leaves::Leaves;
use std::collections::BTreeSet;

/// In the lines that `said`, the answers, accept.
pub fn watch(script: &[u8], said: &[u8]) -> BTreeSet<String> {
    let mut seen = BTreeSet::new();
    // Each script has an accepted `new` before the first change.
    let mut leaves = Leaves::fresh(0);
    for (line, answer) in lines(script).into_iter().zip(answers(said)) {
        if answer.starts_with(b"refused ") || answer == b"bad line\n" {
            continue;
        }
        let line = str::from_utf8(line).unwrap().trim_end();
        let before = leaves.clone();
        match line.split(' ').collect::<Vec<&str>>()[..] {
            ["new", fanout, ..] => leaves = Leaves::fresh(fanout.parse().unwrap()),
            ["put", key, value] => {
                let key = bytes(key);
                let old = leaves.insert(&key, &bytes(value));
                seen.extend(put(&key, old.is_some(), &before, &leaves));
            }
            ["del", key] => {
                let key = bytes(key);
                leaves.remove(&key);
                seen.extend(del(&key, &before, &leaves));
            }
            _ => (),
        }
    }
    seen
}

fn bytes(word: &str) -> Vec<u8> {
    let digits = word.trim_start_matches('-');
    let places = (0..digits.len()).step_by(2);
    places
        .map(|at| u8::from_str_radix(&digits[at..at + 2], 16).unwrap())
        .collect()
}

/// Of a leaf with an empty low key, or with an upper key.
pub fn split(fanout: usize, low: bool, upper: bool) -> String {
    format!("split at {fanout}, low key empty: {low}, upper key: {upper}")
}

/// The same with the new key's place among the leaf's.
pub fn split_place(fanout: usize, low: bool, upper: bool, place: usize) -> String {
    format!("{}, place {place}", split(fanout, low, upper))
}

fn put(key: &[u8], replaced: bool, before: &Leaves, after: &Leaves) -> Vec<String> {
    let mut seen = Vec::new();
    let (at, fanout) = (before.owner(key), before.fanout);
    let owner = &before.list[at];
    if before.list.len() < after.list.len() {
        let (low, upper) = (owner.low.is_empty(), before.upper(at).is_some());
        let place = owner.keys().filter(|other| other[..] < *key).count();
        seen.push(split(fanout, low, upper));
        seen.push(split_place(fanout, low, upper, place));
    }
    if replaced && owner.pairs.len() == fanout - 1 {
        seen.push(format!("replacement in a leaf of {fanout} - 1"));
    }
    if at > 0 && owner.low == key {
        seen.push("a separator as key".to_string());
    }
    seen
}

fn del(key: &[u8], before: &Leaves, after: &Leaves) -> Vec<String> {
    let mut seen = Vec::new();
    let (at, last) = (before.owner(key), before.list.len() - 1);
    if before.list.len() > after.list.len() {
        let place = match at {
            0 => "first",
            _ if at + 1 == last => "last but one",
            _ => "middle",
        };
        seen.push(format!("{place} leaf takes its neighbour"));
        let (then, now) = (before.prefix_length(at + 1), after.prefix_length(at));
        let given_back = match now {
            _ if now == then => "no",
            0 => "all",
            _ => "some",
        };
        seen.push(format!("{given_back} prefix bytes given back"));
    } else if at == last && last > 0 && after.list[at].pairs.is_empty() {
        seen.push("last leaf empty".to_string());
    }
    seen
}
