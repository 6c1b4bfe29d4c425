//! The reference's answers to calls.

use crate::call::{Call, Shape};
use crate::make::calls;
use crate::words::{leaf_words, pair_words, pairs_words, refusal_words, value_words};
use reference::index::{Found, Index, KEY_LIMIT, scan_prefix};
use reference::leaves::Pair;
use reference::range::{Bound, Range};
use reference::refusal::Refusal;

/// What a lent output holds before the call.
const UNTOUCHED: u8 = 0xee;

#[derive(Clone)]
pub struct Reference {
    index: Option<Index>,
    checks: bool,
}

impl Reference {
    /// With `checks` every call asserts document 01's rules.
    pub fn new(checks: bool) -> Reference {
        let index = None;
        Reference { index, checks }
    }

    pub fn answer(&mut self, call: &Call) -> String {
        let answer = match (call, &mut self.index) {
            (Call::Create(shape), _) => self.create(shape),
            (_, Some(index)) => answer(index, call),
            (_, None) => Ok("no index".to_string()),
        };
        answer.unwrap_or_else(refusal_words)
    }

    /// A refused creation leaves the index of an earlier one.
    fn create(&mut self, shape: &Shape) -> Result<String, Refusal> {
        let mut index = Index::create(shape.fanout, shape.pool, shape.slots, shape.arena)?;
        index.checks = self.checks;
        self.index = Some(index);
        Ok("created".to_string())
    }
}

/// The calls of a seed and the reference's answers, unchecked, one a line.
pub fn told(seed: u64) -> String {
    let mut reference = Reference::new(false);
    let mut told = |call: Call| format!("{call:?}: {}\n", reference.answer(&call));
    calls(seed, false).into_iter().map(&mut told).collect()
}

fn answer(index: &mut Index, call: &Call) -> Result<String, Refusal> {
    Ok(match call {
        Call::Create(_) => unreachable!("needs no index"),
        Call::Insert { key, value, room } => {
            let old = lend(*room, |out| Ok((index.insert(key, value, out)?, ())))?.0;
            value_words(old.as_deref())
        }
        Call::Remove { key, room } => {
            let old = lend(*room, |out| Ok((index.remove(key, out)?, ())))?.0;
            value_words(old.as_deref())
        }
        Call::Get { key } => value_words(index.get(key)?),
        Call::ContainsKey { key } => index.contains_key(key)?.to_string(),
        Call::Len => index.len().to_string(),
        Call::Clear => {
            index.clear();
            "cleared".to_string()
        }
        Call::First { room } => scan(*room, |out| index.first(out))?,
        Call::GetGt { key, room } => scan(*room, |out| index.get_gt(key, out))?,
        Call::FirstInRange { span, room } => scan(*room, |out| {
            index.first_in_range(span.range, &span.start, &span.end, out)
        })?,
        Call::WalkRange { span } => pairs_words(&walk(index, span.range, &span.start, &span.end)?),
        Call::ScanPrefix { prefix, room } => {
            let (end, range) = lend(*room, |out| {
                let (range, length) = scan_prefix(prefix, out)?;
                Ok((Some(length), range))
            })?;
            format!("{range:?} {}", value_words(end.as_deref()))
        }
        Call::WalkPrefix { prefix } => {
            let mut end = [0; KEY_LIMIT];
            let (range, length) = scan_prefix(prefix, &mut end)?;
            pairs_words(&walk(index, range, prefix, &end[..length])?)
        }
        Call::Leaves => {
            let leaves = (0..).map_while(|at| index.leaf_at(at));
            leaves
                .map(|leaf| leaf_words(leaf.low, leaf.upper, leaf.prefix_length, leaf.pairs))
                .collect()
        }
        Call::Layout => {
            let leaves = index.leaves();
            let numbers: Vec<usize> = leaves.list.iter().map(|leaf| leaf.number).collect();
            let (charge, stored) = (leaves.charge(), leaves.stored());
            format!("numbers {numbers:?}, charge {charge}, stored {stored}")
        }
    })
}

/// Lends an output to a call that says how much of it was written; gives that
/// part. All other bytes must keep their contents, at a refusal every byte.
fn lend<T>(
    room: usize,
    call: impl FnOnce(&mut [u8]) -> Result<(Option<usize>, T), Refusal>,
) -> Result<(Option<Vec<u8>>, T), Refusal> {
    let mut out = vec![UNTOUCHED; room];
    let answer = call(&mut out);
    let length = answer.as_ref().map_or(None, |(length, _)| *length);
    let rest = out.split_off(length.unwrap_or(0));
    assert!(rest.iter().all(|byte| *byte == UNTOUCHED), "output touched");
    answer.map(|(_, more)| (length.map(|_| out), more))
}

fn scan<'a>(
    room: usize,
    call: impl FnOnce(&mut [u8]) -> Result<Option<Found<'a>>, Refusal>,
) -> Result<String, Refusal> {
    let (key, found) = lend(room, |out| {
        let found = call(out)?;
        Ok((found.map(|found| found.key_length), found))
    })?;
    let value = found.map_or(&[][..], |found| found.value);
    Ok(pair_words(key.as_deref().map(|key| (key, value))))
}

/// Goes on with "excluded, last key"; a walk that doesn't end is cut off.
fn walk(index: &Index, range: Range, start: &[u8], end: &[u8]) -> Result<Vec<Pair>, Refusal> {
    let (mut range, mut start) = (range, start.to_vec());
    let mut key = [0; KEY_LIMIT];
    let mut pairs = Vec::new();
    while let Some(found) = index.first_in_range(range, &start, end, &mut key)?
        && pairs.len() <= index.len()
    {
        start = key[..found.key_length].to_vec();
        range.start = Bound::Excluded;
        pairs.push((start.clone(), found.value.to_vec()));
    }
    Ok(pairs)
}
