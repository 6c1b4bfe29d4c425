//! sled's answers to calls, in the reference's words.

use calls::call::{Call, Span};
use calls::words::{leaf_words, pair_words, pairs_words, value_words};
use sled_oracle::{Pair, Sled};
use std::ops::Bound;

#[derive(Default)]
pub struct SledCalls(Option<Sled>);

impl SledCalls {
    pub fn answer(&mut self, call: &Call) -> String {
        if let Call::Create(shape) = call {
            self.0 = Sled::new(shape.fanout);
            return "created".to_string();
        }
        answer(
            self.0
                .as_ref()
                .expect("a creation with a fanout that sled has"),
            call,
        )
    }
}

fn answer(sled: &Sled, call: &Call) -> String {
    match call {
        Call::Insert { key, value, .. } => value_words(sled.insert(key, value).as_deref()),
        Call::Remove { key, .. } => value_words(sled.remove(key).as_deref()),
        Call::Get { key } => value_words(sled.get(key).as_deref()),
        Call::ContainsKey { key } => sled.contains_key(key).to_string(),
        Call::Len => sled.len().to_string(),
        Call::Clear => {
            sled.clear();
            "cleared".to_string()
        }
        Call::First { .. } => one(sled.first()),
        Call::GetGt { key, .. } => one(sled.get_gt(key)),
        Call::FirstInRange { span, .. } => {
            let (start, end) = bounds(span);
            one(sled.range_first(start, end))
        }
        Call::WalkRange { span } => {
            let (start, end) = bounds(span);
            pairs_words(&sled.range_all(start, end))
        }
        Call::WalkPrefix { prefix } => pairs_words(&sled.scan_prefix_all(prefix)),
        Call::Leaves => sled
            .leaves()
            .iter()
            .map(|leaf| {
                let upper = leaf.upper.as_deref();
                leaf_words(&leaf.low, upper, leaf.prefix_length, &leaf.pairs)
            })
            .collect(),
        Call::Create(_) | Call::ScanPrefix { .. } | Call::Layout => {
            unreachable!("sled has no such call")
        }
    }
}

fn one(pair: Option<Pair>) -> String {
    pair_words(pair.as_ref().map(|(key, value)| (&key[..], &value[..])))
}

fn bounds(span: &Span) -> (Bound<&[u8]>, Bound<&[u8]>) {
    let (start, end) = (span.range.start, span.range.end);
    (start.standard(&span.start), end.standard(&span.end))
}
