//! Walks: each call goes on behind the last key. They list every pair of the
//! range in order, once.

use super::keys::random_one;
use super::on_indexes;
use crate::exports::{EXCLUDED, OPEN, Scanned};
use crate::reads::{Read, Reader, Reading};
use crate::session::{Session, WHOLE};
use crate::tally::Tally;
use reference::leaves::Pair;

/// A longer list is left out: its walk would ask too much.
const MOST_PAIRS: usize = 100;

pub fn run(reader: &dyn Reader, seed: u64, indexes: usize) -> Result<Tally, String> {
    on_indexes(reader, seed, indexes, |session, random| {
        let leaves = session.leaves();
        let pairs: Vec<Pair> = leaves.list.iter().flat_map(|it| it.pairs.clone()).collect();
        if pairs.len() > MOST_PAIRS {
            return Ok(());
        }
        let by_range = walk(session, [OPEN, OPEN], &[], &[])?;
        same("by ranges", &by_range, &pairs)?;
        let by_get_gt = walk_by_get_gt(session)?;
        same("by get_gt", &by_get_gt, &pairs)?;
        let keys: Vec<Vec<u8>> = pairs.iter().map(|(key, _)| key.clone()).collect();
        let Some(some) = (!keys.is_empty()).then(|| random_one(&keys, random)) else {
            return Ok(());
        };
        let prefix = &some[..random.below(some.len() + 1)];
        let with_prefix = walk_prefix(session, prefix)?;
        let mut begun = pairs;
        begun.retain(|(key, _)| key.starts_with(prefix));
        same("by scan_prefix", &with_prefix, &begun)
    })
}

fn same(name: &str, walked: &[Pair], pairs: &[Pair]) -> Result<(), String> {
    if walked == pairs {
        return Ok(());
    }
    let (walked, pairs) = (walked.len(), pairs.len());
    Err(format!(
        "a walk {name} lists {walked} pairs, not the {pairs}\n"
    ))
}

fn walk(
    session: &mut Session,
    kinds: [usize; 2],
    from: &[u8],
    to: &[u8],
) -> Result<Vec<Pair>, String> {
    let mut pairs: Vec<Pair> = Vec::new();
    let (mut start_kind, mut start) = (kinds[0], from.to_vec());
    while let Some(pair) = pair(
        session,
        Read::FirstInRange([start_kind, kinds[1]], &start, to),
    )? {
        (start_kind, start) = (EXCLUDED, pair.0.clone());
        pairs.push(pair);
    }
    Ok(pairs)
}

fn walk_by_get_gt(session: &mut Session) -> Result<Vec<Pair>, String> {
    let mut pairs: Vec<Pair> = Vec::new();
    let mut next = pair(session, Read::First)?;
    while let Some(last) = next {
        next = pair(session, Read::GetGt(&last.0))?;
        pairs.push(last);
    }
    Ok(pairs)
}

fn walk_prefix(session: &mut Session, prefix: &[u8]) -> Result<Vec<Pair>, String> {
    let (Reading::Span(span), end) = session.ask(Read::ScanPrefix(prefix), WHOLE)? else {
        unreachable!("a range");
    };
    walk(
        session,
        [span.start, span.end],
        prefix,
        &end[..span.end_length],
    )
}

/// The pair that a scan finds.
fn pair(session: &mut Session, read: Read) -> Result<Option<Pair>, String> {
    let (Reading::Scanned(scan), out) = session.ask(read, WHOLE)? else {
        unreachable!("a scan's answer");
    };
    let Scanned {
        key, offset, value, ..
    } = scan;
    let pair = || {
        (
            out[..key].to_vec(),
            session.arena()[offset..][..value].to_vec(),
        )
    };
    Ok((scan.found == 1).then(pair))
}
