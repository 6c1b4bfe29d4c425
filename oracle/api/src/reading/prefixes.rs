//! `scan_prefix`, with outputs of every length up to one more than needed.

use crate::reads::{Read, Reader, Reading, no_index};
use crate::session::{Session, WHOLE};
use crate::tally::Tally;
use reference::index::KEY_LIMIT;
use reference::random::Random;

const LETTERS: [u8; 5] = [0x00, 0x61, 0x7f, 0xfe, 0xff];
/// A long prefix has many outputs, so it is drawn once in so many times.
const LONG: usize = 16;

pub fn run(reader: &dyn Reader, seed: u64, prefixes: usize) -> Result<Tally, String> {
    let mut random = Random::new(seed);
    let mut session = Session::new(reader, no_index());
    for number in 0..prefixes {
        every_length(&mut session, &prefix(&mut random))
            .map_err(|report| format!("seed {seed}, prefix {number}: {report}"))?;
    }
    Ok(session.tally().clone())
}

fn every_length(session: &mut Session, prefix: &[u8]) -> Result<(), String> {
    let read = Read::ScanPrefix(prefix);
    let (Reading::Span(span), _) = session.ask(read, WHOLE)? else {
        unreachable!("a range");
    };
    for room in 0..=span.end_length + 1 {
        session.ask(read, room)?;
    }
    Ok(())
}

/// A few letters, and FF bytes behind them.
fn prefix(random: &mut Random) -> Vec<u8> {
    let limit = if random.one_in(LONG) { KEY_LIMIT } else { 4 };
    let any_length = random.below(limit + 1);
    let length = random.pick(&[limit, any_length, any_length]);
    let any_front = random.below(length + 1);
    let front = random.pick(&[0, length, any_front, any_front]);
    let mut prefix: Vec<u8> = (0..front).map(|_| random.pick(&LETTERS)).collect();
    prefix.resize(length, 0xff);
    if random.one_in(LONG) {
        let over = random.pick(&[KEY_LIMIT + 1, 600]);
        prefix.resize(over, random.pick(&LETTERS));
    }
    prefix
}
