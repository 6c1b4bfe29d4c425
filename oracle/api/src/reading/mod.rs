//! The parts of the comparison that ask the reading calls.

pub mod damaged;
pub mod examples;
pub mod indexes;
mod keys;
pub mod leaf_lists;
pub mod lookups;
pub mod outputs;
pub mod prefixes;
pub mod ranges;
pub mod walks;

use crate::reads::Reader;
use crate::session::Session;
use crate::tally::Tally;
use reference::random::Random;

/// Asks of so many random indexes, each by itself.
fn on_indexes(
    reader: &dyn Reader,
    seed: u64,
    count: usize,
    ask: impl Fn(&mut Session, &mut Random) -> Result<(), String>,
) -> Result<Tally, String> {
    let mut random = Random::new(seed);
    let mut tally = Tally::default();
    for number in 0..count {
        let mut session = Session::new(reader, indexes::any(&mut random));
        ask(&mut session, &mut random)
            .map_err(|report| format!("seed {seed}, index {number}: {report}"))?;
        tally.join(session.tally());
    }
    Ok(tally)
}
