//! `get` and `contains_key`.

use super::keys::{too_long, worth_asking};
use super::on_indexes;
use crate::reads::{Read, Reader};
use crate::tally::Tally;

const KEYS_OF_ONE: usize = 24;

pub fn run(reader: &dyn Reader, seed: u64, indexes: usize) -> Result<Tally, String> {
    on_indexes(reader, seed, indexes, |session, random| {
        let leaves = session.leaves();
        let mut keys = worth_asking(leaves, random);
        let long = too_long(&keys, random);
        keys.truncate(KEYS_OF_ONE);
        keys.push(long);
        for key in &keys {
            session.ask(Read::Get(key), 0)?;
            session.ask(Read::ContainsKey(key), 0)?;
        }
        Ok(())
    })
}
