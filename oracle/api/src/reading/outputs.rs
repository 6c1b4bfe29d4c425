//! Scans with outputs of every length, up to one more than needed.

use super::keys::worth_asking;
use super::on_indexes;
use crate::exports::{EXCLUDED, INCLUDED, OPEN};
use crate::reads::{Read, Reader, Reading};
use crate::session::{Session, WHOLE};
use crate::tally::Tally;

pub fn run(reader: &dyn Reader, seed: u64, indexes: usize) -> Result<Tally, String> {
    on_indexes(reader, seed, indexes, |session, random| {
        let leaves = session.leaves();
        let keys = worth_asking(leaves, random);
        let kinds = [random.pick(&[INCLUDED, EXCLUDED]), OPEN];
        every_length(session, Read::First)?;
        every_length(session, Read::GetGt(&keys[0]))?;
        every_length(session, Read::FirstInRange(kinds, &keys[1], &keys[0]))
    })
}

fn every_length(session: &mut Session, read: Read) -> Result<(), String> {
    let (Reading::Scanned(scan), _) = session.ask(read, WHOLE)? else {
        unreachable!("a scan's answer");
    };
    for room in 0..=scan.key + 1 {
        session.ask(read, room)?;
    }
    Ok(())
}
