//! The reading calls on damaged buffers. Each is given something besides that
//! would be refused otherwise, if only the buffers held an index.

use super::keys::{random_one, too_long, worth_asking};
use crate::damages::any_index;
use crate::exports::{EXCLUDED, INCLUDED, OPEN};
use crate::reads::{Read, Reader};
use crate::session::{Session, WHOLE};
use crate::tally::Tally;
use reference::buffers::{Buffers, Header};
use reference::cases::cases;
use reference::damage::damage;
use reference::layout::read;
use reference::random::Random;

/// Random damages, after which the buffers may meet W still.
pub fn run(reader: &dyn Reader, seed: u64, damages: usize) -> Result<Tally, String> {
    let mut random = Random::new(seed);
    let mut tally = Tally::default();
    for number in 0..damages {
        let (mut header, mut lent) = any_index(&mut random);
        let keys = keys(&header, &lent, &mut random);
        damage(random.word(), &mut header, &mut lent);
        let mut session = Session::new(reader, (header, lent));
        ask(&mut session, &keys, &mut random)
            .map_err(|report| format!("seed {seed}, damage {number}: {report}"))?;
        tally.join(session.tally());
    }
    Ok(tally)
}

/// Each clause of W broken, and its correct twin.
pub fn run_cases(reader: &dyn Reader, seed: u64) -> Result<Tally, String> {
    let mut random = Random::new(seed);
    let mut tally = Tally::default();
    for case in cases(seed) {
        let keys = keys(&case.good.0, &case.good.1, &mut random);
        for (twin, held) in [("twin of ", case.good), ("", case.damaged)] {
            let mut session = Session::new(reader, held);
            ask(&mut session, &keys, &mut random)
                .map_err(|report| format!("seed {seed}, {twin}{}: {report}", case.name))?;
            tally.join(session.tally());
        }
    }
    Ok(tally)
}

/// Keys of the index before it is damaged.
fn keys(header: &Header, lent: &Buffers, random: &mut Random) -> Vec<Vec<u8>> {
    let leaves = read(header, &lent.dir, &lent.slots, &lent.arena);
    worth_asking(&leaves.expect("an index"), random)
}

fn ask(session: &mut Session, keys: &[Vec<u8>], random: &mut Random) -> Result<(), String> {
    let mut two = [random_one(keys, random), random_one(keys, random)];
    two.sort_unstable();
    let [below, above] = &two;
    let long = &too_long(keys, random);
    for key in [below, above, long] {
        session.ask(Read::Get(key), 0)?;
        session.ask(Read::ContainsKey(key), 0)?;
        session.ask(Read::GetGt(key), random.pick(&[0, WHOLE]))?;
    }
    for (start, end) in [(below, above), (above, below), (below, long)] {
        let read = Read::FirstInRange([INCLUDED, EXCLUDED], start, end);
        session.ask(read, random.pick(&[0, WHOLE]))?;
    }
    session.ask(Read::FirstInRange([OPEN, OPEN], long, long), WHOLE)?;
    session.ask(Read::First, random.pick(&[0, WHOLE]))?;
    for at in [0, 1, usize::MAX] {
        session.ask(Read::LeafAt(at), 0)?;
    }
    Ok(())
}
