//! The parts of the comparison that make changing calls.

pub mod damaged;
mod draws;
pub mod examples;
pub mod merges;
pub mod mixed;
pub mod refills;
pub mod replays;
pub mod runs;
pub mod splits;

use crate::history::History;
use crate::reading::indexes;
use crate::reads::{Read, Reader};
use crate::session::Session;
use crate::sides::{Answer, Call, Reference, Side};
use reference::buffers::{Buffers, Header};
use reference::random::Random;

/// Of a longer list only some leaves are asked for.
const MOST_LEAVES: usize = 40;

/// A fresh index in buffers with any contents. The sizes are within limits.
fn fresh(fanout: usize, pool: usize, arena: usize, random: &mut Random) -> (Header, Buffers) {
    let mut lent = Buffers::any(fanout, pool, arena, random);
    let Answer::Changed(reply) = Reference.answer(Call::Create(fanout), &mut lent) else {
        unreachable!("creation's answer");
    };
    (reply.header, lent)
}

const FANOUTS: [usize; 10] = [3, 3, 3, 4, 4, 5, 5, 8, 63, 64];
const POOLS: [usize; 8] = [1, 2, 4, 8, 40, 40, 40, 40];
/// Small ones are soon full.
const ARENAS: [usize; 8] = [0, 40, 200, 1_000, 4_000, 20_000, 20_000, 80_000];
/// Once in so many draws the largest pool or arena is lent.
const LARGE: usize = 64;
const LARGEST_POOL: usize = 4_096;
const LARGEST_ARENA: usize = 1_048_576;

/// Mostly a fresh index, else any that meets W.
fn start(random: &mut Random) -> (Header, Buffers) {
    if random.one_in(4) {
        return indexes::any(random);
    }
    let fanout = random.pick(&FANOUTS);
    let mut pool = random.pick(&POOLS);
    let mut arena = random.pick(&ARENAS);
    if random.one_in(LARGE) {
        pool = LARGEST_POOL;
    }
    if random.one_in(LARGE) {
        arena = LARGEST_ARENA;
    }
    fresh(fanout, pool, arena, random)
}

/// Asks the reader for what the calls have left: the leaf list, and some keys.
fn read_back(reader: &dyn Reader, history: &mut History, keys: &[&[u8]]) -> Result<(), String> {
    let mut session = Session::new(reader, history.held());
    let leaves = history.header().leaves;
    for at in (0..=leaves).step_by(leaves.div_ceil(MOST_LEAVES)) {
        session.ask(Read::LeafAt(at), 0)?;
    }
    for key in keys {
        session.ask(Read::Get(key), 0)?;
    }
    history.join(session.tally());
    Ok(())
}
