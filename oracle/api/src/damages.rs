//! Random damage to random indexes, which may meet W still.

use crate::compare::compare;
use crate::sides::{Call, Side};
use crate::tally::Tally;
use reference::buffers::{Buffers, Header};
use reference::damage::damage;
use reference::layout::write;
use reference::lists::draw;
use reference::random::Random;

const DAMAGES_OF_ONE: usize = 8;

/// A random list that meets W, in random buffers.
pub(crate) fn any_index(random: &mut Random) -> (Header, Buffers) {
    let drawn = draw(random);
    write(&drawn.leaves, drawn.pool, drawn.arena_len, random)
}

pub fn run(side: &dyn Side, seed: u64, damages: usize) -> Result<Tally, String> {
    let mut random = Random::new(seed);
    let mut held = any_index(&mut random);
    let mut tally = Tally::default();
    for number in 0..damages {
        if number % DAMAGES_OF_ONE == 0 {
            held = any_index(&mut random);
        }
        let (mut header, mut lent) = held.clone();
        damage(random.word(), &mut header, &mut lent);
        let answer = compare(side, Call::HoldsIndex(header), &mut lent)
            .map_err(|report| format!("seed {seed}, damage {number}: {report}"))?;
        tally.add(answer.outcome());
    }
    Ok(tally)
}
