//! `len` and `clear`, by turns on random indexes and on damaged ones.

use crate::compare::compare;
use crate::damages::any_index;
use crate::sides::{Call, Side};
use crate::tally::Tally;
use reference::damage::damage;
use reference::random::Random;

pub fn run(side: &dyn Side, seed: u64, indexes: usize) -> Result<Tally, String> {
    let mut random = Random::new(seed);
    let mut tally = Tally::default();
    for number in 0..indexes {
        let (mut header, mut lent) = any_index(&mut random);
        if number % 2 == 1 {
            damage(random.word(), &mut header, &mut lent);
        }
        for call in [Call::Len(header), Call::Clear(header)] {
            let answer = compare(side, call, &mut lent)
                .map_err(|report| format!("seed {seed}, index {number}: {report}"))?;
            tally.add(answer.outcome());
        }
    }
    Ok(tally)
}
