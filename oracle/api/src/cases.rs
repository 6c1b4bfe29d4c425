//! The reference's named cases, each with its correct twin.

use crate::compare::compare;
use crate::sides::{Call, Side};
use crate::tally::Tally;
use reference::cases::cases;

pub fn run(side: &dyn Side, seed: u64) -> Result<Tally, String> {
    let mut tally = Tally::default();
    for mut case in cases(seed) {
        for (twin, held) in [("twin of ", &mut case.good), ("", &mut case.damaged)] {
            let answer = compare(side, Call::HoldsIndex(held.0), &mut held.1)
                .map_err(|report| format!("seed {seed}, {twin}{}: {report}", case.name))?;
            tally.add(answer.outcome());
        }
    }
    Ok(tally)
}
