//! W broken in one place, each time beside a correct twin.

mod fields;
mod limits;
mod lists;
mod places;

use crate::buffers::{Buffers, Header};
use crate::layout::write;
use crate::leaves::{Leaf, Leaves};
use crate::random::Random;

pub type Held = (Header, Buffers);

#[derive(Clone, Debug)]
pub struct Case {
    pub name: &'static str,
    /// The clause that the damaged one breaks first, by its name in `w`.
    pub clause: &'static str,
    pub good: Held,
    pub damaged: Held,
}

/// All cases, with gaps and unused contents drawn from the seed.
pub fn cases(seed: u64) -> Vec<Case> {
    let mut set = Set {
        random: Random::new(seed),
        clause: "",
        cases: Vec::new(),
    };
    limits::add(&mut set);
    lists::add(&mut set);
    places::add(&mut set);
    fields::add(&mut set);
    set.cases
}

struct Set {
    random: Random,
    clause: &'static str,
    cases: Vec<Case>,
}

impl Set {
    /// The clause that the cases after this break.
    fn clause(&mut self, clause: &'static str) {
        self.clause = clause;
    }

    fn add(&mut self, name: &'static str, good: Held, damaged: Held) {
        self.cases.push(Case {
            name,
            clause: self.clause,
            good,
            damaged,
        });
    }

    /// The list with some bytes of its arena to spare.
    fn lay(&mut self, leaves: &Leaves) -> Held {
        write(leaves, POOL, leaves.charge() + 9, &mut self.random)
    }
}

const POOL: usize = 5;

/// Three leaves, the middle one with a prefix: charge 15, stored bytes 13.
fn three_leaves() -> Leaves {
    let list = vec![
        leaf(3, b"", &[(b"a", b"1")]),
        leaf(0, b"bb", &[(b"bb", b""), (b"bc", b"2")]),
        leaf(4, b"bd", &[(b"bd", b""), (b"c", b"3")]),
    ];
    Leaves { fanout: 4, list }
}

fn leaf(number: usize, low: &[u8], pairs: &[(&[u8], &[u8])]) -> Leaf {
    let owned = |(key, value): &(&[u8], &[u8])| (key.to_vec(), value.to_vec());
    Leaf {
        number,
        low: low.to_vec(),
        pairs: pairs.iter().map(owned).collect(),
    }
}
