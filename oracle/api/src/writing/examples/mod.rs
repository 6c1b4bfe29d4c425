//! Document 01's examples of inserts and removes, and traps that these can fall
//! into: each answer is held to what stands there, and not only to the reference.

mod bench;
mod removes;
mod shrunk;
mod traps;

use crate::exports::OldReply;
use crate::history::History;
use crate::parts::suffixes;
use crate::reads::{Reader, hex};
use crate::tally::Tally;
use crate::writes::{Write, Writer};
use reference::buffers::{Buffers, Header};
use reference::index::Index;
use reference::leaves::{Leaf, Leaves};
use reference::random::Random;

type Held = (Header, Buffers);

/// What is done, and what stands there.
enum Step<'a> {
    /// Key, value, room for the old value, answer.
    Put(&'a [u8], &'a [u8], usize, &'a str),
    /// Key, room for the old value, answer.
    Del(&'a [u8], usize, &'a str),
    /// The leaf list, a line for each leaf, and the charge.
    Leaves(&'a [&'a str], usize),
    /// The pool numbers in key order.
    Numbers(&'a [usize]),
    /// What the slots of the leaf at this place store of its keys, read from the
    /// words and the arena.
    Stored(usize, &'a [&'a [u8]]),
}

pub fn run(writer: &dyn Writer, reader: &dyn Reader, seed: u64) -> Result<Tally, String> {
    let mut examples = Examples {
        writer,
        reader,
        random: Random::new(seed),
        tally: Tally::default(),
    };
    examples.bench()?;
    examples.traps()?;
    examples.removes()?;
    examples.shrunk_prefixes()?;
    Ok(examples.tally)
}

struct Examples<'a> {
    writer: &'a dyn Writer,
    reader: &'a dyn Reader,
    random: Random,
    tally: Tally,
}

impl Examples<'_> {
    fn ask(&mut self, name: &str, held: Held, steps: &[Step]) -> Result<(), String> {
        self.ask_all(name, held, &steps.iter().collect::<Vec<_>>())
    }

    fn ask_all(&mut self, name: &str, held: Held, steps: &[&Step]) -> Result<(), String> {
        let mut history = History::new(self.writer, held);
        for step in steps {
            one(&mut history, step).map_err(|report| format!("{name}: {report}"))?;
        }
        super::read_back(self.reader, &mut history, &[])?;
        self.tally.join(history.tally());
        Ok(())
    }

    fn fresh(&mut self, fanout: usize, pool: usize, arena: usize) -> Held {
        super::fresh(fanout, pool, arena, &mut self.random)
    }

    /// Leaves with these numbers, low keys and keys. Each value is one byte.
    fn made(&mut self, fanout: usize, pool: usize, arena: usize, leaves: &[Made]) -> Held {
        self.made_with(&[0x2a], fanout, pool, arena, leaves)
    }

    /// With this value for each key.
    fn made_with(
        &mut self,
        value: &[u8],
        fanout: usize,
        pool: usize,
        arena: usize,
        leaves: &[Made],
    ) -> Held {
        let pair = |key: &&[u8]| (key.to_vec(), value.to_vec());
        let leaf = |(number, low, keys): &Made| Leaf {
            number: *number,
            low: low.to_vec(),
            pairs: keys.iter().map(pair).collect(),
        };
        let list = leaves.iter().map(leaf).collect();
        let leaves = Leaves { fanout, list };
        reference::layout::write(&leaves, pool, arena, &mut self.random)
    }
}

/// A leaf's number, low key and keys.
type Made<'a> = (usize, &'a [u8], &'a [&'a [u8]]);

fn one(history: &mut History, step: &Step) -> Result<(), String> {
    let (seen, expected) = match *step {
        Step::Put(key, value, room, expected) => {
            let (reply, out) = history.ask(Write::Insert(key, value), room)?;
            (answer(reply, &out), expected.to_string())
        }
        Step::Del(key, room, expected) => {
            let (reply, out) = history.ask(Write::Remove(key), room)?;
            (answer(reply, &out), expected.to_string())
        }
        Step::Leaves(lines, charge) => {
            let seen = (shown(history.leaves()), history.header().charge);
            let lines: Vec<String> = lines.iter().map(|line| line.to_string()).collect();
            (format!("{seen:?}"), format!("{:?}", (lines, charge)))
        }
        Step::Numbers(numbers) => {
            let list = history.leaves().list.iter();
            let seen: Vec<usize> = list.map(|leaf| leaf.number).collect();
            (format!("{seen:?}"), format!("{numbers:?}"))
        }
        Step::Stored(at, stored) => {
            let (header, lent) = history.held();
            let seen = suffixes(&header, &lent, at);
            let [seen, stored] = [&seen, stored].map(|all| all.iter().map(|it| hex(it)));
            (
                seen.collect::<Vec<_>>().join(" "),
                stored.collect::<Vec<_>>().join(" "),
            )
        }
    };
    match seen == expected {
        true => Ok(()),
        false => Err(format!("{seen}, and there stands {expected}\n")),
    }
}

fn answer(reply: OldReply, out: &[u8]) -> String {
    match reply.refusal {
        0 if reply.found == 0 => "none".to_string(),
        0 => format!("old {}", hex(&out[..reply.length])),
        5 => format!("refused 5 needs {}", reply.length),
        number => format!("refused {number}"),
    }
}

/// As the script shows leaves.
fn shown(leaves: &Leaves) -> Vec<String> {
    let index = Index::holding(leaves.clone(), usize::MAX, usize::MAX);
    let leaf = |at| {
        let leaf = index.leaf_at(at).expect("a leaf");
        let upper = leaf.upper.map_or("*".to_string(), hex);
        let (low, prefix, pairs) = (hex(leaf.low), leaf.prefix_length, leaf.pairs.len());
        format!("leaf {low} {upper} {prefix} {pairs}")
    };
    (0..leaves.list.len()).map(leaf).collect()
}
