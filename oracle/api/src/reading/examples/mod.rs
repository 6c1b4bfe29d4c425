//! Document 01's examples, traps that a reading call can fall into, and
//! docs/LAYOUT.md's dump: each answer is held to what stands there, and not
//! only to the reference.

mod bench;
mod dump;
mod in_words;
mod traps;

use crate::reads::{Read, Reader};
use crate::session::Session;
use crate::tally::Tally;
use reference::buffers::{Buffers, Header};
use reference::index::Index;
use reference::layout::write;
use reference::random::Random;

/// A call, its output's length, and its answer `in_words`.
type Asked<'a> = (Read<'a>, usize, &'a str);
type Held = (Header, Buffers);

pub fn run(reader: &dyn Reader, seed: u64) -> Result<Tally, String> {
    let mut examples = Examples {
        reader,
        random: Random::new(seed),
        tally: Tally::default(),
    };
    examples.bench()?;
    examples.traps()?;
    examples.dump()?;
    Ok(examples.tally)
}

struct Examples<'a> {
    reader: &'a dyn Reader,
    random: Random,
    tally: Tally,
}

impl Examples<'_> {
    fn ask(&mut self, name: &str, held: Held, asked: &[Asked]) -> Result<(), String> {
        let mut session = Session::new(self.reader, held);
        for (read, room, expected) in asked {
            let answer = session.ask(*read, *room);
            let (reading, out) = answer.map_err(|report| format!("{name}: {report}"))?;
            let seen = in_words::of(reading, &out, session.arena());
            if seen != *expected {
                return Err(format!(
                    "{name}: {read:?} gives {seen}, and there stands {expected}\n"
                ));
            }
        }
        self.tally.join(session.tally());
        Ok(())
    }

    /// The index after these puts and removes.
    fn made(&mut self, arena: usize, puts: &[(&[u8], &[u8])], removes: &[&[u8]]) -> Held {
        const POOL: usize = 8;
        let mut index = Index::create(3, POOL, 3 * POOL, arena).expect("sizes within limits");
        for (key, value) in puts {
            assert_eq!(index.insert(key, value, &mut []), Ok(None));
        }
        for key in removes {
            assert_eq!(index.remove(key, &mut [0]), Ok(Some(1)));
        }
        write(index.leaves(), POOL, arena, &mut self.random)
    }
}
