//! The dump of docs/LAYOUT.md, whose places stand there too.

use super::{Examples, Held};
use crate::exports::{Place, Scanned, Shown};
use crate::reads::{Read, Reading};
use crate::session::Session;
use reference::buffers::{Buffers, Header};

impl Examples<'_> {
    pub(super) fn dump(&mut self) -> Result<(), String> {
        let asked: [(Read, Reading); 6] = [
            (Read::Get(b"\x61"), one_byte_at(1)),
            (Read::Get(b"\x62"), one_byte_at(4)),
            (Read::Get(b"\x63"), one_byte_at(6)),
            (Read::GetGt(b"\x61"), pair_with_value_at(4)),
            (Read::LeafAt(0), first_leaf()),
            (Read::LeafAt(1), last_leaf()),
        ];
        let held = self.held();
        let mut session = Session::new(self.reader, held);
        for (read, expected) in asked {
            let (seen, _) = session.ask(read, 1)?;
            if seen != expected {
                return Err(format!(
                    "docs/LAYOUT.md's dump: {read:?} gives {seen:?}, and there stands {expected:?}\n"
                ));
            }
        }
        self.tally.join(session.tally());
        Ok(())
    }

    /// Unused words and bytes hold anything.
    fn held(&mut self) -> Held {
        let header = Header {
            fanout: 3,
            leaves: 2,
            pairs: 3,
            charge: 7,
        };
        let mut lent = Buffers::any(3, 4, 64, &mut self.random);
        lent.dir[..2].copy_from_slice(&[0x0000_0001, 0x0010_0002]);
        lent.slots[0] = 0x0000_0000_0100_0001;
        lent.slots[2] = 0x0000_0000_0000_0000;
        lent.slots[3] = 0x0000_0030_0100_0001;
        lent.slots[4] = 0x0000_0050_0100_0001;
        lent.slots[5] = 0x0000_0020_0100_0000;
        lent.arena[..7].copy_from_slice(b"\x61\x01\x62\x62\x02\x63\x03");
        (header, lent)
    }
}

fn one_byte_at(offset: usize) -> Reading {
    Reading::Place(Place {
        refusal: 0,
        found: 1,
        offset,
        length: 1,
    })
}

fn pair_with_value_at(offset: usize) -> Reading {
    Reading::Scanned(Scanned {
        refusal: 0,
        length: 0,
        found: 1,
        key: 1,
        offset,
        value: 1,
    })
}

fn first_leaf() -> Reading {
    Reading::Shown(Shown {
        found: 1,
        has_upper: 1,
        upper_offset: 2,
        upper_length: 1,
        pairs: 1,
        ..Shown::default()
    })
}

fn last_leaf() -> Reading {
    Reading::Shown(Shown {
        found: 1,
        low_offset: 2,
        low_length: 1,
        pairs: 2,
        ..Shown::default()
    })
}
