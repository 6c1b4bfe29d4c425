//! Traps that a reading call can fall into.

use super::{Examples, Held};
use crate::exports::{EXCLUDED, INCLUDED, OPEN};
use crate::reads::Read;

impl Examples<'_> {
    pub(super) fn traps(&mut self) -> Result<(), String> {
        self.bounds_without_the_prefix()?;
        self.keys_that_are_prefixes()?;
        self.longest_separators()?;
        self.empty_key()?;
        self.nothing_stored()?;
        self.order()
    }

    fn bounds_without_the_prefix(&mut self) -> Result<(), String> {
        let held = self.with_prefixes();
        let behind_60 = |kind, end| Read::FirstInRange([EXCLUDED, kind], b"\x60", end);
        let up_to = |kind, end| Read::FirstInRange([OPEN, kind], b"", end);
        self.ask(
            "bounds without the prefix",
            held,
            &[
                (Read::LeafAt(1), 0, "leaf 61 6161 1 1"),
                (Read::LeafAt(2), 0, "leaf 6161 6162 1 1"),
                (behind_60(INCLUDED, b"\x60"), 0, "none"),
                (behind_60(EXCLUDED, b"\x60"), 0, "none"),
                (behind_60(INCLUDED, b"\x60\xff"), 0, "none"),
                (behind_60(EXCLUDED, b"\x61"), 0, "none"),
                (behind_60(INCLUDED, b"\x61"), 1, "pair 61 02"),
                (behind_60(EXCLUDED, b"\x61\x00"), 1, "pair 61 02"),
                (behind_60(INCLUDED, b"\x62"), 1, "pair 61 02"),
                (up_to(INCLUDED, b""), 0, "none"),
                (up_to(EXCLUDED, b""), 0, "none"),
                (up_to(EXCLUDED, b"\x60"), 0, "none"),
                (up_to(INCLUDED, b"\x60"), 1, "pair 60 01"),
            ],
        )
    }

    fn keys_that_are_prefixes(&mut self) -> Result<(), String> {
        let held = self.with_prefixes();
        let only_61 = Read::FirstInRange([INCLUDED, INCLUDED], b"\x61", b"\x61");
        self.ask(
            "keys that are prefixes",
            held,
            &[
                (Read::Get(b"\x61"), 0, "value 02"),
                (Read::ContainsKey(b"\x61"), 0, "held"),
                (Read::Get(b"\x61\x00"), 0, "none"),
                (only_61, 1, "pair 61 02"),
                (only_61, 0, "refused 5 needs 1"),
                (Read::GetGt(b"\x60"), 1, "pair 61 02"),
                (Read::GetGt(b"\x61"), 2, "pair 6161 03"),
                (Read::GetGt(b"\x61"), 1, "refused 5 needs 2"),
            ],
        )
    }

    fn longest_separators(&mut self) -> Result<(), String> {
        let key = |last: u8| [&[0x6b; 511][..], &[last]].concat();
        let (keys, over) = ([key(0), key(1), key(2)], [0x6b; 513]);
        let pairs = keys.iter().map(|key| (key.as_slice(), &[][..]));
        let pairs: Vec<(&[u8], &[u8])> = pairs.collect();
        // Their charge: three keys and a separator.
        let held = self.made(2_048, &pairs, &[]);
        let stem = "6b".repeat(511);
        let end = format!("included excluded {}6c", "6b".repeat(510));
        let prefix = [&[0x6b; 511][..], &[0xff]].concat();
        self.ask(
            "longest separators",
            held,
            &[
                (Read::LeafAt(0), 0, &format!("leaf - {stem}01 0 1")),
                (Read::LeafAt(1), 0, &format!("leaf {stem}01 * 0 2")),
                (Read::Get(&keys[0]), 0, "value -"),
                (Read::Get(&keys[1]), 0, "value -"),
                (Read::Get(&over), 0, "refused 3"),
                (Read::GetGt(&keys[1]), 512, &format!("pair {stem}02 -")),
                (Read::GetGt(&keys[1]), 511, "refused 5 needs 512"),
                (Read::GetGt(&keys[2]), 0, "none"),
                (Read::ScanPrefix(&prefix), 511, &end),
                (Read::ScanPrefix(&prefix), 510, "refused 5 needs 511"),
            ],
        )
    }

    fn empty_key(&mut self) -> Result<(), String> {
        let held = self.made(64, &[(b"", b"\x01"), (b"\x61", b"\x02")], &[]);
        let whole = Read::FirstInRange([OPEN, OPEN], b"", b"");
        let only_empty = Read::FirstInRange([INCLUDED, INCLUDED], b"", b"");
        self.ask(
            "the empty key",
            held,
            &[
                (Read::GetGt(b""), 1, "pair 61 02"),
                (Read::First, 0, "pair - 01"),
                (whole, 0, "pair - 01"),
                (only_empty, 0, "pair - 01"),
                (Read::Get(b""), 0, "value 01"),
            ],
        )
    }

    fn nothing_stored(&mut self) -> Result<(), String> {
        let held = self.made(0, &[(b"", b"")], &[]);
        self.ask(
            "nothing stored",
            held,
            &[
                (Read::ContainsKey(b""), 0, "held"),
                (Read::Get(b""), 0, "value -"),
                (Read::First, 0, "pair - -"),
                (Read::GetGt(b""), 0, "none"),
                (Read::LeafAt(0), 0, "leaf - * 0 1"),
            ],
        )
    }

    fn order(&mut self) -> Result<(), String> {
        let keys: [&[u8]; 4] = [b"\x61\x00", b"\x62", b"\x7f", b"\x80"];
        let held = self.made(64, &keys.map(|key| (key, &[][..])), &[]);
        self.ask(
            "order of bytes",
            held,
            &[
                (Read::First, 2, "pair 6100 -"),
                (Read::GetGt(b"\x61\x00"), 2, "pair 62 -"),
                (Read::GetGt(b"\x7f"), 2, "pair 80 -"),
                (Read::GetGt(b"\x80"), 2, "none"),
                (Read::Get(b"\x80"), 0, "value -"),
            ],
        )
    }

    /// Leaf 61 to 6161 has 61 in its slots no more, leaf 6161 to 6162 neither.
    fn with_prefixes(&mut self) -> Held {
        self.made(
            64,
            &[
                (b"\x60", b"\x01"),
                (b"\x61", b"\x02"),
                (b"\x61\x61", b"\x03"),
                (b"\x61\x62", b"\x04"),
                (b"\x61\x63", b"\x05"),
            ],
            &[],
        )
    }
}
