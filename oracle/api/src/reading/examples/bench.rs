//! Document 01's examples.

use super::{Examples, Held};
use crate::exports::{EXCLUDED, INCLUDED, OPEN};
use crate::reads::Read;
use crate::session::WHOLE;
use reference::layout::write;
use reference::leaves::{Leaf, Leaves};

impl Examples<'_> {
    pub(super) fn bench(&mut self) -> Result<(), String> {
        self.the_run()?;
        self.prefix_lengths()?;
        self.prefix_ends()?;
        self.emptied()?;
        self.limits()?;
        self.inverted_and_equal()?;
        self.behind_a_prefix()
    }

    fn the_run(&mut self) -> Result<(), String> {
        let held = self.run_of_01(&[]);
        self.ask(
            "01's run",
            held,
            &[
                (Read::LeafAt(0), 0, "leaf - 62 0 1"),
                (Read::LeafAt(1), 0, "leaf 62 * 0 2"),
                (Read::LeafAt(2), 0, "none"),
                (Read::Get(b"\x62"), 0, "value 02"),
                (Read::Get(b"\x61\x00"), 0, "none"),
                (Read::ContainsKey(b"\x63"), 0, "held"),
                (Read::ContainsKey(b"\x64"), 0, "none"),
                (Read::First, 1, "pair 61 01"),
                (Read::GetGt(b"\x61"), 1, "pair 62 02"),
                (Read::GetGt(b"\x63"), 1, "none"),
            ],
        )
    }

    fn prefix_lengths(&mut self) -> Result<(), String> {
        let held = self.with_lows(&[b"", b"\x61\x61", b"\x61\x63"]);
        let asked = (Read::LeafAt(1), 0, "leaf 6161 6163 1 1");
        self.ask("A3, 6161 and 6163", held, &[asked])?;
        let held = self.with_lows(&[b"", b"\x61", b"\x61\x62"]);
        let asked = (Read::LeafAt(1), 0, "leaf 61 6162 1 1");
        self.ask("A3, 61 and 6162", held, &[asked])?;
        let held = self.with_lows(&[b"", b"\x61\x61"]);
        let asked = (Read::LeafAt(1), 0, "leaf 6161 * 0 1");
        self.ask("A3, 6161 and none", held, &[asked])
    }

    fn prefix_ends(&mut self) -> Result<(), String> {
        let held = self.run_of_01(&[]);
        let all_ff = [0xff; 512];
        self.ask(
            "A4",
            held,
            &[
                (Read::ScanPrefix(b"\x61\xff"), 1, "included excluded 62"),
                (Read::ScanPrefix(b"\xff"), 0, "included open"),
                (Read::ScanPrefix(b""), 0, "included open"),
                (Read::ScanPrefix(b"\xff\xff"), 0, "included open"),
                (Read::ScanPrefix(b"\x61\xff\xff"), 1, "included excluded 62"),
                (Read::ScanPrefix(b"\x00"), 1, "included excluded 01"),
                (Read::ScanPrefix(b"\xfe"), 1, "included excluded ff"),
                (Read::ScanPrefix(b"\x61\xff"), 0, "refused 5 needs 1"),
                (Read::ScanPrefix(&all_ff), 0, "included open"),
                (Read::ScanPrefix(&[0xff; 513]), 0, "refused 3"),
            ],
        )
    }

    fn emptied(&mut self) -> Result<(), String> {
        let held = self.run_of_01(&[b"\x62", b"\x63"]);
        self.ask(
            "A5",
            held,
            &[
                (Read::LeafAt(0), 0, "leaf - 62 0 1"),
                (Read::LeafAt(1), 0, "leaf 62 * 0 0"),
                (Read::GetGt(b"\x61"), WHOLE, "none"),
                (Read::Get(b"\x62"), 0, "none"),
            ],
        )?;
        let held = self.run_of_01(&[b"\x62", b"\x63", b"\x61"]);
        self.ask(
            "A5, all removed",
            held,
            &[
                (Read::LeafAt(0), 0, "leaf - * 0 0"),
                (Read::LeafAt(1), 0, "none"),
                (Read::First, 0, "none"),
            ],
        )
    }

    fn limits(&mut self) -> Result<(), String> {
        let held = self.run_of_01(&[]);
        let (most, over) = ([0x62; 512], [0x62; 513]);
        let open = Read::FirstInRange([OPEN, OPEN], &over, &over);
        self.ask(
            "A7",
            held,
            &[
                (Read::Get(&most), 0, "none"),
                (Read::Get(&over), 0, "refused 3"),
                (Read::ContainsKey(&over), 0, "refused 3"),
                (Read::GetGt(&most), 1, "pair 63 03"),
                (Read::GetGt(&over), 0, "refused 3"),
                (open, 1, "pair 61 01"),
            ],
        )
    }

    fn inverted_and_equal(&mut self) -> Result<(), String> {
        let held = self.run_of_01(&[]);
        let inverted = |kinds| Read::FirstInRange(kinds, b"\x62", b"\x61");
        let equal = |kinds| Read::FirstInRange(kinds, b"\x62", b"\x62");
        self.ask(
            "A9",
            held,
            &[
                (inverted([INCLUDED, INCLUDED]), 0, "refused 6"),
                (inverted([INCLUDED, EXCLUDED]), 0, "refused 6"),
                (inverted([EXCLUDED, INCLUDED]), 0, "refused 6"),
                (inverted([EXCLUDED, EXCLUDED]), 0, "refused 6"),
                (inverted([OPEN, INCLUDED]), 1, "pair 61 01"),
                (inverted([INCLUDED, OPEN]), 1, "pair 62 02"),
                (equal([EXCLUDED, EXCLUDED]), 0, "none"),
                (equal([INCLUDED, EXCLUDED]), 0, "none"),
                (equal([EXCLUDED, INCLUDED]), 0, "none"),
                (equal([INCLUDED, INCLUDED]), 1, "pair 62 02"),
            ],
        )
    }

    fn behind_a_prefix(&mut self) -> Result<(), String> {
        let puts: [(&[u8], &[u8]); 4] = [
            (b"\x61\x60", b"\x01"),
            (b"\x61\x61\x61", b"\x02"),
            (b"\x61\x63", b"\x03"),
            (b"\x61\x64", b"\x04"),
        ];
        let held = self.made(64, &puts, &[]);
        self.ask(
            "A10",
            held,
            &[
                (Read::LeafAt(1), 0, "leaf 6161 6163 1 1"),
                (Read::Get(b"\x61\x61\x61"), 0, "value 02"),
                (Read::Get(b"\x61\x61"), 0, "none"),
                (Read::GetGt(b"\x61\x60"), 3, "pair 616161 02"),
                (Read::GetGt(b"\x61\x60"), 2, "refused 5 needs 3"),
            ],
        )
    }

    fn run_of_01(&mut self, removes: &[&[u8]]) -> Held {
        let puts: [(&[u8], &[u8]); 3] =
            [(b"\x61", b"\x01"), (b"\x62", b"\x02"), (b"\x63", b"\x03")];
        self.made(64, &puts, removes)
    }

    /// Leaves with these low keys, each of which is held.
    fn with_lows(&mut self, lows: &[&[u8]]) -> Held {
        let leaf = |(number, low): (usize, &&[u8])| Leaf {
            number,
            low: low.to_vec(),
            pairs: vec![(low.to_vec(), Vec::new())],
        };
        let list = lows.iter().enumerate().map(leaf).collect();
        write(&Leaves { fanout: 3, list }, 4, 64, &mut self.random)
    }
}
